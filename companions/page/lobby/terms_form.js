/** The box with a game's terms, for seeks and challenges. */

import { closeBoxes } from "../shell/boxes.js";
import { anyArray, showArray } from "./fischer_view.js";
import { byId, onClick, onClickAt, onSubmit, tellMember } from "../shell/elements.js";
import { Terms } from "../game/terms.js";
import { t } from "../shell/texts.js";

const NUMBERS = /** @type {const} */ (["minutes", "increment", "fischer"]);

/** @param {NUMBERS[number]} id */
function whole(id) {
  return byId(id).valueAsNumber;
}

function chosenTerms() {
  const variant = byId("variant").value === "fischer" ? `fischer ${whole("fischer")}` : byId("variant").value;
  return new Terms(whole("minutes"), whole("increment"), variant, byId("colour").value);
}

/** Sends a line with the terms, and closes the box once it is done; where a number is out of its bounds the browser
 * says so.
 * @param {Session} session @param {string} head */
async function send(session, head) {
  if (byId("terms-form").reportValidity() && (await session.act(`${head} ${chosenTerms()}`)).isDone) {
    closeBoxes("terms");
  }
}

/** @param {Session} session */
function challenge(session) {
  const name = byId("match-name").value.trim();
  if (name) {
    send(session, `match ${name}`);
  } else {
    tellMember(t("lobby.challenge-whom"));
    byId("match-name").focus();
  }
}

/** Opens the box, to challenge a player where one is named. */
export function openTerms(name = "") {
  byId("match-name").value = name;
  showKind();
  byId("terms").showModal();
  byId(name ? "match" : "minutes").focus();
}

/** Only Fischer random has a number; nobody seeks bughouse; where a name stands, one challenges. */
function showKind() {
  const isFischer = byId("variant").value === "fischer";
  byId("fischer").disabled = !isFischer;
  /** @type {NodeListOf<HTMLElement>} */
  const ofFischer = document.querySelectorAll("#terms .of-fischer");
  ofFischer.forEach((it) => { it.hidden = !isFischer; });
  showArray(byId("fischer-array"), whole("fischer"));
  byId("seek").disabled = byId("variant").value === "bughouse";
  const isChallenge = byId("match-name").value.trim() !== "" || byId("seek").disabled;
  byId("match").classList.toggle("strong", isChallenge);
  byId("seek").classList.toggle("strong", !isChallenge);
}

/** @param {Session} session */
export function listenForTerms(session) {
  byId("variant").addEventListener("change", showKind);
  byId("match-name").addEventListener("input", showKind);
  byId("match-name").addEventListener("keydown", (event) => {
    if (event.key === "Enter") {
      event.preventDefault();
      challenge(session);
    }
  });
  for (const id of NUMBERS) {
    byId(id).required = true;
  }
  onClickAt(document, "[data-challenge]", (button) => openTerms(button.dataset.challenge));
  onSubmit("terms-form", () => send(session, "seek"));
  onClick("match", () => challenge(session));
  byId("fischer").addEventListener("input", showKind);
  onClick("fischer-die", () => {
    byId("fischer").value = String(anyArray());
    showKind();
  });
  session.on(["creating", "continuing"], () => closeBoxes("terms"));
}
