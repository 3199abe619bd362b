/** The game that is shown is copied, or saved as a file, as PGN. */

import { byId, onClick, tellMember } from "../shell/elements.js";
import { fileName, pgnOf } from "../game/pgn.js";
import { t } from "../shell/texts.js";

/** Puts a text on the clipboard; where the browser keeps that for safe pages, by way of a field.
 * @param {string} text */
async function copy(text) {
  if (navigator.clipboard) {
    await navigator.clipboard.writeText(text);
    return;
  }
  const field = document.createElement("textarea");
  field.value = text;
  document.body.append(field);
  field.select();
  document.execCommand("copy");
  field.remove();
}

/** Copies a game's text, and says so.
 * @param {string} pgn */
export async function copyPgn(pgn) {
  await copy(pgn);
  tellMember(t("pgn.copied"));
  byId("pgn-copy").focus();
}

/** @param {string} name @param {string} text */
function save(name, text) {
  const link = document.createElement("a");
  link.href = URL.createObjectURL(new Blob([text], { type: "application/x-chess-pgn" }));
  link.download = name;
  link.click();
  setTimeout(() => URL.revokeObjectURL(link.href), 10_000);
}

/** @param {Games} games */
export function listenForPgn(games) {
  onClick("pgn-copy", async () => {
    if (games.shown) {
      await copyPgn(pgnOf(games.shown, location.host));
    }
  });
  onClick("pgn-save", () => games.shown && save(fileName(games.shown), pgnOf(games.shown, location.host)));
}
