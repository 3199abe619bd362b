/** The account, what reaches the member, and who is kept away. The server shows nothing of it, so the page
 * remembers. */

import { hideButton, hideGuestsButton } from "../talk/hide.js";
import { showRows } from "../shell/list.js";
import { byId, onSubmit, tellMember } from "../shell/elements.js";
import { isPassword } from "./passwords.js";
import { onLanguage, t } from "../shell/texts.js";

const LISTS = /** @type {const} */ (["censor", "noplay"]);
const VARIABLES = ["open", "shout", "seek"];
const GUEST = /^Guest[A-Z]{4}$/; // a name that the server gives

/** The box of a variable.
 * @param {string} name */
function boxOf(name) {
  return /** @type {HTMLInputElement} */ (byId(`set-${name}`));
}

export class Settings {
  /** @param {Session} session @param {Preferences} preferences */
  constructor(session, preferences) {
    this.session = session;
    this.preferences = preferences;
    session.on("entered", (event) => { byId("register-name").value = event.who; });
    /** @type {Record<LISTS[number], Map<string, string>>} */
    this.kept = { censor: new Map(), noplay: new Map() }; // by the name in small letters
    session.onAnswer((answer) => this.take(answer));
    onSubmit("register-form", () => this.register());
    onSubmit("keep-form", () => this.keep());
    for (const name of VARIABLES) {
      const box = boxOf(name);
      box.addEventListener("change", () => session.act(`set ${name} ${box.checked ? 1 : 0}`));
    }
    onLanguage(() => this.showKept());
    this.showKept();
  }

  /** Whether that player is kept away from the member's games, or from telling it anything too.
   * @param {string} who */
  isKeptAway(who) {
    return LISTS.some((it) => this.kept[it].has(who.toLowerCase()));
  }

  /** Whether the member has named that player as one of whom it is told nothing.
   * @param {string} who */
  isHidden(who) {
    return this.kept.censor.has(who.toLowerCase());
  }

  /** Whether what that player says is shown.
   * @param {string} who */
  isShown(who) {
    return !this.isHidden(who) && (this.preferences.get("guests") || !GUEST.test(who));
  }

  /** The switch by which nothing of what that player says is shown. At a guest's it is of all guests, who come again
   * under other names.
   * @param {string} who */
  hideOf(who) {
    const isHidden = this.isHidden(who);
    return GUEST.test(who) && !isHidden ? hideGuestsButton(!this.preferences.get("guests")) : hideButton(who, isHidden);
  }

  /** Whether the member wants to be asked by that player.
   * @param {string} who */
  wants(who) {
    return byId("set-open").checked && !this.isKeptAway(who);
  }

  async register() {
    const field = byId("register-password");
    if (!isPassword(field.value)) {
      tellMember(t(field.value ? "password.blanks" : "password.none"), "refusal");
      field.focus();
      return;
    }
    const answer = await this.session.act(`register ${field.value}`);
    if (answer.isDone) {
      field.value = "";
      tellMember(t("account.done", { who: this.session.me }));
    }
  }

  keep() {
    const name = byId("keep-name").value.trim();
    if (name) {
      this.session.act(`+${byId("keep-list").value} ${name}`);
    }
  }

  /** Takes what was done, whoever typed it.
   * @param {Answer} answer */
  take(answer) {
    if (!answer.all("ok").length) {
      return;
    }
    const [, first = "", second = ""] = answer.said.trim().split(/ +/);
    const list = LISTS.find((it) => it === answer.command.slice(1));
    if (answer.command === "set" && VARIABLES.includes(first)) {
      boxOf(first).checked = second === "1";
    } else if (list) {
      if (answer.command[0] === "+") {
        this.kept[list].set(first.toLowerCase(), first);
      } else {
        this.kept[list].delete(first.toLowerCase());
      }
      this.showKept();
    }
  }

  showKept() {
    const rows = LISTS.flatMap((list) => [...this.kept[list].values()].map((who) => ({
      key: `${list} ${who}`, text: t(`keep.no-${list}`, { who }),
      buttons: [{ label: t("keep.allow"), name: t(`keep.allow-${list}`, { who }), command: `-${list} ${who}` }],
    })));
    showRows(byId("kept"), rows, t("keep.nobody"));
  }

  forget() {
    Object.values(this.kept).forEach((it) => it.clear());
    VARIABLES.forEach((it) => { boxOf(it).checked = true; });
    this.showKept();
  }
}
