/** What others ask of the member until it is answered: challenges, partners, adjourned games. It lies over the page,
 * two at a time, and never moves it. During a game it is folded behind a button with their number. */

import { showRows } from "../shell/list.js";
import { byId, element, icon, onClick, onClickAt, tellMember } from "../shell/elements.js";
import { onLanguage, t } from "../shell/texts.js";

const MOST = 2; // that are shown at a time
const KINDS = {
  "partner-asked": { text: "call.partner", label: "call.be-partners", command: "partner" },
  "resume-asked": { text: "call.resume", label: "call.go-on", command: "resume" },
};

/** @param {Call} call */
function rowOf({ kind, who }) {
  const { text, label, command } = KINDS[kind];
  const line = `${command} ${who}`;
  const [yes, no] = [t(label), t("call.not-now")];
  return { key: line, text: t(text, { who }), buttons: [
    { label: yes, name: t("call.name", { label: yes, who }), command: line, className: "strong" },
    { label: no, name: t("call.name", { label: no, who }), dismiss: line },
  ] };
}

export class Calls {
  /** `isPlaying()` says whether the member is in a game that wants its eyes; `wants(who)` whether the member wants to
   * be asked by that player; `changed(count)` is told how many stand, `shows(keys)` which are seen here.
   * @param {Session} session @param {CallsListeners} listeners */
  constructor(session, { isPlaying, wants, changed, shows }) {
    this.isPlaying = isPlaying;
    this.wants = wants;
    this.changed = changed;
    this.shows = shows;
    /** @type {Row[]} */
    this.challenges = [];
    /** @type {Map<string, Call>} */
    this.asked = new Map(); // by the command that agrees
    this.isOpen = false; // unfolded by the member
    this.number = element("span");
    byId("calls-open").append(icon("bell"), this.number);
    session.on(["partner-asked", "resume-asked"], (event) => this.ask(event));
    session.on(["partners", "continuing"], () => this.forget());
    session.onAnswer((answer) => this.take(answer));
    onClick("calls-open", () => this.unfold(!this.isOpen));
    onLanguage(() => this.show());
    onClickAt(byId("calls"), "[data-dismiss]", (button) => this.answered(button.dataset.dismiss ?? ""));
  }

  /** @param {Call} call */
  ask({ kind, who }) {
    if (this.wants(who)) {
      this.asked.set(`${KINDS[kind].command} ${who}`, { kind, who });
      this.show();
    }
  }

  /** Takes the rows of the challenges that stand.
   * @param {Row[]} rows */
  challenged(rows) {
    this.challenges = rows;
    this.show();
  }

  /** @param {Answer} answer */
  take(answer) {
    this.answered(answer.line);
    if (answer.command === "resume" && answer.all("asked").length) {
      tellMember(t("stored.asked"));
    }
  }

  /** @param {string | null} line */
  answered(line) {
    if (line !== null && this.asked.delete(line)) {
      this.show();
    }
  }

  forget() {
    this.asked.clear();
    this.challenges = [];
    this.isOpen = false;
    this.show();
  }

  /** @param {boolean} isOpen */
  unfold(isOpen) {
    this.isOpen = isOpen;
    this.show();
    if (isOpen) {
      byId("calls").focus();
    }
  }

  /** Shows them, or during a game their number alone. */
  show() {
    const all = [...this.challenges, ...[...this.asked.values()].map(rowOf)];
    const isFolded = this.isPlaying() && !this.isOpen;
    const shown = all.slice(0, MOST);
    const more = all.length - shown.length;
    showRows(byId("calls"), more ? [...shown, { key: "more", text: t("call.more", { n: more }), className: "more" }]
      : shown);
    byId("calls").hidden = isFolded || !all.length;
    this.isOpen &&= all.length > 0;
    this.showButton(all.length, isFolded);
    this.changed(all.length);
    this.shows(isFolded ? [] : shown.map((it) => it.key));
  }

  /** @param {number} count @param {boolean} isFolded */
  showButton(count, isFolded) {
    const button = byId("calls-open");
    button.hidden = !count || !this.isPlaying();
    this.number.textContent = String(count);
    button.setAttribute("aria-label", t("call.count", { n: count }));
    button.title = t("call.count", { n: count });
    button.setAttribute("aria-expanded", String(!isFolded));
  }
}
