/** What tells a member who looks elsewhere: the page's title and icon, and notes of the browser. */

import { byId } from "../shell/elements.js";
import { t } from "../shell/texts.js";

/** The address of an icon of the page, which its head names.
 * @param {"" | "move" | "call"} state */
function iconOf(state) {
  const { plain = "", move = "", call = "" } = byId("icon").dataset;
  return { "": plain, move, call }[state];
}

export class Alerts {
  /** @param {Session} session @param {Games} games @param {Preferences} preferences */
  constructor(session, games, preferences) {
    this.session = session;
    this.games = games;
    this.preferences = preferences;
    this.calls = 0; // how many stand
    /** @type {Notification[]} */
    this.notes = []; // that are shown
    session.on(["challenge", "partner-asked", "resume-asked"], (event) => this.call(event));
    document.addEventListener("visibilitychange", () => document.hidden || this.forget());
    preferences.onChange((name, value) => name === "notes" && value && this.mayNote());
  }

  /** A browser shows notes once the member has allowed it; it is asked as they are switched on. */
  async mayNote() {
    if (!("Notification" in window) || await Notification.requestPermission() !== "granted") {
      this.preferences.set("notes", false);
    }
  }

  /** @param {Happened<'challenge' | 'partner-asked' | 'resume-asked'>} event */
  call(event) {
    const { kind, who } = event;
    this.note(t(`note.${kind}`, { who, terms: "terms" in event ? event.terms.inWords() : "" }), `call ${who}`);
  }

  /** So many calls stand.
   * @param {number} count */
  called(count) {
    this.calls = count;
    this.show();
  }

  /** A game was told of.
   * @param {Game | null} game @param {Happened} event */
  told(game, event) {
    const isTurn = game?.role === "mine" && !game.isOver && game.place && this.isTurn(game);
    if (event.kind === "board" && event.isHalfMove && isTurn) {
      const who = game.otherThan(this.session.me);
      this.note(t("note.move", { who, move: event.board.short }), `game ${game.number}`);
    }
    this.show();
  }

  /** @param {Game} game */
  isTurn(game) {
    return game.nameOf(game.toMove) === this.session.me;
  }

  /** Shows a note of the browser where the page is out of sight; a later one of the same kind takes its place.
   * @param {string} words @param {string} tag */
  note(words, tag) {
    if (!document.hidden || !this.preferences.get("notes") || !("Notification" in window)) {
      return;
    }
    try {
      const note = new Notification(t("title"), { body: words, tag, icon: iconOf("") });
      note.onclick = () => {
        window.focus();
        note.close();
      };
      this.notes.push(note);
    } catch {
      // a browser of a phone has no notes of pages
    }
  }

  forget() {
    this.notes.splice(0).forEach((it) => it.close());
  }

  show() {
    const isTurn = this.games.running.some((it) => it.place && this.isTurn(it));
    const state = this.calls ? "call" : isTurn ? "move" : "";
    const title = t("title");
    document.title = state ? t(`title.${state}`, { title, n: this.calls }) : title;
    const icon = byId("icon");
    if (icon.getAttribute("href") !== iconOf(state)) {
      icon.setAttribute("href", iconOf(state));
    }
  }
}
