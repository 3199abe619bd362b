/** The lobby: seeks, games, players, challenges and adjourned games, as lists that keep themselves. The three that are
 * the same for everybody the go-between tells while the lobby is seen; the two of the member's own the page asks for,
 * behind what may change them. */

import { eventOf } from "../link/lines.js";
import { showRows } from "../shell/list.js";
import { StillList } from "../shell/still.js";
import { challengeRow, playerRow, seekRow, storedRow } from "./lobby_rows.js";
import { byId } from "../shell/elements.js";
import { RunningGames } from "./running_games.js";
import { onLanguage, t } from "../shell/texts.js";
import { showUsual } from "./usual.js";
import { isLobbySeen, onView } from "../shell/views.js";

const EVERY = 4000; // milliseconds
/** @type {ListName[]} */
const SHARED = ["who", "sought", "games"];
/** @type {ListName[]} */
const OWN = ["pending", "stored"];
const ROWS = new Set(["player", "sought", "game", "stored", "stored-pair", "pending-from", "pending-to"]);
// own acts, and which lists they may change
/** @type {Record<string, ListName[]>} */
const CHANGING = {
  accept: OWN, decline: ["pending"], match: ["pending"], play: OWN, resume: OWN, withdraw: ["pending"],
  seek: ["sought"], unseek: ["sought"],
};

/** No rows of any list.
 * @returns {Lists} */
function noRows() {
  return { who: [], sought: [], games: [], pending: [], stored: [] };
}

export class Lobby {
  /** `challenged` gets the rows of the challenges to the member; `hideOf(who)` is the switch by which nothing that a
   * player says is shown.
   * @param {Session} session @param {Games} games @param {SmallGames} smallGames @param {LobbyListeners} listeners */
  constructor(session, games, smallGames, { challenged, hideOf }) {
    this.session = session;
    this.challenged = challenged;
    this.hideOf = hideOf;
    this.running = new RunningGames(session, games, smallGames);
    this.seeks = new StillList(byId("seeks"));
    this.players = new StillList(byId("players"));
    /** @type {string[]} */
    this.elsewhere = []; // the challenges that are seen above the page
    this.rows = noRows();
    /** @type {Map<string, boolean>} */
    this.asked = new Map(); // of the lists that are being asked for, whether to ask once more behind that
    this.isTold = false; // whether the go-between tells the shared lists
    this.storedDue = 0; // rows that the list of adjourned games is to have at least
    session.onAnswer((answer) => this.take(answer));
    session.on("told", ({ it }) => this.hear(it));
    session.on("challenge", () => this.ask("pending"));
    session.on(["creating", "continuing", "lost", "drawn", "stopped", "resume-asked"], () => this.askOwn());
    session.on("stopped", (event) => this.adjourned(event));
    session.on("continuing", () => { this.storedDue = 0; });
    session.on("link-lost", () => { this.isTold = false; });
    session.on("link-back", () => this.beTold());
    session.onEnd(() => { this.isTold = false; });
    document.addEventListener("visibilitychange", () => this.beTold());
    onView(() => this.beTold());
    onLanguage(() => this.show());
    setInterval(() => this.askAgain(), EVERY);
  }

  /** Has the go-between tell the shared lists while they are seen. It forgets that with the link. */
  beTold() {
    const isSeen = document.visibilityState === "visible" && this.session.isIn && isLobbySeen();
    if (isSeen && !this.isTold) {
      [this.seeks, this.players, this.running].forEach((it) => it.places.clear());
    }
    if (isSeen !== this.isTold) {
      this.isTold = this.session.tell({ lists: isSeen }) && isSeen;
    }
  }

  /** A game is adjourned: one of the member's own is to be on the list.
   * @param {Happened<'stopped'>} event */
  adjourned({ reason, white, black }) {
    if (reason === "adjourned" && [white, black].includes(this.session.me)) {
      this.storedDue = Math.max(this.storedDue, this.rows.stored.length) + 1;
    }
  }

  /** Nothing tells that a challenge was taken back, nor that an adjourned game is on the list, which it is once all of
   * its players have been told of the end. So the page asks while a challenge stands, and while a game is missing. */
  askAgain() {
    if (this.session.isIn && this.rows.pending.length) {
      this.ask("pending");
    }
    if (this.session.isIn && this.rows.stored.length < this.storedDue) {
      this.ask("stored");
    }
  }

  askOwn() {
    OWN.forEach((it) => this.ask(it));
  }

  /** Asks for a list; one that is being asked for is asked for once more behind that, since it may have changed.
   * @param {string} line */
  async ask(line) {
    if (this.asked.has(line)) {
      this.asked.set(line, true);
      return;
    }
    do {
      this.asked.set(line, false);
      await this.session.ask(line);
    } while (this.session.isIn && this.asked.get(line));
    this.asked.delete(line);
  }

  /** Somebody has come in: all lists are new. */
  begin() {
    this.beTold();
    this.askOwn();
  }

  /** @param {Told} told */
  hear(told) {
    const lists = SHARED.filter((it) => Array.isArray(told[it]));
    lists.forEach((it) => this.set(it, /** @type {string[]} */ (told[it]).map((line) => eventOf(line, it))));
    if (lists.length) {
      this.show();
    }
  }

  /** @param {Answer} answer */
  take(answer) {
    if (!answer.isDone || !this.session.me) {
      return;
    }
    (CHANGING[answer.command] ?? []).forEach((it) => this.ask(it));
    if (answer.command in this.rows) {
      this.set(/** @type {ListName} */ (answer.command), answer.events);
    }
    if (answer.command in this.rows || answer.command.endsWith("censor")) {
      this.show();
    }
  }

  /** @param {ListName} list @param {LineEvent[]} events */
  set(list, events) {
    this.rows = { ...this.rows, [list]: events.filter((it) => ROWS.has(it.kind)) };
  }

  show() {
    const { me } = this.session;
    const { who, sought, games, pending, stored } = this.rows;
    showUsual(sought.filter((it) => it.who === me));
    this.seeks.show(sought.map((it) => seekRow(it, me)), t("lobby.no-seeks"));
    this.players.show(who.map((it) => playerRow(it.who, me, games, sought, this.hideOf(it.who))));
    this.showChallenges();
    showRows(byId("stored"), stored.map((it) => storedRow(it, me)), t("lobby.none"));
    byId("players-count").textContent = who.length ? ` ${who.length}` : "";
    byId("games-count").textContent = games.length ? ` ${games.length}` : "";
    this.running.show(games);
    this.challenged(pending.filter((it) => it.kind === "pending-from").map(challengeRow));
  }

  /** A challenge stands once: those that are seen above the page don't stand here too.
   * @param {string[]} [elsewhere] */
  showChallenges(elsewhere = this.elsewhere) {
    this.elsewhere = elsewhere;
    const rows = this.rows.pending.map(challengeRow).filter((it) => !elsewhere.includes(it.key));
    showRows(byId("challenges"), rows);
  }

  forget() {
    this.rows = noRows();
    this.storedDue = 0;
    this.show();
  }
}
