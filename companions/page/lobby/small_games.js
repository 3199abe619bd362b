/** Looking on at games for the lobby's small boards. What is told of them costs the server a line for each half-move,
 * so the page looks on only at those that are seen, at few at a time, and at none while the member has a game of its
 * own on the board: of what is said at a game no line tells at which. */

const MOST = 6; // games at a time
const RESTS = 2000; // milliseconds, behind what the member sends for a game
const KEY = "small-games"; // where a page that begins anew finds at which games the one before it looked on
// what the member may send that is for a game at which it looks on; a word that is no command may be short for one
const FOR_GAMES = new Set(["observe", "unobserve", "kibitz", ""]);

export class SmallGames {
  /** `store` keeps a text for this tab, and may be none. `isBusy()` says whether the member has a game on the board;
   * `changed(number)` is called where a small board has changed.
   * @param {Session} session @param {Storage | null} store @param {SmallGamesListeners} listeners */
  constructor(session, store, { isBusy, changed }) {
    this.session = session;
    this.isBusy = isBusy;
    this.store = store;
    this.changed = changed;
    this.restsUntil = 0; // the moment from which on it may look on again
    /** @type {Set<number>} */
    this.seen = new Set(); // of games that are looked on at
    /** @type {Map<number, number>} */
    this.left = new Map(); // of games that are looked on at no longer, how many answers are awaited
    /** @type {Map<number, { board: BoardLine, since: number, isOver: boolean }>} */
    this.boards = new Map(); // the last boards that were told
    session.on("acting", ({ command }) => this.before(command));
    session.on("board", (event) => this.take(event.board));
    session.on(["lost", "drawn", "stopped", "pair-ended"], (event) => this.finish(event.game));
    session.on(["creating", "continuing"], ({ game }) => this.sit(game));
    session.on("link-back", ({ isNewPage }) => isNewPage && this.recover());
  }

  /** Whether a game is looked on at for its small board alone.
   * @param {number} number */
  has(number) {
    return this.seen.has(number) || this.left.has(number);
  }

  get isOn() {
    return this.seen.size > 0 || this.left.size > 0;
  }

  /** Looks on at these games, the first ones of them, and at no others.
   * @param {number[]} numbers */
  want(numbers) {
    const wanted = this.isBusy() || performance.now() < this.restsUntil ? [] : numbers.slice(0, MOST);
    [...this.seen].filter((it) => !wanted.includes(it)).forEach((it) => this.leave(it));
    wanted.filter((it) => !this.has(it)).forEach((it) => this.look(it));
  }

  /** @param {number} number */
  async look(number) {
    this.seen.add(number);
    this.keep();
    const answer = await this.session.ask(`observe ${number}`);
    if (!answer.isDone) {
      this.seen.delete(number);
      this.keep();
    }
  }

  keep() {
    this.store?.setItem(KEY, [...this.seen, ...this.left.keys()].join(" "));
  }

  /** The page began anew on the link of an earlier one, which may still look on for its own small boards. */
  recover() {
    const numbers = (this.store?.getItem(KEY) ?? "").split(" ").filter(Boolean).map(Number);
    numbers.forEach((it) => this.leave(it));
  }

  /** @param {number} number */
  async leave(number) {
    this.seen.delete(number);
    this.left.set(number, (this.left.get(number) ?? 0) + 1);
    await this.session.ask(`unobserve ${number}`);
    const awaited = (this.left.get(number) ?? 1) - 1;
    if (awaited) {
      this.left.set(number, awaited);
    } else {
      this.left.delete(number);
      this.keep();
    }
  }

  /** A game of the member's own begins, or goes on: what is told of it is for the board, also where the list of games
   * had it sooner, so that the page has asked to look on at it.
   * @param {number} number */
  sit(number) {
    this.seen.delete(number);
    this.left.delete(number);
    this.release();
    this.keep();
  }

  /** Looks on at none any more. */
  release() {
    [...this.seen].forEach((it) => this.leave(it));
  }

  /** What the member sends for games is for those that it looks on at itself.
   * @param {string} command */
  before(command) {
    if (FOR_GAMES.has(command)) {
      this.restsUntil = performance.now() + RESTS;
      this.release();
    }
  }

  /** @param {BoardLine} board */
  take(board) {
    if (this.has(board.game)) {
      this.boards.set(board.game, { board, since: performance.now(), isOver: false });
      this.changed(board.game);
    }
  }

  /** @param {number} number */
  finish(number) {
    if (this.has(number)) {
      this.seen.delete(number);
      const last = this.boards.get(number);
      if (last) {
        last.isOver = true;
        this.changed(number);
      }
    }
  }

  /** The last board of a game of these players.
   * @param {Happened<'game'>} row */
  boardOf({ game, white, black }) {
    const known = this.boards.get(game);
    return known && known.board.white === white && known.board.black === black ? known : null;
  }

  forget() {
    this.seen.clear();
    this.left.clear();
    this.boards.clear();
  }
}
