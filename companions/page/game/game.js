/** One game as it is told: its half-moves with their boards, the men in hand, the end. */

import { Terms } from "./terms.js";
import { boardOf, lastSquares, menOf } from "../link/board_line.js";
import { Offers } from "./offers.js";

const UNTOLD = new Terms(0, 0, "chess"); // until a board is there
const TICKS_FROM = 2; // the first half-move of each colour is free

export class Game {
  /** @param {number} number @param {string} white @param {string} black @param {Terms | null} terms
   * @param {Date | null} [began] */
  constructor(number, white, black, terms, began = null) {
    this.number = number;
    this.white = white;
    this.black = black;
    this.terms = terms ?? UNTOLD;
    this.hasTerms = terms !== null;
    /** @type {Role} */
    this.role = "watched"; // or mine, or partner's
    /** @type {Map<number, Place>} */
    this.places = new Map(); // of each half-move's number the place behind it
    this.last = -1; // the number of the last half-move
    /** @type {number | null} */
    this.looking = null; // the number of the half-move at which one looks back
    this.since = 0; // the moment since which the player to move thinks
    /** @type {Hands | null} */
    this.hands = null; // unknown, or { w, b } as letters
    this.offers = new Offers();
    this.blackBelow = false;
    this.began = began; // the moment at which the page saw it begin
    /** @type {Premove | null} */
    this.premove = null; // what the member plays once it is its turn: { from, drop, to, man, promotion }
    /** @type {End | null} */
    this.end = null; // or { reason, result }
  }

  /** Who plays it: the member itself (mine), its partner (partner's), or others (watched).
   * @param {Role} role */
  play(role) {
    this.role = role;
  }

  /** The server's list has told its terms.
   * @param {Terms} terms */
  learn(terms) {
    this.terms = terms;
    this.hasTerms = true;
  }

  /** The other game of a pair has the same offers.
   * @param {Game} pair */
  share(pair) {
    this.offers = pair.offers;
  }

  /** A move waits for the member's turn, or none any more.
   * @param {Premove | null} move */
  wait(move) {
    this.premove = move;
  }

  /** It has ended, with { reason, result }.
   * @param {End} end */
  finish(end) {
    this.end = end;
    this.premove = null;
    this.offers.clear();
  }

  /** @param {Players} board */
  isOf(board) {
    return this.white === board.white && this.black === board.black;
  }

  /** Takes a board that was told. Whether it is a new one: one that is shown again changes nothing.
   * @param {BoardLine} board @param {boolean} isTakenBack */
  add(board, isTakenBack) {
    if (!this.hasTerms && !this.places.size) {
      this.terms = new Terms(board.minutes, board.increment, "chess");
    }
    const known = this.places.get(board.ply);
    const isNew = isTakenBack || known?.board.position !== board.position;
    if (isNew && (isTakenBack || known)) {
      this.forgetBehind(board.ply);
    }
    this.blackBelow = board.blackBelow;
    if (isNew) {
      const squares = lastSquares(board, this.places.get(board.ply - 1)?.men);
      this.places.set(board.ply, { board, men: menOf(board), squares, hands: this.hands });
      this.last = Math.max(this.last, board.ply);
      this.since = performance.now();
      this.looking = this.role === "mine" ? null : this.looking;
    }
    return isNew;
  }

  /** Takes the places before those that were told here, as others were told them, in the order in which they came.
   * @param {LineEvent[]} events */
  learnEarlier(events) {
    const earlier = new Game(this.number, this.white, this.black, this.hasTerms ? this.terms : null);
    for (const event of events) {
      if (event.kind === "board" && event.board.game === this.number && this.isOf(event.board)) {
        earlier.add(event.board, event.board.ply <= earlier.last);
      } else if (event.kind === "hands" && event.game === this.number) {
        earlier.hold(event.whiteHand, event.blackHand);
      }
    }
    const from = this.knownFrom;
    [...earlier.places].filter(([ply]) => ply < from).forEach(([ply, place]) => this.places.set(ply, place));
    this.hands ??= earlier.hands; // no man has come into a hand since one is told
    this.known.filter(({ board }) => board.ply >= from).forEach((it) => { it.hands ??= this.hands; });
  }

  /** @param {number} ply */
  forgetBehind(ply) {
    this.premove = null;
    for (const it of [...this.places.keys()].filter((key) => key >= ply)) {
      this.places.delete(it);
    }
    this.last = Math.max(-1, ...this.places.keys());
    this.looking = null;
  }

  /** Takes the men in hand, which are those behind the last half-move.
   * @param {string} white @param {string} black */
  hold(white, black) {
    this.hands = { w: white, b: black };
    const place = this.places.get(this.last);
    if (place) {
      place.hands = this.hands;
    }
  }

  /** The place behind a half-move that is known.
   * @param {number} ply */
  at(ply) {
    return /** @type {Place} */ (this.places.get(ply));
  }

  get place() {
    return this.places.get(this.last);
  }

  /** The place that is shown: the last one, or the one at which one looks. */
  get shown() {
    return this.places.get(this.looking ?? this.last);
  }

  get isOver() {
    return this.end !== null;
  }

  get toMove() {
    return this.place?.board.side;
  }

  get isTicking() {
    return this.terms.isTimed && !this.isOver && this.last >= TICKS_FROM;
  }

  /** The seconds that a colour has left now.
   * @param {Colour} colour */
  left(colour) {
    const told = this.at(this.last).board.clocks[colour];
    const runs = told !== null && this.isTicking && this.toMove === colour;
    return runs ? told - (performance.now() - this.since) / 1000 : told;
  }

  /** @param {Colour | undefined} colour */
  nameOf(colour) {
    return colour === "w" ? this.white : this.black;
  }

  /** @param {string} name */
  colourOf(name) {
    return name === this.white ? "w" : name === this.black ? "b" : "";
  }

  /** @param {string} name */
  otherThan(name) {
    return name === this.white ? this.black : this.white;
  }

  /** The half-moves that were told, in their order: { ply, short }. */
  get halfMoves() {
    return [...this.places.keys()].sort((one, other) => one - other).filter((ply) => ply > 0)
      .map((ply) => ({ ply, short: this.at(ply).board.short }));
  }

  /** The places from the first one on of which all that follow are known, up to the last one. */
  get known() {
    let from = this.last;
    while (this.places.has(from - 1)) {
      from -= 1;
    }
    return Array.from({ length: this.last - from + 1 }, (_, n) => this.at(from + n));
  }

  /** The number of the half-move from which on the game is known. */
  get knownFrom() {
    return this.last - this.known.length + 1;
  }

  /** Looks at the place behind a half-move, or at the last one.
   * @param {number} ply */
  look(ply) {
    const known = [...this.places.keys()].sort((one, other) => one - other);
    const at = known.filter((it) => it <= ply).at(-1) ?? known[0];
    this.looking = at === this.last ? null : at;
  }

  /** Looks so many half-moves further on, or back.
   * @param {number} by */
  step(by) {
    const known = [...this.places.keys()].sort((one, other) => one - other);
    const now = known.indexOf(this.looking ?? this.last);
    this.look(known[Math.min(Math.max(now + by, 0), known.length - 1)]);
  }

  /** What a page that begins anew has to know of it. */
  get keep() {
    const { number, white, black, hasTerms, role, hands, end } = this;
    const places = [...this.places.keys()].sort((one, other) => one - other).map((ply) => this.at(ply));
    return {
      number, white, black, hasTerms, role, hands, end, terms: String(this.terms),
      began: this.began?.getTime() ?? null, since: performance.timeOrigin + this.since,
      offers: this.offers.standing, places: places.map((it) => ({ line: it.board.line, hands: it.hands })),
    };
  }

  /** Takes what an earlier page has kept of it.
   * @param {KeptGame} kept */
  restore(kept) {
    this.hasTerms = kept.hasTerms;
    this.role = kept.role;
    for (const { line, hands } of kept.places) {
      this.hands = hands;
      this.add(/** @type {BoardLine} */ (boardOf(line)), false);
    }
    this.hands = kept.hands;
    this.since = kept.since - performance.timeOrigin;
    this.offers.restore(kept.offers);
    this.end = kept.end;
  }
}

/** The game that an earlier page has kept so.
 * @param {KeptGame} kept */
export function gameOf(kept) {
  const began = kept.began === null ? null : new Date(kept.began);
  const game = new Game(kept.number, kept.white, kept.black, Terms.parsed(kept.terms), began);
  game.restore(kept);
  return game;
}
