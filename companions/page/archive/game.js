/** A game of the archive as the page's own tables show one: each half-move's place with its clocks and hands. Of a pair
 * each place also has what stood at the other board at that moment. */

import { Game } from "../game/game.js";
import { Terms } from "../game/terms.js";
import { arrayOfPosition, positionOfFen, usualPosition } from "./fen_read.js";
import { controlOf, gameOf, orderOf } from "./pgn_read.js";
import { handsWith, played } from "./replay.js";

/** @type {Record<string, string>} */
const VARIANTS = { Crazyhouse: "crazyhouse", Chess960: "fischer", Bughouse: "bughouse" };
const FREE = 2; // the first half-move of each colour costs no time
const FILES = "abcdefgh";

/** The terms that the tags tell.
 * @param {Record<string, string>} tags @param {ArchivedPosition} position */
function termsOf(tags, position) {
  const variant = VARIANTS[tags.Variant] ?? "chess";
  const number = variant === "fischer" ? arrayOfPosition(position) : "";
  const control = controlOf(tags.TimeControl);
  const minutes = control && control.start >= 60 ? control.start / 60 : 0;
  return new Terms(minutes, control?.increment ?? 0, `${variant} ${number}`.trim());
}

export class ArchivedGame extends Game {
  /** @param {string} link @param {ReadGame} read @param {ArchivedPosition} first */
  constructor(link, read, first) {
    const { tags } = read;
    super(0, tags.White ?? "", tags.Black ?? "", termsOf(tags, first));
    this.link = link;
    this.tags = tags;
    this.halfMovesRead = read.halfMoves;
    this.control = controlOf(tags.TimeControl);
    this.end = { reason: read.reason, result: read.result };
    /** @type {ArchivedPosition} */
    this.position = first; // behind the last half-move that was played
    this.first = first.ply;
    /** @type {Place | null} */
    this.showing = null; // what is shown in place of what the game itself would show
    this.isCutOff = false; // a half-move couldn't be played, and so none behind it
    this.clocks = this.clocksAtFirst();
    this.put("none", [], this.clocks);
  }

  /** The next half-move of the text, or nothing. */
  get next() {
    return this.isCutOff ? undefined : this.halfMovesRead[this.position.ply - this.first];
  }

  /** Plays the next half-move: the man that it captured, or null. */
  play() {
    const half = this.next;
    const { side, ply } = this.position;
    const step = half ? played(this.position, half.short) : null;
    if (!half || !step) {
      this.isCutOff = true;
      return null;
    }
    this.position = step.position;
    if (step.captured && this.terms.variant === "crazyhouse") {
      this.take(side, step.captured.kind);
    }
    this.clocks = this.clocksBehind(half, side, ply);
    this.put(half.short, step.squares, this.clocks);
    return step.captured;
  }

  /** A man comes into a hand.
   * @param {Colour} colour @param {string} kind */
  take(colour, kind) {
    this.position = { ...this.position, hands: handsWith(this.position.hands, colour, kind) };
  }

  /** @param {string} short @param {string[]} squares @param {Clocks} clocks */
  put(short, squares, clocks) {
    const { men, side, rights, passed, ply, hands } = this.position;
    const board = /** @type {BoardLine} what the tables show of one */ ({
      short, side, rights, clocks, ply, doubled: passed ? FILES.indexOf(passed[0]) : -1, move: Math.floor(ply / 2) + 1,
    });
    this.places.set(ply, { board, men, squares, hands: this.terms.hasHands ? hands : null });
    this.last = ply;
  }

  // ---- clocks ----

  /** What the clocks had at the first place: the start or, where the game is known from later on, what the first
   * half-moves tell.
   * @returns {Clocks} */
  clocksAtFirst() {
    const { control } = this;
    if (!control) {
      return { w: 0, b: 0 };
    }
    /** @param {Colour} colour */
    const of = (colour) => {
      const half = this.halfMovesRead[colour === this.position.side ? 0 : 1];
      return this.first === 0 ? control.start
        : half?.left == null ? null : half.left + (half.took ?? 0) - control.increment;
    };
    return { w: of("w"), b: of("b") };
  }

  /** The clocks behind a half-move: as it tells, or where it doesn't by the seconds that it took.
   * @param {ReadHalfMove} half @param {Colour} colour @param {number} ply */
  clocksBehind({ left, took }, colour, ply) {
    const before = this.clocks[colour];
    const counted = before === null || !this.control ? before
      : ply < FREE ? before : before - (took ?? 0) + this.control.increment;
    return { ...this.clocks, [colour]: left ?? counted };
  }

  // ---- what is shown ----

  /** Shows that place in place of what the game itself would show, or the latter.
   * @param {Place | null} place */
  showAt(place) {
    this.showing = place;
  }

  /** Its hands aren't known. */
  forgetHands() {
    this.position = { ...this.position, hands: null };
    this.at(this.last).hands = null;
  }

  get shown() {
    return this.showing ?? super.shown ?? this.at(this.first);
  }

  /** Those that were played; before the first one no half-move is known. */
  get halfMoves() {
    return super.halfMoves.filter(({ ply }) => ply > this.first);
  }

  get toMove() {
    return this.shown?.board.side;
  }

  get isTicking() {
    return false;
  }

  /** @param {Colour} colour */
  left(colour) {
    return this.shown?.board.clocks[colour] ?? null;
  }

  /** What was there at that place: of a pair at the other board too.
   * @param {ArchivedGame} other */
  remember(other) {
    const place = this.at(this.last);
    place.hands = this.position.hands;
    place.beside = { ...other.at(other.last), hands: other.position.hands };
  }
}

/** @param {string} link @param {string} text */
function begun(link, text) {
  const read = gameOf(text);
  const { FEN, Variant } = read.tags;
  const hasHands = ["Crazyhouse", "Bughouse"].includes(Variant);
  return new ArchivedGame(link, read, FEN ? positionOfFen(FEN) : usualPosition(hasHands));
}

/** A game with all its half-moves. Hands of bughouse aren't known from one board alone.
 * @param {string} link @param {string} text */
export function archivedGame(link, text) {
  const game = begun(link, text);
  if (game.terms.isBughouse) {
    game.forgetHands();
  }
  while (game.next) {
    game.play();
  }
  return game;
}

/** The two games of a pair, whose half-moves came in an order that BPGN tells. Both alone where it doesn't fit.
 * @param {Paired} one @param {Paired} other @param {string} bpgn
 * @returns {[ArchivedGame, ArchivedGame]} */
export function archivedPair(one, other, bpgn) {
  /** @type {[ArchivedGame, ArchivedGame]} */
  const games = [begun(one.link, one.pgn), begun(other.link, other.pgn)];
  const [, linkA] = /^\[LinkA "([^"]*)"\]$/m.exec(bpgn) ?? [];
  const [first, second] = games[0].link === linkA ? games : [...games].reverse();
  games.forEach((it, n) => it.remember(games[1 - n]));
  for (const { board, short } of orderOf(bpgn)) {
    const [game, partner] = board === "A" ? [first, second] : [second, first];
    if (game.next?.short !== short) {
      break;
    }
    const captured = game.play();
    if (captured) { // it keeps its colour, and comes to the other board
      partner.take(captured.colour, captured.kind);
    }
    game.remember(partner);
  }
  const isWhole = games.every((it) => !it.next && !it.isCutOff);
  if (!isWhole) {
    return [archivedGame(one.link, one.pgn), archivedGame(other.link, other.pgn)];
  }
  games.forEach((it, n) => it.remember(games[1 - n])); // at the end both show their last place
  return games;
}
