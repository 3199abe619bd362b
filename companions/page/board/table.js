/** A board with its players, clocks and hands, and what a member does there. */

import { Arrows } from "./arrows.js";
import { Board } from "./board.js";
import { Captured } from "./captured.js";
import { Clock } from "./clock.js";
import { Drag } from "./drag.js";
import { Hand } from "./hand.js";
import { checkedKing, positionOf } from "../game/legal.js";
import { isOwn } from "../game/moves.js";
import { squaresFor } from "../game/premove.js";
import { Promotion } from "./promotion.js";
import { Result } from "./result.js";
import { element } from "../shell/elements.js";
import { withRating } from "../shell/ratings.js";
import { t } from "../shell/texts.js";

/** @param {"span" | "div"} name @param {HTMLElement} parent */
function within(name, parent, className = "") {
  const made = element(name, className);
  parent.append(made);
  return made;
}

/** A player's name, hand and clock, above or below the board. */
class Plate {
  /** @param {HTMLElement} parent */
  constructor(parent) {
    const row = within("div", parent, "plate");
    this.name = within("span", row, "name");
    this.colour = within("span", this.name, "unseen"); // which is seen as a disc
    this.captured = new Captured(within("span", row));
    this.hand = new Hand(within("div", row));
    this.clock = new Clock(within("span", row));
  }

  /** `chosen` is the man in hand that goes next; `stops` says that the clock isn't shown below 0.
   * @param {Game} game @param {Colour} colour @param {string} chosen @param {boolean} stops */
  show(game, colour, chosen, stops) {
    this.name.dataset.colour = colour;
    this.name.dataset.player = game.nameOf(colour);
    this.name.replaceChildren(withRating(game.nameOf(colour), game.terms.pool), this.colour);
    this.colour.textContent = `, ${t(colour === "w" ? "white" : "black")}`;
    this.name.classList.toggle("to-move", !game.isOver && game.toMove === colour);
    this.captured.show(game, colour);
    this.clock.show(game, colour, stops);
    const hands = game.shown?.hands ?? null;
    this.hand.root.hidden = !game.terms.hasHands;
    if (game.terms.hasHands) {
      this.hand.show(colour, hands && hands[colour], chosen);
    }
  }
}

export class Table {
  /** `play` does what is done here, where the member may do anything.
   * @param {HTMLElement} root @param {BoardName} name @param {Play | null} [play] */
  constructor(root, name, play = null) {
    this.play = play;
    /** @type {Game | null} */
    this.game = null;
    /** @type {Spot | null} */
    this.chosen = null; // the place of the man that goes next
    this.isTurned = false;
    this.above = new Plate(root);
    this.board = new Board(within("div", root), name);
    this.below = new Plate(root);
    /** @type {Arrows | null} */
    this.arrows = null;
    /** @type {Result | null} */
    this.result = null;
    /** @type {Becomes} */
    this.becomes = () => Promise.resolve("");
    if (play) {
      this.arrows = new Arrows(this.board, () => this.again());
      const promotion = new Promotion(this.board);
      this.result = new Result(this.board);
      this.becomes = (colour, square) => promotion.ask(colour, square);
      this.drag = new Drag(root, {
        mayLift: (at) => this.mayLift(at), lifted: (at) => this.choose(at), moved: (from, to) => this.go(from, to),
        clicked: (at) => this.click(at),
      });
      root.addEventListener("keydown", (event) => event.key === "Escape" && this.escape());
    }
  }

  /** Shows a game as it stands, or as it stood where one looks back. Black is below where the server has it so, or
   * at the other board of a pair where White is below here: partners sit side by side.
   * @param {Game} game @param {boolean} [hasBlackBelow] */
  show(game, hasBlackBelow = game.blackBelow) {
    if (game !== this.game || game.looking !== null) {
      this.chosen = null;
    }
    this.isTurned &&= game === this.game;
    this.game = game;
    this.hasBlackBelow = hasBlackBelow;
    const place = game.shown;
    if (!place) {
      return;
    }
    if (this.chosen?.square && !isOwn(place.men[this.chosen.square], this.colour)) {
      this.chosen = null;
    }
    const { blackBelow } = this;
    this.board.turn(blackBelow);
    this.board.root.classList.toggle("mine", this.colour !== "");
    this.arrows?.show(`${game.number} ${game.looking ?? game.last} ${blackBelow}`);
    this.board.show(place.men, this.marks(place));
    this.result?.show(game);
    const stops = Boolean(this.play?.preferences.get("flag"));
    this.above.show(game, blackBelow ? "w" : "b", this.chosenOf(blackBelow ? "w" : "b"), stops);
    this.below.show(game, blackBelow ? "b" : "w", this.chosenOf(blackBelow ? "b" : "w"), stops);
  }

  again() {
    if (this.game) {
      this.show(this.game, this.hasBlackBelow);
    }
  }

  /** Of each kind of mark the squares that have it.
   * @param {Place} place
   * @returns {Marks} */
  marks(place) {
    const { game, chosen } = this;
    const premove = this.colour && game ? game.premove : null;
    return {
      last: place.squares, chosen: [chosen?.square],
      target: this.play?.preferences.get("legal") ? this.targets : [],
      check: [checkedKing(positionOf(place, game?.terms.variant))], premove: premove ? [premove.from, premove.to] : [],
      dropped: premove?.drop ? { square: premove.to, man: this.colour + premove.drop } : null,
      drawn: this.arrows?.names,
    };
  }

  /** The squares to which the chosen man may go. */
  get targets() {
    return this.game && this.chosen && this.colour ? squaresFor(this.game, this.colour, this.chosen) : [];
  }

  /** Names what is shown anew, in another language. */
  rename() {
    this.board.rename();
    [this.above, this.below].forEach((it) => it.hand.rename());
  }

  turn() {
    this.isTurned = !this.isTurned;
  }

  get blackBelow() {
    return this.hasBlackBelow !== this.isTurned;
  }

  /** @param {Colour} colour */
  chosenOf(colour) {
    return this.chosen?.drop && this.colour === colour ? this.chosen.drop : "";
  }

  /** The colour that the member has here; nothing where it only looks. */
  get colour() {
    const { game } = this;
    const isPlayed = game?.role === "mine" && !game.isOver && game.looking === null;
    return isPlayed ? game.colourOf(this.play?.me ?? "") : "";
  }

  /** @param {Spot} at */
  mayLift(at) {
    if (!this.colour) {
      return false;
    }
    const hand = /** @type {HTMLElement | null} */ (at.element.closest("[data-hand]"));
    return at.drop ? hand?.dataset.hand?.[0] === this.colour && at.element.dataset.count !== "0"
      : isOwn(at.element.dataset.man, this.colour);
  }

  /** @param {Spot | null} at */
  choose(at) {
    this.chosen = at;
    this.again();
  }

  escape() {
    this.choose(null);
    this.arrows?.clear();
    this.withdraw();
  }

  /** Takes back what waits for the member's turn. Whether there was anything. */
  withdraw() {
    const { game } = this;
    const waits = this.colour !== "" && game !== null && game.premove !== null;
    if (waits) {
      this.play?.withdraw(game);
    }
    return waits;
  }

  /** An own man on another square is chosen in place of the first one, unless this castles.
   * @param {Spot} at */
  click(at) {
    const { chosen } = this;
    /** @type {Men} */
    const men = this.game?.shown?.men ?? {};
    if (this.withdraw()) {
      this.choose(null);
    } else if (chosen && at.square && at.square !== chosen.square
      && (!isOwn(men[at.square], this.colour) || this.targets.includes(at.square))) {
      this.go(chosen, at);
    } else {
      const isSame = chosen && chosen.element === at.element;
      this.choose(!isSame && this.mayLift(at) ? at : null);
    }
  }

  /** @param {Spot} from @param {Spot} to */
  go(from, to) {
    this.choose(null);
    if (this.colour && this.game) {
      this.play?.move(this.game, from, to, this.becomes);
    }
  }
}
