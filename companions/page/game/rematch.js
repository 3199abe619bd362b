/** Another game with the same opponent and terms, the colours changed. */

import { Terms } from "./terms.js";

/** The terms of the next game, as who asks for it names them.
 * @param {Game} game @param {string} me */
export function termsOfRematch(game, me) {
  const { minutes, increment, variant } = game.terms;
  return new Terms(minutes, increment, variant, game.colourOf(me) === "w" ? "black" : "white");
}

/** The line that asks for another game; where the opponent asks for it already, the one that accepts. `challenges` are
 * those to the member, { who, terms }.
 * @param {Game} game @param {string} me @param {{ who: string, terms: Terms }[]} challenges */
export function rematchLine(game, me, challenges) {
  const other = game.otherThan(me);
  const { minutes, increment, variant } = game.terms;
  const asked = challenges.some(({ who, terms }) => who === other && terms.minutes === minutes
    && terms.increment === increment && terms.variant === variant);
  return asked ? `accept ${other}` : `match ${other} ${termsOfRematch(game, me)}`;
}
