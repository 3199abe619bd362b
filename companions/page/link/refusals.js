/** The server's refusals: number and name, as docs/CLIENTS.md has them. What each means, and what the player may do, is
 * the text `refusal.N`. */

import { t } from "../shell/texts.js";

const NAMES = {
  1: "Ambiguous", 2: "LeavesKing", 3: "CastleForbidden", 4: "NoDrops", 5: "NotInHand", 6: "Occupied", 7: "EndRank",
  8: "NoPiece", 9: "CannotReach", 10: "GameOver", 11: "NotYourTurn", 12: "TooManyMoves", 13: "NothingToClaim",
  14: "NotFallen", 15: "TooFewMoves", 16: "NoSuchOffer", 17: "AlreadyOffered", 18: "NotWatching", 19: "FeedFull",
  20: "NotPlaying", 21: "NotInVariant", 22: "BadHandle", 23: "WrongPassword", 24: "HandleTaken", 25: "HallFull",
  26: "Unknown", 27: "AmbiguousWord", 28: "BadArguments", 29: "TooLong", 30: "NoSuchSeek", 31: "SeekFull",
  32: "NoSuchPlayer", 33: "Playing", 34: "NoChallenge", 35: "NoDesk", 36: "Refuses", 37: "NoPartner", 38: "HasPartner",
  39: "NotInChannel", 40: "ListFull", 41: "BadChannel", 42: "NotGiving", 43: "SimulFull", 44: "NoStored",
  45: "ShelfFull", 46: "NoSuchGame", 47: "AccountsFull", 48: "AlreadyRegistered", 49: "QueueFull", 50: "BadOpponent",
  51: "OnList", 52: "NotOnList", 53: "NotRegistered", 54: "NotIn", 55: "AlreadyWatching", 56: "BadByte",
};

/** Of each number its name. */
export const REFUSALS = new Map(Object.entries(NAMES).map(([number, name]) => [Number(number), { name }]));

/** A refusal as a member reads it.
 * @param {number} number */
export function inWords(number) {
  return t("refusal", { words: t(`refusal.${number}`), number, name: REFUSALS.get(number)?.name });
}
