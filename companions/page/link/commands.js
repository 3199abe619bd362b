/** The words of the server's commands, which may be shortened. */

const NAMES = [
  "abort", "accept", "adjourn", "alias", "+censor", "-censor", "+channel", "-channel", "decline", "draw", "flag",
  "games", "goboard", "inchannel", "kibitz", "match", "+noplay", "-noplay", "observe", "partner", "pending", "play",
  "ptell", "quit", "refresh", "register", "resign", "resume", "seek", "set", "shout", "simnext", "simopen", "simprev",
  "sought", "stored", "style", "takeback", "tell", "unalias", "unobserve", "unseek", "who", "withdraw",
];
const SHORT = { a: "accept", k: "kibitz", m: "match", o: "observe", t: "tell" };

const BY_SHORT = new Map(Object.entries(SHORT));

/** The whole name of the command that a line begins with, or nothing where it is none.
 * @param {string} line */
export function commandOf(line) {
  const word = line.trim().split(/ +/)[0].toLowerCase();
  if (!word || NAMES.includes(word)) {
    return word;
  }
  const fitting = NAMES.filter((it) => it.startsWith(word));
  return BY_SHORT.get(word) ?? (fitting.length === 1 ? fitting[0] : "");
}
