/** A line that somebody tells the member to type, as a director does: it becomes a button that has the line's words. */

const NAME = "[a-z]{3,17}";
const TERMS = "\\d{1,3} \\d{1,3}(?: crazyhouse| fischer \\d{1,3})? (?:white|black)";
const TYPED = new RegExp(`\\b(?:type|by): ((?:accept|resume) ${NAME}|match ${NAME} ${TERMS})$`, "i");

/** The line at the end of what is told, where it begins a game or lets one go on; other lines stay text.
 * @param {SaidLine} line */
export function lineToldIn({ kind, said }) {
  return kind === "tell" ? TYPED.exec(said)?.[1] ?? null : null;
}
