/** The arrays of Fischer random by this server's numbers, which docs/RULES.md tells. 518 is the usual one. */

const FILES = "abcdefgh";
const KNIGHTS = ["01", "02", "03", "04", "12", "13", "14", "23", "24", "34"];

export const ARRAYS = 960;
export const USUAL = 518;

/** The kinds of the men of an array, from file a to file h, as `RNBQKBNR`.
 * @param {number} number */
export function arrayOf(number) {
  const kinds = Array(8).fill("");
  /** @param {string} kind @param {number} index */
  const put = (kind, index) => {
    const free = kinds.flatMap((it, file) => (it ? [] : [file]));
    kinds[free[index]] = kind;
  };
  let rest = number;
  kinds[1 + 2 * (rest % 4)] = "B";
  rest = Math.floor(rest / 4);
  kinds[2 * (rest % 4)] = "B";
  rest = Math.floor(rest / 4);
  put("Q", rest % 6);
  const [first, second] = KNIGHTS[Math.floor(rest / 6)];
  put("N", Number(second));
  put("N", Number(first));
  ["R", "K", "R"].forEach((kind) => put(kind, 0));
  return kinds.join("");
}

/** The files of king and rooks in a variant's array, as { king, short, long }.
 * @param {string} variant */
export function homesOf(variant) {
  const [name, number = USUAL] = variant.split(" ");
  const kinds = arrayOf(name === "fischer" ? Number(number) : USUAL);
  /** @param {number} index */
  const file = (index) => FILES[index];
  return { king: file(kinds.indexOf("K")), short: file(kinds.lastIndexOf("R")), long: file(kinds.indexOf("R")) };
}
