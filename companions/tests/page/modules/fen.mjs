/** What a FEN says of castling: the files of king and rooks, and the rights. */

const FILES = "abcdefgh";

/** `KQkq` are the usual homes; other letters are the files of the rooks, in capitals for White. */
export function arrayFiles(men, castling) {
  const kingFile = (colour, rank) => [...FILES].find((file) => men[file + rank] === `${colour}K`);
  const isUsual = /^(?:-|[KQkq]+)$/.test(castling);
  const homes = { king: "e", short: "h", long: "a" };
  const rights = { w: { short: false, long: false }, b: { short: false, long: false } };
  if (!isUsual) {
    homes.king = /[A-H]/.test(castling) ? kingFile("w", "1") : kingFile("b", "8");
  }
  for (const letter of castling === "-" ? "" : castling) {
    const colour = letter === letter.toUpperCase() ? "w" : "b";
    const file = isUsual ? { k: "h", q: "a" }[letter.toLowerCase()] : letter.toLowerCase();
    const wing = file > homes.king ? "short" : "long";
    homes[wing] = file;
    rights[colour][wing] = true;
  }
  return { homes, rights };
}
