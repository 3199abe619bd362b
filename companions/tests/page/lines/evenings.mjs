/** Evenings that bring every text that the server has. */

import { Evening } from "./evening.mjs";

const SHUFFLE = "Nf3 Nf6 Ng1 Ng8";
const STALEMATE = "e3 a5 Qh5 Ra6 Qxa5 h5 h4 Rah6 Qxc7 f6 Qxd7 Kf7 Qxb7 Qd3 Qxb8 Qh7 Qxc8 Kg6 Qe6";
const ROUNDS_TO_LIMIT = 300; // of four half-moves, 1,200 together

function times(count, text) {
  return Array(count).fill(text).join(" ");
}

function logins() {
  const it = new Evening();
  it.say(it.come("Ann", "swordfish"), "register again", "who", "quit");
  it.put(2, "+").say(2, "", "ann", "", "herring", "A1", "ann", "swordfish", "who");
  it.put(3, "+").say(3, "Ann", "guest", "quit");
  return it;
}

/** Challenges and seeks, and what is refused where one plays or the other doesn't want it. */
function offers() {
  const it = new Evening();
  const [ann, ben, cat] = it.all("Ann", "Ben", "Cat");
  it.say(ann, "pending", "sought", "games", "stored", "inchannel 4");
  it.say(ann, "match ben 2 12 white", "match cat", "pending", "match Zed", "match ann");
  it.say(ben, "pending", "decline ann", "decline ann").say(ann, "withdraw", "withdraw");
  it.say(ann, "seek 5 0", "seek 0 0 fischer 518 black", "seek 600 600 crazyhouse", "seek 1 0");
  it.say(ann, "seek bughouse", "unseek 9").say(ben, "", "sought", "play 99");
  it.say(ben, "set open 0").say(ann, "match ben").say(ben, "set open 1", "play 1");
  it.say(cat, "games", "match ann", "play 1").say(ann, "", "resign").say(ben, "");
  return it;
}

/** Words that the server doesn't take, or that mean nobody and nothing. */
function words() {
  const it = new Evening();
  const [ann] = it.all("Ann", "Ben", "Cat");
  it.say(ann, "+censor cat", "+censor cat", "-noplay cat", "-censor cat");
  it.say(ann, "alias hi tell ben hello", "unalias ho", "hi");
  it.say(ann, `alias long tell ben ${"x".repeat(780)}`, `long ${"y".repeat(400)}`);
  it.say(ann, "xyzzy", "s", "observe 1 2", "observe 99", "unobserve 1");
  it.say(ann, "resign", "simnext", "resume ben", "tell Zed hi");
  return it;
}

function talk() {
  const it = new Evening();
  const [ann, ben, cat] = it.all("Ann", "Ben", "Cat");
  it.say(ann, "ptell hi", "-channel 4", "tell 4 hi", "+channel 256", "+channel 4", "+channel 4");
  it.say(ben, "+channel 4", "tell 4 hi there", "inchannel 4", "tell ann what: a day.");
  it.say(ben, "shout {Game 1 (Ann vs. Ben) aborted} *").say(ann, "", "partner ben").say(ben, "partner ann");
  it.say(cat, "partner ben").say(ann, "", "ptell knight, please").say(ben, "").say(ann, "partner").say(ben, "");
  for (let n = 5; n <= 24; n += 1) {
    it.say(ann, `+channel ${n}`);
  }
  for (let n = 0; n <= 512; n += 1) {
    it.say(ann, "tell cat hi");
  }
  return it;
}

/** Cat looks on at a game with refused moves, offers, both styles and an abort; then comes a check. */
function chess() {
  const it = new Evening("seat Ann Ben 2 12 chess");
  const cat = it.sessions += 1;
  it.put(cat, "+").say(cat, "Cat", "observe 1", "observe 1", "kibitz nice");
  it.say(1, "O-O", "P@e4", "e4e5", "e2e5", "e4", "e5").say(2, "", "e5");
  it.say(1, "flag", "takeback 5", "adjourn", "simopen").play(1, 2, "Nf3 Nc6 d3 Nge7").say(1, "Nd2");
  it.say(1, "style 1", "refresh", "style 12", "refresh", "takeback 2").say(2, "decline");
  it.say(1, "takeback 2").say(2, "takeback 2", "draw", "draw").say(1, "decline", "abort").say(2, "abort").say(1, "");
  it.say(cat, "", "unobserve 1");
  it.match(1, 2, "ben").play(1, 2, "e4 e5 d3 Bb4").say(1, "a3", "resign", "e4").say(2, "c3");
  return it;
}

function stampedChess() {
  const it = new Evening("seat Ann Ben 2 12 chess");
  it.put(1, "*", "0 TIMESTAMP|ficsd|browser|").put(1, "?").put(1, "!", "100").put(1, "*", "200 e4");
  it.put(2, "?").say(2, "e5").put(1, "?");
  return it;
}

function crazyhouse() {
  const it = new Evening("seat Ann Ben 0 0 crazyhouse");
  it.say(1, "P@e4").play(1, 2, "e4 d5 exd5 Qxd5 Qf3 Qxf3").say(1, "P@d2", "P@d1", "P@e4").say(2, "N@a6", "P@e6");
  it.say(1, "takeback").say(2, "accept").say(2, "quit").say(1, "");
  return it;
}

function fischer() {
  const it = new Evening("seat Ann Ben 5 0 fischer 468");
  it.play(1, 2, "e4 e5").say(1, "refresh", "games").say(2, "resign").say(1, "");
  return it;
}

/** Four play, adjourn, and go on. */
function bughouse() {
  const it = new Evening();
  const four = ["Ann", "Ben", "Cat", "Dan"].map((name) => it.come(name, "swordfish"));
  const [ann, ben, cat, dan] = four;
  const all = (line) => four.forEach((session) => it.say(session, line));
  it.say(ann, "match cat bughouse", "partner ben").say(ben, "partner ann");
  it.say(cat, "partner dan").say(dan, "partner cat").say(ann, "match cat 5 0 bughouse white").say(cat, "accept");
  it.play(ann, cat, "e4 d5 exd5").say(ben, "").say(dan, "e4").say(ben, "P@e5", "takeback");
  all("adjourn");
  all("");
  it.say(ann, "stored", "resume cat").say(cat, "", "resume ann").say(ben, "resume dan").say(dan, "resume ben");
  all("");
  it.say(dan, "resign");
  all("");
  return it;
}

function adjourned() {
  const it = new Evening();
  const ann = it.come("Ann", "swordfish");
  const ben = it.come("Ben", "herring");
  it.match(ann, ben, "ben").play(ann, ben, "e4 e5").say(ann, "adjourn").say(ben, "adjourn").say(ann, "", "stored");
  it.say(ann, "resume ben").say(ben, "", "resume ann").say(ann, "").say(ann, "resign").say(ben, "");
  return it;
}

/** Mate, stalemate, an agreed draw, two claims, two flags, and a cut link. */
function ends() {
  const it = new Evening();
  const [ann, ben, cat] = it.all("Ann", "Ben", "Cat");
  const play = (moves, terms = "0 0 white") => it.match(ann, ben, "ben", terms).play(ann, ben, moves);
  play("f3 e5 g4 Qh4").say(ann, "");
  play(STALEMATE).say(ben, "");
  play("e4 e5").say(ann, "draw").say(ben, "accept").say(ann, "");
  play(times(25, SHUFFLE)).say(ann, "draw").say(ben, "");
  play(times(2, SHUFFLE)).say(ann, "draw").say(ben, "");
  play("e4 e5", "1 0 white").wait(100_000).say(ben, "flag").say(ann, "");
  play("e4 e5", "1 0 white").wait(100_000).say(ann, "d3").wait(100_000).say(ben, "flag").say(ann, "");
  it.match(ann, cat, "cat").play(ann, cat, "e4").put(cat, "-").say(ann, "");
  return it;
}

/** So many half-moves as a board takes, and so many offers as a seat may make. */
function manyMoves() {
  const it = new Evening("seat Ann Ben 0 0 chess");
  it.play(1, 2, times(ROUNDS_TO_LIMIT, SHUFFLE)).say(1, "e4");
  for (let n = 0; n <= 256; n += 1) {
    it.say(1, `takeback ${1 + n % 2}`);
  }
  return it;
}

/** Givers who play each other: a giver has 32 boards at most, and all together have 128. The first two begin with so
 * many that the first has no place for its last game. */
function manyBoards() {
  const it = new Evening();
  const names = [..."abcdefghijk"].map((letter) => `Giver${letter}`);
  const sessions = names.map((name) => it.come(name));
  sessions.forEach((session) => it.say(session, "simopen"));
  names.forEach((one, n) => names.slice(0, n).forEach((other, m) => {
    for (let game = 0; game < (n === 1 ? 9 : 3); game += 1) {
      it.say(sessions[n], `match ${other} 0 0`).say(sessions[m], `accept ${one}`);
    }
  }));
  it.say(sessions[0], "simnext", "simprev", `goboard ${names[1]}`);
  return it;
}

export const EVENINGS = {
  logins, offers, words, talk, chess, stampedChess, crazyhouse, fischer, bughouse, adjourned, ends, manyMoves,
  manyBoards,
};
