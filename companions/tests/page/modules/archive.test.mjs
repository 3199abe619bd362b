/** Games of the archive: PGN and FEN read, half-moves played, hands of a pair, clocks, addresses. What is due was
 * written down by hand, or stands in a published game. */

import assert from "node:assert/strict";
import test from "node:test";

import { page } from "./page.mjs";

const { gameOf, tagsOf, controlOf, orderOf } = await page("archive/pgn_read.js");
const { positionOfFen, usualPosition, arrayOfPosition } = await page("archive/fen_read.js");
const { played, moveOf } = await page("archive/replay.js");
const { archivedGame, archivedPair } = await page("archive/game.js");
const { dataOf, lastAddress, olderAddress, placeOf, playerAddress } = await page("archive/addresses.js");
const { stepOf } = await page("archive/swipe.js");

const HEAD = (tags) => Object.entries({ White: "Ann", Black: "Ben", Result: "1-0", TimeControl: "300+3", ...tags })
  .map(([name, value]) => `[${name} "${value}"]`).join("\n");
const textOf = (movetext, tags = {}) => `${HEAD(tags)}\n\n${movetext}\n\n`;

/** The ranks of a position as a FEN has them. */
function placement(men) {
  return Array.from("87654321", (rank) => Array.from("abcdefgh", (file) => {
    const man = men[file + rank];
    return man ? (man[0] === "w" ? man[1] : man[1].toLowerCase()) : "-";
  }).join("").replace(/-+/g, (it) => it.length)).join("/");
}

test("tags with what is escaped", () => {
  assert.deepEqual(tagsOf('[White "A \\"B\\" \\\\ C"]\n[Black "<script>alert(1)</script>"]\n\n1. e4 *'),
    { White: 'A "B" \\ C', Black: "<script>alert(1)</script>" });
});

test("half-moves, their times, and the words of the end", () => {
  const game = gameOf(textOf("1. e4 {[%clk 0:05:00] [%emt 0:00:00]} e5 {[%emt 1:00:07]}\n2. Nf3 "
    + "{Ben forfeits on time} 1-0"));
  assert.deepEqual(game.halfMoves, [{ short: "e4", took: 0, left: 300 }, { short: "e5", took: 3607, left: null },
    { short: "Nf3", took: null, left: null }]);
  assert.deepEqual([game.reason, game.result], ["Ben forfeits on time", "1-0"]);
  assert.deepEqual(gameOf(textOf("{Ann resigns} 0-1", { Result: "0-1" })).halfMoves, []);
  assert.deepEqual(gameOf(textOf("1... e5 *", { Result: "?" })).result, "*");
});

test("time controls", () => {
  assert.deepEqual(["300", "10+3", "-", undefined, "40/7200"].map((it) => controlOf(it)),
    [{ start: 300, increment: 0 }, { start: 10, increment: 3 }, null, null, null]);
});

test("a published game: Morphy against the Duke of Brunswick and Count Isouard, Paris 1858", () => {
  const game = archivedGame("2026-11-30/1", textOf(`1. e4 e5 2. Nf3 d6 3. d4 Bg4 4. dxe5 Bxf3 5. Qxf3 dxe5 6. Bc4 Nf6
7. Qb3 Qe7 8. Nc3 c6 9. Bg5 b5 10. Nxb5 cxb5 11. Bxb5+ Nbd7 12. O-O-O Rd8 13. Rxd7 Rxd7 14. Rd1 Qe6 15. Bxd7+ Nxd7
16. Qb8+ Nxb8 17. Rd8# {checkmated} 1-0`));
  assert.equal(game.isCutOff, false);
  assert.equal(placement(game.place.men), "1n1Rkb1r/p4ppp/4q3/4p1B1/4P3/8/PPP2PPP/2K5");
  assert.deepEqual([game.last, game.toMove, game.place.squares], [33, "b", ["d1", "d8"]]);
  game.look(23);
  assert.equal(placement(game.shown.men), "r3kb1r/p2nqppp/5n2/1B2p1B1/4P3/1Q6/PPP2PPP/2KR3R");
  assert.deepEqual(game.shown.squares, ["c1", "d1"]);
});

test("en passant, what a pawn becomes, and a man that is pinned", () => {
  const passed = played(positionOfFen("4k3/8/8/3pP3/8/8/8/4K3 w - d6 0 2"), "exd6");
  assert.equal(placement(passed.position.men), "4k3/8/3P4/8/8/8/8/4K3");
  assert.deepEqual(passed.captured, { colour: "b", kind: "P" });
  const promoted = played(positionOfFen("1n2k3/P7/8/8/8/8/8/4K3 w - - 0 1"), "axb8=N");
  assert.equal(placement(promoted.position.men), "1N2k3/8/8/8/8/8/8/4K3");
  assert.deepEqual([...promoted.position.promoted], ["b8"]);
  // of the knights b1 and f3 the one on f3 is pinned by the rook on f8
  assert.deepEqual(moveOf(positionOfFen("5r1k/8/8/8/8/5N2/8/1N3K2 w - - 0 1"), "Nd2"),
    { from: "b1", to: "d2", promotion: "" });
  assert.equal(played(usualPosition(false), "Nd4"), null);
  assert.equal(played(usualPosition(false), "O-O-O-O"), null);
});

test("castling in Fischer random, by the files of the rooks", () => {
  const first = positionOfFen("nbbnrkrq/pppppppp/8/8/8/8/PPPPPPPP/NBBNRKRQ w GEge - 0 1");
  assert.deepEqual(first.homes, { king: "f", short: "g", long: "e" });
  assert.equal(arrayOfPosition(first), 84);
  const castled = played(positionOfFen("4rkr1/8/8/8/8/8/8/4RKR1 w GEge - 0 1"), "O-O");
  assert.equal(placement(castled.position.men), "4rkr1/8/8/8/8/8/8/4RRK1");
  assert.deepEqual(castled.position.rights, { w: { short: false, long: false }, b: { short: true, long: true } });
  assert.equal(played(positionOfFen("4k3/8/8/8/8/8/8/4K3 w - - 0 1"), "O-O"), null);
});

test("hands of crazyhouse: a promoted man comes as a pawn", () => {
  const game = archivedGame("2026-11-30/1", textOf("1. bxa8=Q Rxa8 2. N@d4 *", {
    Variant: "Crazyhouse", SetUp: "1", FEN: "n6r/1P5r/8/8/7k/8/8/4K3[N] w - - 0 20" }));
  const hands = [...game.places.values()].map((it) => it.hands);
  assert.deepEqual(hands, [{ w: "N", b: "" }, { w: "NN", b: "" }, { w: "NN", b: "P" }, { w: "N", b: "P" }]);
  const unknown = archivedGame("2026-11-30/1", textOf("1. N@d4 *", {
    Variant: "Crazyhouse", SetUp: "1", FEN: "7r/8/8/8/7k/8/8/4K3 w - - 0 20" }));
  assert.equal(unknown.place.hands, null);
  assert.equal(unknown.place.men.d4, "wN");
  const marked = positionOfFen("Q~6r/8/8/8/7k/8/8/4K3[Pn] b - - 0 20");
  assert.deepEqual([marked.men.a8, [...marked.promoted], marked.hands], ["wQ", ["a8"], { w: "P", b: "N" }]);
});

const BPGN = `[LinkA "2026-11-30/1"]
[LinkB "2026-11-30/2"]

1A. e4{300} 1B. d4{300} 1a. d5{300} 2A. exd5{299} 1b. e5{300} 2B. dxe5{298}
2a. P@e4{299} {1A. e9 is no half-move} {Ben resigns} 1-0
`;
const BOARDS = [textOf("1. e4 d5 2. exd5 P@e4 1-0", { Variant: "Bughouse" }),
  textOf("1. d4 e5 2. dxe5 0-1", { Variant: "Bughouse", White: "Cat", Black: "Dan" })];

test("the order of a pair's half-moves", () => {
  assert.deepEqual(orderOf(BPGN).map((it) => it.board + it.short),
    ["Ae4", "Bd4", "Ad5", "Aexd5", "Be5", "Bdxe5", "AP@e4"]);
});

test("a pair: a captured man keeps its colour and comes to the other board", () => {
  const pair = [{ link: "2026-11-30/1", pgn: BOARDS[0] }, { link: "2026-11-30/2", pgn: BOARDS[1] }];
  for (const [one, other] of [pair, [pair[1], pair[0]]]) {
    const games = archivedPair(one, other, BPGN);
    assert.deepEqual(games.map((it) => it.link), [one.link, other.link]);
    const [first, second] = one === pair[0] ? games : [...games].reverse();
    assert.deepEqual([...first.places.values()].map((it) => it.hands),
      [{ w: "", b: "" }, { w: "", b: "" }, { w: "", b: "" }, { w: "", b: "" }, { w: "", b: "" }]);
    assert.deepEqual(second.places.get(2).hands, { w: "", b: "P" });
    // behind 2. exd5 there stood 1. d4 alone at the other board, whose Black had the pawn in hand
    const { beside } = first.places.get(3);
    assert.deepEqual([beside.board.ply, beside.men.d4, beside.hands], [1, "wP", { w: "", b: "P" }]);
    assert.equal(first.place.beside.board.ply, 3);
    assert.equal(second.place.beside.board.ply, 4);
  }
});

test("a pair whose order doesn't fit is two games, whose hands aren't known", () => {
  for (const order of ["", BPGN.replace("1a. d5", "1a. d6")]) {
    const [first, second] = archivedPair({ link: "2026-11-30/1", pgn: BOARDS[0] },
      { link: "2026-11-30/2", pgn: BOARDS[1] }, order);
    assert.deepEqual([first.last, second.last, first.place.hands, first.place.beside], [4, 3, null, undefined]);
  }
});

test("clocks as they are told, or counted by the times that half-moves took", () => {
  const clocks = (text) => [...archivedGame("2026-11-30/1", text).places.values()].map(({ board }) =>
    [board.clocks.w, board.clocks.b]);
  assert.deepEqual(clocks(textOf("1. e4 {[%clk 0:05:00] [%emt 0:00:00]} e5 {[%clk 0:05:00] [%emt 0:00:00]} "
    + "2. Nf3 {[%clk 0:04:50] [%emt 0:00:12]} *")), [[300, 300], [300, 300], [300, 300], [290, 300]]);
  assert.deepEqual(clocks(textOf("1. e4 {[%emt 0:00:00]} e5 {[%emt 0:00:00]} 2. Nf3 {[%emt 0:00:12]} *")),
    [[300, 300], [300, 300], [300, 300], [291, 300]]);
  assert.deepEqual(clocks(textOf("1. e4 *", { TimeControl: "-" })), [[0, 0], [0, 0]]);
  const late = { SetUp: "1", FEN: "rnbqkbnr/pppppppp/8/8/4P3/8/PPPP1PPP/RNBQKBNR b KQkq e3 0 1" };
  assert.deepEqual(clocks(textOf("1... e5 {[%clk 0:04:00] [%emt 0:00:05]} 2. Nf3 {[%clk 0:03:00] [%emt 0:00:01]} *",
    late)), [[178, 242], [178, 240], [180, 240]]);
  assert.deepEqual(clocks(textOf("1... e5 {[%emt 0:00:05]} *", late)), [[null, null], [null, null]]);
});

test("terms and Fischer random's number", () => {
  const terms = (tags) => String(archivedGame("2026-11-30/1", textOf("*", tags)).terms);
  assert.equal(terms({}), "5 3 chess");
  assert.equal(terms({ TimeControl: "10+3", Variant: "Crazyhouse" }), "0 3 crazyhouse");
  assert.equal(terms({ TimeControl: "-", Variant: "Chess960",
    FEN: "nbbnrkrq/pppppppp/8/8/8/8/PPPPPPPP/NBBNRKRQ w GEge - 0 1" }), "0 0 fischer 84");
});

test("what can't be played is cut off, and what stands before it is shown", () => {
  const game = archivedGame("2026-11-30/1", textOf("1. e4 e5 2. Ke3 Nf6 *"));
  assert.deepEqual([game.isCutOff, game.last], [true, 2]);
});

test("addresses", () => {
  const rows = [["/games/", { kind: "games" }], ["/games/2026-11-30", { kind: "day", day: "2026-11-30" }],
    ["/games/2026-11-30/17", { kind: "game", link: "2026-11-30/17" }],
    ["/games/player/M%C3%BCller%2C%20H", { kind: "player", name: "Müller, H" }],
    ["/games/player/%", { kind: "player", name: "%" }], ["/games/x", { kind: "" }], ["/", { kind: "" }]];
  rows.forEach(([path, place]) => assert.deepEqual(placeOf(path), place, path));
  assert.equal(dataOf("/games/", "?name=x"), "/games/found.json?name=x");
  assert.equal(dataOf("/games/2026-11-30/17", ""), "/games/2026-11-30/17.json");
  assert.equal(playerAddress("<b>/x", "chess"), "/games/player/%3Cb%3E%2Fx?variant=chess");
  assert.equal(olderAddress("/games/", "?name=x&before=2026-11-30/9", "2026-11-30/1"),
    "/games/?name=x&before=2026-11-30%2F1");
  assert.equal(lastAddress({ white: "Ann", black: "Ben", last: 4, end: { result: "1/2-1/2" } }),
    "/games/last?white=Ann&black=Ben&result=1%2F2-1%2F2&half-moves=4");
});

test("where a finger leads", () => {
  assert.deepEqual([[-60, 5], [60, -20], [10, 0], [-40, 30], [0, 90]].map((it) => stepOf(...it)),
    ["on", "back", "", "", ""]);
});
