/** A seat over WebSockets that break: what was missed is heard, what didn't arrive is sent again, by docs/WEB.md. */

import assert from "node:assert/strict";
import test from "node:test";

import { page } from "./page.mjs";

const { Link } = await page("link/link.js");
const { Seat } = await page("link/seat.js");
const MARK = "\x01";

/** A socket of the test's. */
class Socket {
  static OPEN = 1;
  static all = [];

  constructor(url, protocol) {
    Object.assign(this, { url, protocol, sent: [], readyState: 0, closed: null });
    Socket.all.push(this);
  }

  send(message) {
    this.sent.push(message);
  }

  close(code) {
    this.closed = code;
  }

  opens() {
    this.readyState = Socket.OPEN;
    this.onopen();
    return JSON.parse(this.sent.shift().slice(MARK.length));
  }

  says(message) {
    this.onmessage({ data: message });
  }

  answers(fields) {
    const usual = { seat: "T", name: "Ann", prompt: "fics% ", stamped: false, plain: false };
    this.says(MARK + JSON.stringify({ ...usual, ...fields }));
  }

  breaks(code) {
    this.readyState = 3;
    this.onclose({ code });
  }
}

globalThis.WebSocket = Socket;
let isThere = true; // the go-between
globalThis.fetch = async () => {
  if (!isThere) {
    throw new TypeError("no answer");
  }
  return { ok: true };
};

/** A seat, and what it told. */
function seatOf(kept = null, isIn = true) {
  const told = { taken: [], heard: [], waits: 0, ended: [] };
  const seat = new Seat("ws://here/link", kept, {
    taken: (answer) => told.taken.push(answer.taken), hear: (message) => told.heard.push(message), told: () => {},
    isIn: () => isIn, waits: () => { told.waits += 1; }, ended: (code) => told.ended.push(code),
  });
  return { seat, told, socket: Socket.all.at(-1) };
}

function settled() {
  return new Promise((keep) => { setTimeout(keep, 20); });
}

test("a new one asks for no token", () => {
  const { seat, told, socket } = seatOf();
  assert.equal(socket.protocol, "seat");
  assert.deepEqual(socket.opens(), { seat: null });
  socket.answers({ taken: "new", heard: 0 });
  socket.says("login: ");
  seat.send("Ann");
  assert.deepEqual([told.taken, told.heard, socket.sent], [["new"], ["login: "], ["Ann"]]);
});

test("a broken link comes back at once, hears what it missed, and sends what didn't arrive", async () => {
  const { seat, told, socket } = seatOf();
  socket.opens();
  socket.answers({ taken: "new", heard: 0 });
  ["a", "b", "c"].forEach((it) => socket.says(it));
  ["1", "2", "3"].forEach((it) => seat.send(it));
  socket.breaks(1006);
  seat.send("4");
  await settled();
  const again = Socket.all.at(-1);
  assert.notEqual(again, socket);
  assert.deepEqual(again.opens(), { seat: "T", heard: 3 });
  again.answers({ taken: "same", heard: 2 });
  again.says("d");
  assert.deepEqual(again.sent, ["3", "4"]);
  assert.deepEqual(told.heard, ["a", "b", "c", "d"]);
  assert.deepEqual([told.waits, told.ended], [1, []]);
});

test("while the go-between isn't there no socket is opened", async () => {
  const { told, socket } = seatOf();
  socket.opens();
  socket.answers({ taken: "new", heard: 0 });
  isThere = false;
  socket.breaks(1006);
  await settled();
  assert.equal(Socket.all.at(-1), socket);
  isThere = true;
  await new Promise((keep) => { setTimeout(keep, 1_500); });
  assert.deepEqual(Socket.all.at(-1).opens(), { seat: "T", heard: 0 });
  assert.deepEqual([told.waits, told.ended], [1, []]);
});

test("an earlier page's counts go on", () => {
  const { seat, socket } = seatOf({ token: "T", heard: 7, sentCount: 5, sent: ["4", "5"] });
  assert.deepEqual(socket.opens(), { seat: "T", heard: 7 });
  socket.answers({ taken: "same", heard: 4 });
  assert.deepEqual(socket.sent, ["5"]);
  socket.says("x");
  seat.send("6");
  assert.deepEqual(seat.keep, { token: "T", heard: 8, sentCount: 6, sent: ["5", "6"] });
});

test("where the counts begin anew nothing is sent again", () => {
  const { seat, socket } = seatOf({ token: "T", heard: 7, sentCount: 5, sent: ["4", "5"] });
  socket.opens();
  socket.answers({ taken: "anew", heard: 0 });
  assert.deepEqual(socket.sent, []);
  seat.send("1");
  assert.deepEqual([seat.keep.heard, seat.keep.sentCount], [0, 1]);
});

test("a close that somebody wished for is the end, and so is one before the login", async () => {
  for (const [code, isIn] of [[1000, true], [4005, true], [4007, true], [1008, true], [4001, true], [1006, false]]) {
    const { told, socket } = seatOf(null, isIn);
    const count = Socket.all.length;
    socket.opens();
    socket.answers({ taken: "new", heard: 0 });
    socket.breaks(code);
    await settled();
    assert.deepEqual([told.ended, told.waits, Socket.all.length], [[code], 0, count], String(code));
  }
});

test("who leaves doesn't come back", () => {
  const { seat, socket } = seatOf();
  socket.opens();
  socket.answers({ taken: "new", heard: 0 });
  seat.leave();
  assert.equal(socket.closed, 1000);
});

test("what is for the go-between alone is told only where the seat is given, and says whether it was", () => {
  const { seat, socket } = seatOf();
  const wish = { lists: true };
  assert.equal(seat.tell(wish), false);
  socket.opens();
  assert.equal(seat.tell(wish), false);
  assert.deepEqual(socket.sent, []);
  socket.answers({ taken: "new", heard: 0 });
  assert.equal(seat.tell(wish), true);
  assert.deepEqual(socket.sent, [MARK + JSON.stringify(wish)]);
  socket.breaks(1006);
  assert.equal(seat.tell(wish), false);
});

test("what the go-between has is told to the page, and what it doesn't have too", () => {
  for (const has of [{}, { archive: true }, { archive: true, ratings: true }]) {
    const told = [];
    new Link("ws://here/link", false, null, { told: (it) => told.push(it), found: () => {} });
    const socket = Socket.all.at(-1);
    socket.opens();
    socket.answers({ taken: "new", heard: 0, ...has });
    assert.deepEqual(told, [{ archive: false, ratings: false, ...has }]);
  }
});
