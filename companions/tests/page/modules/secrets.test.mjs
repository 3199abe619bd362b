/** What a link keeps for the page that begins anew: lines that haven't arrived, and never one with a password. */

import assert from "node:assert/strict";
import test from "node:test";

import { page } from "./page.mjs";

const { Link } = await page("link/link.js");
const MARK = "\x01";
const SECRET = "swordfish";

class Socket {
  static OPEN = 1;
  static last = null;

  constructor() {
    Object.assign(this, { sent: [], readyState: Socket.OPEN });
    Socket.last = this;
  }

  send(message) {
    this.sent.push(message);
  }

  close() {}

  says(...messages) {
    messages.forEach((data) => this.onmessage({ data }));
  }
}

globalThis.WebSocket = Socket;

/** A link, with the answer that the go-between gives it. */
function linkOf(kept = null, fields = { taken: "new", heard: 0 }) {
  const link = new Link("ws://here/link", false, kept, {
    take: (part) => part, acknowledges: () => true, found: () => {}, told: () => {}, isIn: () => true, waits: () => {},
    ended: () => {},
  });
  const socket = Socket.last;
  socket.onopen();
  const asked = JSON.parse(socket.sent.shift().slice(MARK.length));
  const seat = { seat: "T", name: "Ann", prompt: "fics% ", stamped: false, plain: false, ...fields };
  socket.says(MARK + JSON.stringify(seat));
  return { link, socket, asked };
}

/** A link that is in, by a login with a password. */
function entered() {
  const all = linkOf();
  all.socket.says("login: ");
  all.link.ask("Ann");
  all.socket.says("password: ");
  all.link.ask(SECRET);
  all.socket.says("Entered as Ann.", "fics% ");
  return all;
}

test("nothing that has arrived is kept", () => {
  const { link, socket } = entered();
  assert.deepEqual(link.keep.seat.sent, []);
  link.ask("who");
  link.ask("e4");
  assert.deepEqual(link.keep.seat.sent, ["who", "e4"]);
  socket.says("Ann", "fics% ");
  assert.deepEqual([link.keep.seat.sent, link.keep.owed, link.keep.seat.sentCount], [["e4"], ["e4"], 4]);
  socket.says("", "Ben tells you: hi", "fics% ");
  assert.deepEqual(link.keep.seat.sent, ["e4"]);
});

test("no line with a password is kept, whoever answers it when", () => {
  for (const line of [`register ${SECRET}`, `REG ${SECRET}`, ` regi  ${SECRET}`, `passwd old ${SECRET}`, SECRET,
    `r ${SECRET}`]) {
    const { link, socket } = entered();
    link.ask("who");
    link.ask(line);
    link.ask("games");
    assert.ok(!JSON.stringify(link.keep).includes(SECRET), line);
    const { asked, link: later } = linkOf(JSON.parse(JSON.stringify(link.keep)), { taken: "anew", heard: 0 });
    assert.deepEqual(asked, { seat: "T", heard: 4, anew: true });
    later.ask("who");
    assert.deepEqual([later.keep.seat.sent, later.keep.seat.sentCount], [["who"], 1]);
    socket.says("Ann", "fics% ", "Ok.", "fics% ");
    assert.deepEqual(link.keep.owed, ["games"]);
  }
});

test("moves and commands that are underway go on in the page that begins anew", () => {
  for (const line of ["e4", "Nbd2+", "e7e8=q", "O-O", "P@e4", "exd8=Q#", "tell Ben hi", "refresh", ""]) {
    const { link } = entered();
    link.ask(line);
    const kept = JSON.parse(JSON.stringify(link.keep));
    const { socket, asked } = linkOf(kept, { taken: "same", heard: 2 });
    assert.deepEqual([asked, socket.sent], [{ seat: "T", heard: 4 }, [line]], line);
  }
});
