/** A seat at the go-between, as docs/WEB.md has it: a WebSocket that may break, and the count of what came and went,
 * by which a page that comes back hears what it has missed and sends again what didn't arrive. */

const MARK = "\x01"; // of messages between the page and the go-between alone
const PROTOCOL = "seat";
const DONE = 1000;
const HELD = 30_000; // milliseconds for which the go-between holds a seat
const TRIES_FOR = 120_000; // milliseconds
const SOON = 700; // milliseconds between two tries while the seat is held
const LATER = 5_000;
const ANSWERS_WITHIN = 5_000; // milliseconds
const COMES_BACK = [1001, 1005, 1006, 4004]; // codes of a close behind which coming back may help

/** Whether the go-between is there, by one of the page's files. */
async function isThere() {
  try {
    const signal = /** @type {any} the compiler's tables lack it */ (AbortSignal).timeout(ANSWERS_WITHIN);
    return (await fetch("icon.svg", { method: "HEAD", cache: "no-store", signal })).ok;
  } catch {
    return false;
  }
}

export class Seat {
  /** `kept` is what `keep` gave before the page began anew, or null. `taken` gets the go-between's answer, `hear` each
   * message, `told` what it tells the page itself, `waits` that the link is lost for the moment, by that code of a
   * close, and `ended` the code of the close for good. `isIn` says whether there is anything to come back to.
   * @param {string} url @param {KeptSeat | null} kept @param {SeatListeners} listeners */
  constructor(url, kept, listeners) {
    this.url = url;
    this.listeners = listeners;
    this.token = kept?.token ?? null;
    this.heard = kept?.heard ?? null; // messages, or null where the page doesn't know
    this.sentCount = kept?.sentCount ?? 0;
    this.sent = kept?.sent ?? []; // the last ones, of which nobody has said that they have arrived
    this.isAnew = kept?.isAnew ?? false; // the page begins anew, and doesn't know what it has sent
    this.isTaken = false; // there was an answer on this socket
    this.isOver = false;
    this.lostSince = 0;
    this.socket = this.open();
  }

  /** @returns {WebSocket} */
  open() {
    const socket = new WebSocket(this.url, PROTOCOL);
    this.socket = socket;
    this.isTaken = false;
    socket.onopen = () => this.say({ seat: this.token, ...(this.token === null ? {} : { heard: this.heard }),
      ...(this.isAnew ? { anew: true } : {}) });
    socket.onmessage = (message) => socket === this.socket && this.receive(message.data);
    socket.onclose = (event) => socket === this.socket && this.closed(event.code);
    return socket;
  }

  /** @param {string} data */
  receive(data) {
    if (!data.startsWith(MARK)) {
      this.heard = (this.heard ?? 0) + 1;
      this.listeners.hear(data);
      return;
    }
    const told = JSON.parse(data.slice(MARK.length));
    if (!this.isTaken && "taken" in told) {
      this.take(told);
    } else {
      this.listeners.told(told);
    }
  }

  /** The go-between has given a seat: what it didn't get is sent again where it is the same one.
   * @param {Taken} answer */
  take(answer) {
    this.isTaken = true;
    this.isAnew = false;
    this.token = answer.seat;
    this.lostSince = 0;
    if (answer.taken === "same") {
      this.arrived(answer.heard);
      this.sent.forEach((it) => this.socket.send(it));
      this.sentCount = Math.max(this.sentCount, answer.heard);
    } else {
      this.heard = 0;
      this.sentCount = 0;
      this.sent = [];
    }
    this.listeners.taken(answer);
  }

  /** So many messages have arrived: they are forgotten.
   * @param {number} count */
  arrived(count) {
    const missing = Math.max(0, this.sentCount - count);
    this.sent = missing ? this.sent.slice(-missing) : [];
  }

  /** Sends a message, at once or as soon as the page is back.
   * @param {string} message */
  send(message) {
    this.sentCount += 1;
    this.sent.push(message);
    if (this.isTaken) {
      this.socket.send(message);
    }
  }

  /** Tells the go-between something that is no line, where it has given the seat: whether it went out.
   * @param {object} it */
  tell(it) {
    const mayTell = this.isTaken && this.socket.readyState === WebSocket.OPEN;
    if (mayTell) {
      this.say(it);
    }
    return mayTell;
  }

  /** @param {object} it */
  say(it) {
    this.socket.send(MARK + JSON.stringify(it));
  }

  /** @param {number} code */
  closed(code) {
    this.isTaken = false;
    if (this.isOver || !COMES_BACK.includes(code) || !this.listeners.isIn()) {
      this.end(code);
      return;
    }
    const isFirst = this.lostSince === 0;
    this.lostSince ||= Date.now();
    const gone = Date.now() - this.lostSince;
    if (gone > TRIES_FOR) {
      this.end(code);
    } else {
      if (isFirst) {
        this.listeners.waits(code);
      }
      setTimeout(() => this.comeBack(code), isFirst ? 0 : gone < HELD ? SOON : LATER);
    }
  }

  /** Opens another one, once the go-between is there: behind each that fails Firefox lets the next one wait longer.
   * @param {number} code */
  async comeBack(code) {
    const mayOpen = !this.isOver && await isThere();
    if (this.isOver) {
      return;
    }
    if (mayOpen) {
      this.open();
    } else {
      this.closed(code);
    }
  }

  /** @param {number} code */
  end(code) {
    this.isOver = true;
    this.listeners.ended(code);
  }

  /** Leaves the seat for good. */
  leave() {
    this.isOver = true;
    this.socket.close(DONE);
  }

  /** What a page that begins anew has to know of it. */
  get keep() {
    return { token: this.token, heard: this.heard, sentCount: this.sentCount, sent: this.sent };
  }
}
