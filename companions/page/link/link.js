/** One link of the server: its messages are lines and prompts. What comes is cut into parts behind each prompt. A part
 * that begins with an empty line is news; any other answers the oldest line that was sent. The link outlives a
 * WebSocket that breaks, and the page too: `seat.js` says how. */

import { mayBeKept } from "./keepable.js";
import { PROMPTS } from "./lines.js";
import { Seat } from "./seat.js";
import { ACKNOWLEDGEMENT, GREETING, sealed, stampNow } from "./stamps.js";

export const GONE = 0; // the end of a link whose seat was given away
const ASKS_BACK = "[G]\0";
const LONGEST = 1023;
const PRINTABLE = /^[\x20-\x7e]*$/;

/** What the server would answer to a line that can't be sent, or null where it can.
 * @param {string} line */
function refusalOf(line) {
  if (!PRINTABLE.test(line)) {
    return "refused 56 BadByte";
  }
  return line.length > LONGEST ? "refused 29 TooLong" : null;
}

export class Link {
  /** `kept` is what `keep` gave before the page began anew, or null. `take` gets each part, { line, lines, prompt }, of
   * which `line` is null for news; `acknowledges` says whether a board line is to be acknowledged where the server asks
   * for it; `found` gets the name under which a link is in that the page has come back to, and whether what came
   * meanwhile follows; `told` what the go-between says, `isIn` whether a member is in, `waits` that the link is lost
   * for the moment, by that code of a close; `ended` the code of its end.
   * @param {string} url @param {boolean} isStamped @param {KeptLink | null} kept @param {LinkListeners} listeners */
  constructor(url, isStamped, kept, listeners) {
    this.isStamped = isStamped;
    this.listeners = listeners;
    // the lines that were sent and aren't answered, the oldest first
    /** @type {Owed[]} */
    this.owed = (kept?.owed ?? []).map((line) => ({ line, at: 0, keep: () => {} }));
    /** @type {string[]} */
    this.lines = kept?.lines ?? []; // of the part that isn't whole
    this.prompt = kept?.prompt ?? "";
    this.isOpen = true;
    this.isKnown = false; // the go-between has answered on it
    this.greeted = () => {};
    /** @type {Promise<void>} */
    this.opened = new Promise((keep) => { this.greeted = () => keep(); }); // kept with the first prompt, or the end
    this.seat = new Seat(url, kept?.seat ?? null, {
      taken: (answer) => this.taken(answer), hear: (message) => this.hear(message), told: listeners.told,
      isIn: listeners.isIn, waits: listeners.waits, ended: (code) => this.close(code),
    });
  }

  /** There is a seat: a new one begins with a greeting, and on one's own the link goes on.
   * @param {Taken} answer */
  taken({ taken, name, prompt, stamped, plain, archive = false, ratings = false }) {
    const isFirst = !this.isKnown;
    this.isKnown = true;
    this.listeners.told({ archive, ratings });
    if (taken === "new") {
      this.begin(plain, isFirst);
      return;
    }
    this.isStamped = stamped;
    if (taken === "anew") {
      this.lines = [];
      this.prompt = prompt;
      this.giveUp();
    }
    this.greeted();
    this.listeners.found(name, taken === "same");
  }

  /** A new link, where the page had none or had one of an earlier page; else its own one is gone, and this none of
   * its.
   * @param {boolean} isPlain @param {boolean} isFirst */
  begin(isPlain, isFirst) {
    if (!isFirst) {
      this.seat.leave();
      this.close(GONE);
      return;
    }
    this.lines = [];
    this.giveUp();
    this.isStamped &&= !isPlain;
    if (this.isStamped) {
      this.seat.send(sealed(GREETING, stampNow()));
    }
    this.listeners.found("", false);
  }

  /** Sends a line. The promise is kept with what answers it.
   * @param {string} line
   * @returns {Promise<Answer>} */
  ask(line) {
    const refusal = this.isOpen ? refusalOf(line) : "";
    if (refusal !== null) {
      return Promise.resolve(this.listeners.take({ line, lines: refusal ? [refusal] : [], prompt: this.prompt }));
    }
    return new Promise((keep) => {
      this.seat.send(this.isStamped ? sealed(line, stampNow()) : line);
      this.owed.push({ line, at: this.seat.sentCount, keep });
    });
  }

  /** @param {string} message */
  hear(message) {
    let text = message;
    while (text.startsWith(ASKS_BACK)) {
      if (this.listeners.acknowledges(this.lines.at(-1) ?? "")) {
        this.seat.send(sealed(ACKNOWLEDGEMENT, stampNow()));
      }
      text = text.slice(ASKS_BACK.length);
      if (!text) {
        return;
      }
    }
    if (PROMPTS.includes(text)) {
      this.endPart(text);
    } else {
      this.lines.push(text);
    }
  }

  /** @param {string} prompt */
  endPart(prompt) {
    const { lines } = this;
    this.lines = [];
    this.prompt = prompt;
    this.greeted();
    if (lines[0] === "") {
      this.listeners.take({ line: null, lines: lines.slice(1), prompt });
      return;
    }
    const answered = this.owed.shift();
    this.seat?.arrived(answered?.at ?? 0);
    const answer = this.listeners.take({ line: answered?.line ?? null, lines, prompt });
    answered?.keep(answer);
  }

  /** What is owed comes no more, or as news. */
  giveUp() {
    for (const { line, keep } of this.owed.splice(0)) {
      keep(this.listeners.take({ line, lines: [], prompt: "" }));
    }
  }

  /** The other side is gone: what came behind the last prompt is the farewell.
   * @param {number} code */
  close(code) {
    this.isOpen = false;
    this.endPart("");
    this.giveUp();
    this.listeners.ended(code);
  }

  /** Leaves the server. */
  leave() {
    this.seat.leave();
  }

  /** What a page that begins anew has to know of it: what is underway, unless a password may be among it. */
  get keep() {
    const lines = this.owed.map((it) => it.line);
    const { seat: { keep: seat }, prompt } = this;
    return lines.every(mayBeKept) ? { seat, owed: lines, lines: this.lines, prompt }
      : { seat: { ...seat, sentCount: 0, sent: [], isAnew: true }, owed: [], lines: [], prompt };
  }
}
