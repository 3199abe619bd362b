/** What the page is told, as events, and what it asks. Events are told in the order in which their lines came, each to
 * whoever wants its kind, and then the answer to who asked. */

import { commandOf } from "./commands.js";
import { eventOf } from "./lines.js";
import { Link } from "./link.js";

/** What came of a line: its events, and the refusal's number or 0. */
export class Answer {
  /** @param {Part} part */
  constructor(part) {
    this.line = part.line;
    this.command = part.line === null ? "" : commandOf(part.line);
    this.lines = part.lines;
    this.prompt = part.prompt;
    this.events = part.lines.map((it) => eventOf(it, this.command));
  }

  get refusal() {
    const [first] = this.events;
    return first?.kind === "refused" ? first.n : 0;
  }

  /** The line that it answers, or nothing. */
  get said() {
    return this.line ?? "";
  }

  /** Whether the go-between didn't pass the line on, since the member says too much. */
  get isHushed() {
    return this.events[0]?.kind === "hushed";
  }

  /** Whether it was done: it wasn't refused, and the link didn't end before the answer. */
  get isDone() {
    return !this.refusal && !this.isHushed && this.prompt !== "";
  }

  /** The events of one kind.
   * @template {LineKind} K
   * @param {K} kind
   * @returns {Happened<K>[]} */
  all(kind) {
    return /** @type {Happened<K>[]} */ (this.events.filter((it) => it.kind === kind));
  }
}

export class Session {
  /** `kept` is what `keep` gave before the page began anew, or null.
   * @param {string} url @param {boolean} isStamped @param {KeptLink | null} [kept] */
  constructor(url, isStamped, kept = null) {
    this.url = url;
    this.isStamped = isStamped;
    this.me = "";
    this.isComingBack = false; // to a link of an earlier page
    /** @type {Map<EventKind, ((event: any, answer: Answer | null) => void)[]>} */
    this.listeners = new Map();
    /** @type {((answer: Answer) => void)[]} */
    this.answered = []; // who wants each answer
    /** @type {((end: LinkEnd) => void)[]} */
    this.ended = [];
    /** @type {((line: string) => boolean)[]} */
    this.askedBack = []; // who says whether a board line is acknowledged
    this.on("entered", (event) => { this.me = event.who; });
    this.link = this.connect(kept);
  }

  /** Begins a new link, or goes on with that of an earlier page, and forgets the one before.
   * @param {KeptLink | null} [kept]
   * @returns {Link} */
  connect(kept = null) {
    const before = this.link;
    this.me = "";
    this.isComingBack = kept !== null;
    const isPresent = () => this.link === link;
    /** @type {Link} */
    const link = new Link(this.url, this.isStamped, kept, {
      take: (part) => (isPresent() ? this.take(part) : new Answer({ line: part.line, lines: [], prompt: "" })),
      acknowledges: (line) => this.askedBack.every((it) => it(line)),
      found: (name, isSame) => isPresent() && this.found(name, isSame),
      told: (it) => isPresent() && this.emit({ kind: "told", it }),
      isIn: () => this.me !== "" || this.isComingBack,
      waits: (code) => isPresent() && this.emit({ kind: "link-lost", code }),
      ended: (code) => isPresent() && this.end(code),
    });
    this.link = link;
    before?.leave();
    return link;
  }

  /** The link is one under which somebody is in, by that name, or nobody. `isSame` says that all that came meanwhile
   * follows.
   * @param {string} name @param {boolean} isSame */
  found(name, isSame) {
    const isNewPage = this.me === "";
    const wasComing = this.isComingBack;
    this.isComingBack = false;
    if (name && isNewPage) {
      this.emit({ kind: "entered", text: "", who: name, isBack: true });
    }
    if (name || wasComing) {
      this.emit({ kind: name ? "link-back" : "link-gone", isSame, isNewPage });
    }
  }

  /** @param {number} code */
  end(code) {
    const { me } = this;
    this.me = "";
    this.isComingBack = false;
    this.ended.forEach((it) => it({ code, me }));
  }

  get isIn() {
    return this.me !== "" && this.link.isOpen;
  }

  /** Calls `listener` with each event of those kinds.
   * @template {EventKind} K
   * @param {K | readonly K[]} kinds @param {(event: Happened<K>, answer: Answer | null) => void} listener */
  on(kinds, listener) {
    for (const kind of [kinds].flat()) {
      this.listeners.set(kind, [...(this.listeners.get(kind) ?? []), listener]);
    }
  }

  /** Calls `listener` with each answer, whoever asked.
   * @param {(answer: Answer) => void} listener */
  onAnswer(listener) {
    this.answered.push(listener);
  }

  /** @param {(end: LinkEnd) => void} listener */
  onEnd(listener) {
    this.ended.push(listener);
  }

  /** A board line is acknowledged, where the server asks for it, if all that listen so say so.
   * @param {(line: string) => boolean} listener */
  onAskedBack(listener) {
    this.askedBack.push(listener);
  }

  /** @param {Happened} event @param {Answer | null} [answer] */
  emit(event, answer = null) {
    (this.listeners.get(event.kind) ?? []).forEach((it) => it(event, answer));
  }

  /** @param {Part} part */
  take(part) {
    const answer = new Answer(part);
    answer.events.forEach((it) => this.emit(it, answer));
    this.answered.forEach((it) => it(answer));
    return answer;
  }

  /** Asks the server; the promise is kept with the answer.
   * @param {string} line */
  ask(line) {
    return this.link.ask(line);
  }

  /** Tells the go-between something that is no line: whether it went out.
   * @param {object} it */
  tell(it) {
    return this.link.seat.tell(it);
  }

  /** What a page that begins anew has to know of it. */
  get keep() {
    return this.link.keep;
  }

  /** Asks for a member, who reads the refusal where there is one: that it acts, and what came of it, are events too.
   * @param {string} line */
  async act(line) {
    this.emit({ kind: "acting", command: commandOf(line) });
    const answer = await this.ask(line);
    if (!answer.isHushed) {
      this.emit(answer.refusal ? { kind: "complaint", n: answer.refusal } : { kind: "settled" });
    }
    return answer;
  }
}
