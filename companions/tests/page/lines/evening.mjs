/** An evening, as a script of `replay`: who connects, and who sends what. */

const STEP = 10; // milliseconds between two lines

export class Evening {
  constructor(seats = "") {
    this.events = []; // { moment, session, mark, text }
    this.seats = seats;
    this.now = 0;
    this.sessions = seats ? (seats.includes("bughouse") ? 4 : 2) : 0;
  }

  put(session, mark, text = "") {
    this.now += STEP;
    this.events.push({ moment: this.now, session, mark, text });
    return this;
  }

  /** Somebody connects and comes in; the number of the session. */
  come(name, password = "") {
    this.sessions += 1;
    this.put(this.sessions, "+");
    this.say(this.sessions, name);
    if (password) {
      this.say(this.sessions, `register ${password}`);
    }
    return this.sessions;
  }

  /** Several come in; their sessions. */
  all(...names) {
    return names.map((it) => this.come(it));
  }

  /** A session sends lines, each of which is answered. */
  say(session, ...lines) {
    lines.forEach((it) => this.put(session, ">", it));
    return this;
  }

  /** Two take turns with their moves. */
  play(white, black, moves) {
    moves.split(" ").forEach((it, n) => this.say(n % 2 ? black : white, it));
    return this;
  }

  /** One challenges another, who accepts. */
  match(one, other, name, terms = "0 0 white") {
    return this.say(one, `match ${name} ${terms}`).say(other, "accept").say(one, "");
  }

  /** So many milliseconds pass. */
  wait(milliseconds) {
    this.now += milliseconds;
    return this;
  }

  get script() {
    const lines = this.events.map(({ moment, session, mark, text }) =>
      [moment, session, mark].join(" ") + (mark === ">" || mark === "*" || mark === "!" ? ` ${text}` : ""));
    return [...(this.seats ? [this.seats] : []), ...lines, ""].join("\n");
  }
}
