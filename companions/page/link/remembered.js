/** What a member has set in this session, as the lines that would set it again: channels, lists of names, what reaches
 * the member, a simul, a partner. The server shows nothing of it, so a page that begins anew has to remember. */

/** @type {Record<string, string>} */
const LISTS = { "+channel": "channel", "-channel": "channel", "+censor": "censor", "-censor": "censor",
  "+noplay": "noplay", "-noplay": "noplay" };

export class Remembered {
  /** `rows` are those that `rows` gave before the page began anew: { key, line, told }, of which `line` is null for
   * news.
   * @param {RememberedRow[]} [rows] */
  constructor(rows = []) {
    this.byKey = new Map(rows.map((it) => [it.key, it]));
  }

  get rows() {
    return [...this.byKey.values()];
  }

  /** @param {string} key @param {string | null} line @param {string[]} told */
  put(key, line, told) {
    this.byKey.set(key, { key, line, told });
  }

  /** Takes what was done, whoever typed it.
   * @param {Answer} answer */
  take(answer) {
    if (answer.line === null || !answer.all("ok").length) {
      return;
    }
    const [, first = ""] = answer.line.trim().split(/ +/);
    const list = LISTS[answer.command];
    if (list && answer.command[0] === "+") {
      this.put(`${list} ${first.toLowerCase()}`, answer.line, ["Ok."]);
    } else if (list) {
      this.byKey.delete(`${list} ${first.toLowerCase()}`);
    } else if (answer.command === "set") {
      this.put(`set ${first}`, answer.line, ["Ok."]);
    } else if (answer.command === "simopen" && !this.byKey.delete("simul")) {
      this.put("simul", answer.line, ["Ok."]);
    } else if (answer.command === "partner" && first) {
      this.partner(first);
    } else if (answer.command === "partner") {
      this.byKey.delete("partner");
    }
  }

  /** A partner, or none any more.
   * @param {string} name */
  partner(name) {
    if (name) {
      this.put("partner", null, [`You are now the partner of ${name}.`]);
    } else {
      this.byKey.delete("partner");
    }
  }

  clear() {
    this.byKey.clear();
  }
}
