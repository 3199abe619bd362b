/** The box of the talk: a room for all, one for the game, one for the partner, and one for each channel and person,
 * each behind a tab. What is said in a room that isn't seen is counted at its tab. However much is said, it is drawn
 * once a frame. */

import { byId, element, onClickAt } from "../shell/elements.js";
import { lineToldIn } from "./told_line.js";
import { t } from "../shell/texts.js";

const KEPT = 500; // lines of a room
/** @type {Record<string, number>} */
const STEPS = { ArrowLeft: -1, ArrowRight: 1 };
const UNCOUNTED = ["own", "happened", "left-out"]; // kinds of lines that nobody has to read

/** A line as it is shown; who says it stands out, and a line of the server at its end is a button.
 * @param {SaidLine} line */
function rowOf({ who = "", said, kind }) {
  const row = element("p", kind);
  const line = lineToldIn({ kind, said });
  if (line) {
    const button = element("button", "", line);
    button.dataset.types = line;
    row.append(nameOf(who, kind), `: ${said.slice(0, -line.length)}`, button);
  } else if (who) {
    row.append(nameOf(who, kind), `: ${said}`);
  } else {
    row.textContent = said;
  }
  return row;
}

/** Who has said a line; a click on another's name leads to its room.
 * @param {string} who @param {string} kind */
function nameOf(who, kind) {
  const name = element("b", "", who);
  if (kind !== "own") {
    name.dataset.room = `person ${who}`;
    name.title = t("talk.of", { who });
  }
  return name;
}

class Room {
  /** @param {string} key @param {number} id */
  constructor(key, id) {
    this.key = key;
    this.unread = 0;
    /** @type {SaidLine[]} */
    this.fresh = []; // the last lines, as far as they aren't drawn
    /** @type {SaidLine | undefined} */
    this.last = undefined;
    this.tab = element("button");
    this.tab.id = `tab-${id}`;
    this.tab.role = "tab";
    this.tab.dataset.room = key;
    this.tab.setAttribute("aria-controls", `said-${id}`);
    this.name = element("span", "name");
    this.mark = element("span", "mark");
    this.tab.append(this.name, this.mark);
    this.panel = element("div");
    this.panel.id = `said-${id}`;
    this.panel.role = "log";
    this.panel.tabIndex = 0;
    this.panel.dataset.said = key;
    this.panel.setAttribute("aria-labelledby", this.tab.id);
  }

  /** @param {SaidLine} line */
  add(line) {
    this.last = line;
    this.fresh.push(line);
    if (this.fresh.length > KEPT) {
      this.fresh.shift();
    }
  }

  /** So many more lines were left out behind the last one, which says so already where it was one of them.
   * @param {number} n */
  leaveOut(n) {
    const isMore = this.last?.kind === "left-out";
    const sum = n + (isMore ? this.last?.n ?? 0 : 0);
    if (isMore && !this.fresh.pop()) {
      this.panel.lastChild?.remove();
    }
    const count = sum.toLocaleString(document.documentElement.lang || undefined);
    this.add({ kind: "left-out", n: sum, said: t(sum === 1 ? "talk.left-out-one" : "talk.left-out", { n: count }) });
  }

  /** Shows the lines that aren't drawn yet; the last ones stay. */
  draw() {
    if (this.fresh.length) {
      this.panel.append(...this.fresh.splice(0).map(rowOf));
      [...this.panel.children].slice(0, -KEPT).forEach((it) => it.remove());
      this.toEnd();
    }
  }

  toEnd() {
    this.panel.scrollTop = this.panel.scrollHeight;
  }

  /** Counts a line that isn't read. */
  count() {
    this.unread += 1;
  }

  read() {
    this.unread = 0;
  }

  /** @param {boolean} isChosen */
  show(isChosen) {
    this.tab.setAttribute("aria-selected", String(isChosen));
    this.panel.hidden = !isChosen;
    this.mark.hidden = !this.unread;
    this.mark.textContent = String(this.unread);
  }
}

export class Rooms {
  /** `isSeen()` says whether the box is in sight, `changed()` is called where another room is chosen or something is
   * read or isn't.
   * @param {() => boolean} isSeen @param {() => void} changed */
  constructor(isSeen, changed) {
    this.isSeen = isSeen;
    this.changed = changed;
    /** @type {Map<string, Room>} */
    this.byKey = new Map();
    this.made = 0;
    this.frame = 0; // in which it is shown
    this.chosen = "";
    onClickAt(byId("rooms"), "[data-room]", (tab, event) => {
      event.stopPropagation();
      this.choose(tab.dataset.room ?? "");
    });
    byId("rooms").addEventListener("keydown", (event) => this.walk(event));
  }

  get all() {
    return [...this.byKey.values()];
  }

  get unread() {
    return this.all.reduce((sum, it) => sum + it.unread, 0);
  }

  /** @param {string} key */
  has(key) {
    return this.byKey.has(key);
  }

  /** The room of a key, made where there is none yet, under that name.
   * @param {string} key @param {string} name */
  open(key, name) {
    const room = this.byKey.get(key) ?? this.make(key);
    room.name.textContent = name;
    return room;
  }

  /** @param {string} key */
  make(key) {
    this.made += 1;
    const room = new Room(key, this.made);
    this.byKey.set(key, room);
    byId("rooms").append(room.tab);
    byId("said").append(room.panel);
    room.show(false);
    return room;
  }

  /** @param {string} key */
  close(key) {
    const room = this.byKey.get(key);
    if (room) {
      room.tab.remove();
      room.panel.remove();
      this.byKey.delete(key);
      if (this.chosen === key) {
        this.choose(this.all[0]?.key ?? "");
      }
    }
  }

  /** @param {string} key */
  choose(key) {
    this.chosen = key;
    this.read();
    this.byKey.get(key)?.tab.scrollIntoView({ block: "nearest", inline: "nearest" });
  }

  /** What stands in the chosen room is read where it is in sight. */
  read() {
    const room = this.byKey.get(this.chosen);
    if (room && this.isSeen()) {
      room.read();
    }
    this.show();
    room?.toEnd();
  }

  /** A line of a room that is there; what the member says itself isn't unread, nor what it reads elsewhere.
   * @param {string} key @param {SaidLine} line */
  add(key, line, isRead = false) {
    const room = this.byKey.get(key);
    if (!room) {
      return;
    }
    room.add(line);
    if (!isRead && !UNCOUNTED.includes(line.kind) && !(key === this.chosen && this.isSeen())) {
      room.count();
    }
    this.showSoon();
  }

  /** So many lines were left out in a room.
   * @param {string} key @param {number} n */
  leaveOut(key, n) {
    this.byKey.get(key)?.leaveOut(n);
    this.showSoon();
  }

  /** Shows what has changed, with the next frame. */
  showSoon() {
    this.frame ||= requestAnimationFrame(() => this.show());
  }

  /** Shows what was said and isn't drawn, and what is unread. */
  show() {
    cancelAnimationFrame(this.frame);
    this.frame = 0;
    this.all.forEach((it) => {
      it.show(it.key === this.chosen);
      it.draw();
    });
    this.changed();
  }

  /** The arrows go from tab to tab.
   * @param {KeyboardEvent} event */
  walk(event) {
    const step = STEPS[event.key];
    const at = this.all.findIndex((it) => it.tab === event.target);
    if (step && at >= 0) {
      event.preventDefault();
      event.stopPropagation();
      const next = this.all[(at + step + this.all.length) % this.all.length];
      this.choose(next.key);
      next.tab.focus();
    }
  }

  clear() {
    [...this.byKey.keys()].forEach((it) => this.close(it));
  }
}
