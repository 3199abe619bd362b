/** Lists that stand still: a row keeps its place as long as it is there. What is new stands at the end, or where a
 * place is free; what is gone stays there in grey until the mouse has left the list, and then leaves its place free. */

import { showRows } from "./list.js";

/** The places of a list by the keys of its rows; a place without one is free. */
export class Places {
  constructor() {
    /** @type {(string | null)[]} */
    this.keys = [];
  }

  /** The places for these rows; `isHeld` says that none may change under the mouse.
   * @param {string[]} wanted @param {boolean} isHeld */
  take(wanted, isHeld) {
    if (!isHeld) {
      this.keys = this.keys.map((it) => (it !== null && wanted.includes(it) ? it : null));
    }
    for (const key of wanted.filter((it) => !this.keys.includes(it))) {
      const free = isHeld ? -1 : this.keys.indexOf(null);
      this.keys[free >= 0 ? free : this.keys.length] = key;
    }
    while (this.keys.at(-1) === null) {
      this.keys.pop();
    }
    return this.keys;
  }

  /** Nobody looks: what is shown next stands as it comes. */
  clear() {
    this.keys = [];
  }
}

/** @param {Row} row
 * @returns {Row} */
function gone(row) {
  const buttons = (row.buttons ?? []).map((it) => ({ ...it, isOff: true }));
  return { ...row, className: `${row.className ?? ""} gone`.trim(), buttons };
}

export class StillList {
  /** @param {HTMLElement} list */
  constructor(list) {
    this.list = list;
    this.places = new Places();
    /** @type {Map<string, Row>} */
    this.known = new Map(); // the rows by their keys, also of those that are gone
    /** @type {Row[]} */
    this.rows = [];
    this.none = "";
    list.addEventListener("mouseleave", () => this.show(this.rows, this.none));
  }

  /** Shows rows; `none` stands where there are none.
   * @param {Row[]} rows */
  show(rows, none = "") {
    this.rows = rows;
    this.none = none;
    rows.forEach((it) => this.known.set(it.key, it));
    const keys = rows.map((it) => it.key);
    const places = this.places.take(keys, this.list.matches(":hover"));
    this.known.forEach((_, key) => places.includes(key) || this.known.delete(key));
    showRows(this.list, places.map((key, n) => this.rowAt(key, n, keys)), none);
  }

  /** @param {string | null} key @param {number} n @param {string[]} keys
   * @returns {Row} */
  rowAt(key, n, keys) {
    const row = key === null ? undefined : this.known.get(key);
    return !row ? { key: `free ${n}`, className: "free" } : keys.includes(row.key) ? row : gone(row);
  }
}
