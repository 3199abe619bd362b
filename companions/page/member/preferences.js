/** What a member prefers, kept by the browser for the next time. */

import { onClickAt } from "../shell/elements.js";

const KEY = "preferences";
/** @type {Record<PreferenceName, boolean>} */
const USUAL = { sounds: true, notes: false, premoves: true, legal: true, queen: false, flag: true, guests: true };

export class Preferences {
  /** `store` keeps texts by their keys; a browser that keeps nothing may have none.
   * @param {Pick<Storage, 'getItem' | 'setItem'> | null} store */
  constructor(store) {
    this.store = store;
    /** @type {((name: PreferenceName, value: boolean) => void)[]} */
    this.listeners = [];
    this.values = { ...USUAL, ...this.kept() };
  }

  kept() {
    try {
      const kept = JSON.parse(this.store?.getItem(KEY) ?? "{}");
      return Object.fromEntries(Object.entries(kept)
        .filter(([name, value]) => typeof value === "boolean" && name in USUAL));
    } catch {
      return {};
    }
  }

  /** @param {PreferenceName} name */
  get(name) {
    return this.values[name];
  }

  /** @param {PreferenceName} name @param {boolean} value */
  set(name, value) {
    this.values[name] = value;
    try {
      this.store?.setItem(KEY, JSON.stringify(this.values));
    } catch {
      // the browser keeps nothing: it holds until the page is left
    }
    this.listeners.forEach((it) => it(name, value));
  }

  /** Calls `listener` with the name and the value of what is preferred from now on.
   * @param {(name: PreferenceName, value: boolean) => void} listener */
  onChange(listener) {
    this.listeners.push(listener);
  }
}

/** The browser's store, or none where it is switched off. */
export function browserStore() {
  try {
    return window.localStorage;
  } catch {
    return null;
  }
}

/** Each box that names what is preferred shows it, and changes it; so does a switch that is made where it is shown.
 * @param {Preferences} preferences */
export function listenForPreferences(preferences) {
  /** @type {HTMLInputElement[]} */
  const boxes = Array.from(document.querySelectorAll("[data-prefer]"));
  /** @param {HTMLInputElement} box */
  const named = (box) => /** @type {PreferenceName} */ (box.dataset.prefer);
  const show = () => boxes.forEach((it) => { it.checked = preferences.get(named(it)); });
  boxes.forEach((it) => it.addEventListener("change", () => preferences.set(named(it), it.checked)));
  onClickAt(document, "[data-prefers]", (button) => {
    const name = /** @type {PreferenceName} */ (button.dataset.prefers);
    preferences.set(name, !preferences.get(name));
  });
  preferences.onChange(show);
  show();
}
