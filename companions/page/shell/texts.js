/** The page's texts, by their keys, from one table for each language: `texts/en.js` and its kin. A further language is
 * a file there, and a row of each of the two tables here. A text may have places, as `{who}`. */

import { TEXTS as ENGLISH } from "../texts/en.js";

/** Of each language's code how it calls itself. */
export const LANGUAGES = { en: "English", de: "Deutsch" };

/** Of those besides English where the texts are.
 * @type {Record<string, () => Promise<{ TEXTS: Record<string, string> }>>} */
const OTHERS = { de: () => import("../texts/de.js") };

const DEFAULT = "en";
const PARTS = { t: "textContent", tLabel: "ariaLabel", tPlaceholder: "placeholder", tTitle: "title" };

/** @type {Record<string, string>} */
const DEFAULT_TEXTS = ENGLISH;
let texts = DEFAULT_TEXTS;
let code = DEFAULT;
/** @type {(() => void)[]} */
const changed = [];

/** The text of a key, with what stands in its places. A key without a text is shown as it is, so that it is found.
 * @param {string} key @param {Record<string, unknown>} [places] */
export function t(key, places = {}) {
  const text = texts[key] ?? DEFAULT_TEXTS[key] ?? key;
  return text.replace(/\{(\w+)\}/g, (place, name) => String(places[name] ?? place));
}

/** Whether there is a text of that key.
 * @param {string} key */
export function hasText(key) {
  return key in ENGLISH;
}

export function language() {
  return code;
}

/** Calls `listener` whenever another language was chosen, behind the texts of index.html.
 * @param {() => void} listener */
export function onLanguage(listener) {
  changed.push(listener);
}

/** The language that was asked for, or the first of the browser's that there is.
 * @param {string | null} asked @param {readonly string[]} [known] */
export function preferred(asked, known = navigator.languages) {
  const codes = [asked, ...known.map((it) => it.slice(0, 2))];
  return codes.find((it) => it !== null && it in LANGUAGES) ?? DEFAULT;
}

/** Puts their texts into all elements below `root` that name a key: `data-t` for what they say, `data-t-label` for
 * what a screen reader says, `data-t-placeholder` and `data-t-title`.
 * @param {ParentNode} [root] */
export function translate(root = document) {
  for (const [name, property] of Object.entries(PARTS)) {
    const attribute = `data-${name.replace(/[A-Z]/g, (it) => `-${it.toLowerCase()}`)}`;
    for (const it of /** @type {NodeListOf<HTMLElement>} */ (root.querySelectorAll(`[${attribute}]`))) {
      Object.assign(it, { [property]: t(it.dataset[name] ?? "") });
    }
  }
}

/** Speaks that language from now on.
 * @param {string} asked */
export async function speak(asked) {
  if (asked !== code) {
    texts = asked in OTHERS ? (await OTHERS[asked]()).TEXTS : DEFAULT_TEXTS;
    code = asked;
  }
  document.documentElement.lang = code;
  translate();
  changed.forEach((it) => it());
}
