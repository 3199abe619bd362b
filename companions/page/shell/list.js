/** Lists that keep themselves: rows are kept by their keys, so that a row that stays keeps its place and its focus. */

import { element, icon } from "./elements.js";

const states = new WeakMap(); // of each row what it says

/** What a button may name: a command, the game it is `at`, a field to `fill`, a `room` of the talk, one that it
 * `leaves`, a game to `show`, what it `dismiss`es, a player to `challenge`, or what it has the member `prefer`, or not. */
const NAMED = /** @type {const} */ (
  ["command", "at", "fill", "dismiss", "room", "leaves", "show", "challenge", "prefers"]
);

/** A button that says `label`, or shows a drawing, with the label below it where there is one, or has parts as a row
 * has.
 * @param {RowButton} it */
export function buttonOf(
  { label = "", name = label, drawing, parts, className = "", isOff = false, isPressed, ...rest },
) {
  const button = element("button", className);
  button.disabled = isOff;
  if (drawing) {
    button.classList.add("bare");
    button.classList.toggle("named", label !== "");
    button.append(icon(drawing), ...label ? [element("span", "word", label)] : []);
    button.title = name;
  } else {
    button.append(...parts ? partsOf(parts) : [label]);
  }
  button.setAttribute("aria-label", name);
  if (isPressed !== undefined) {
    button.setAttribute("aria-pressed", String(isPressed));
  }
  for (const key of NAMED.filter((it) => rest[it] !== undefined)) {
    button.dataset[key] = String(rest[key]);
  }
  return button;
}

/** @param {Record<string, string>} parts */
function partsOf(parts) {
  return Object.entries(parts).filter(([, text]) => text).map(([name, text]) => element("span", name, text));
}

/** @param {Row} row */
function contentOf({ text, parts, buttons = [] }) {
  return [...text === undefined ? [] : [element("span", "what", text)], ...partsOf(parts ?? {}),
    ...buttons.map(buttonOf)];
}

/** Fills a row anew where it says something else; the button that had the focus has it again.
 * @param {Element} row @param {Row} it */
function fill(row, it) {
  const state = JSON.stringify(it);
  if (states.get(row) === state) {
    return;
  }
  const at = [...row.children].findIndex((it) => it === document.activeElement);
  states.set(row, state);
  row.className = it.className ?? "";
  row.replaceChildren(...contentOf(it));
  if (at >= 0) {
    /** @type {HTMLElement | undefined} */ (row.children[at])?.focus();
  }
}

/** @param {string} key */
function rowOf(key) {
  const row = element("li");
  row.dataset.key = key;
  return row;
}

/** Shows rows, { key, text, parts, buttons, className }, in their order; rows of one key are the same, whatever they
 * say. `none` stands where there are none.
 * @param {HTMLElement} list @param {Row[]} rows */
export function showRows(list, rows, none = "") {
  const wanted = rows.length || !none ? rows : [{ key: "none", text: none, className: "none" }];
  const known = new Map(/** @type {HTMLElement[]} */ ([...list.children]).map((row) => [row.dataset.key, row]));
  const shown = wanted.map(({ key }) => known.get(key) ?? rowOf(key));
  [...list.children].filter((row) => !shown.some((it) => it === row)).forEach((row) => row.remove());
  shown.forEach((row, n) => {
    fill(row, wanted[n]);
    if (list.children[n] !== row) {
      list.insertBefore(row, list.children[n] ?? null);
    }
  });
}
