/** How the page looks and which language it speaks, by the member's choice; the browser remembers it. */

import { byId, element } from "../shell/elements.js";
import { SmallBoard } from "../board/small_board.js";
import { LANGUAGES, language, preferred, speak, translate } from "../shell/texts.js";

const CHOICES = { theme: ["auto", "light", "dark"], board: ["meadow", "wood"], men: ["turned", "plain"] };
const SAMPLE = ["rnbqkbnr", "RNBQKBNR"];

/** What the browser remembers; nothing where it is told to remember nothing.
 * @param {string} name */
function remembered(name) {
  try {
    return localStorage.getItem(name);
  } catch {
    return null;
  }
}

/** @param {string} name @param {string} value */
function remember(name, value) {
  try {
    localStorage.setItem(name, value);
  } catch {
    // the choice holds until the page is left
  }
}

/** @param {string} name @param {string} value */
function apply(name, value) {
  document.documentElement.dataset[name] = value;
}

/** Takes up what was chosen before, as soon as the page is there. */
export async function takeUpLooks() {
  for (const [name, values] of Object.entries(CHOICES)) {
    const before = remembered(name);
    apply(name, before !== null && values.includes(before) ? before : values[0]);
  }
  await speak(preferred(remembered("language")));
}

/** A field with its label; what is chosen there is remembered, and told to `chosen`.
 * @param {string} name @param {HTMLOptionElement[]} options @param {string | undefined} value
 * @param {(value: string) => void} chosen */
function fieldOf(name, options, value, chosen) {
  const label = element("label");
  const field = element("select");
  field.id = `look-${name}`;
  label.htmlFor = field.id;
  label.dataset.t = `look.${name}`;
  field.append(...options);
  field.value = value ?? "";
  field.addEventListener("change", () => {
    remember(name, field.value);
    chosen(field.value);
  });
  return [label, field];
}

/** @param {string} name @param {string} value */
function optionOf(name, value) {
  const option = new Option("", value);
  option.dataset.t = `look.${name}-${value}`;
  return option;
}

/** Puts the fields in which it is chosen into the settings, where `#looks` stands for them. */
export function showLooks() {
  const title = element("h3");
  title.dataset.t = "look.title";
  const pairs = element("div", "pairs");
  const languages = Object.entries(LANGUAGES).map(([code, name]) => new Option(name, code));
  pairs.append(...fieldOf("language", languages, language(), speak));
  for (const [name, values] of Object.entries(CHOICES)) {
    const options = values.map((it) => optionOf(name, it));
    pairs.append(...fieldOf(name, options, document.documentElement.dataset[name], (value) => apply(name, value)));
  }
  const sample = element("div");
  sample.id = "look-sample";
  sample.setAttribute("aria-hidden", "true");
  byId("looks").replaceWith(title, pairs, sample);
  translate(byId("settings"));
  new SmallBoard(sample, SAMPLE.length).show(SAMPLE);
}
