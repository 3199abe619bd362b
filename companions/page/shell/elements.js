/** The page's elements by their ids, and what a member is told for a moment. */

import { drawingAt } from "./drawings.js";

const STAYS = 8_000; // milliseconds

/** The element of that id.
 * @template {string} I
 * @param {I} id
 * @returns {ElementOf<I>} */
export function byId(id) {
  return /** @type {ElementOf<I>} */ (document.getElementById(id)); // of what class each is says types.d.ts
}

/** The element around the place of an event that a selector names.
 * @param {Event} event @param {string} selector
 * @returns {HTMLElement | null} */
export function around(event, selector) {
  return event.target instanceof Element ? event.target.closest(selector) : null;
}

/** Calls `act` with the element that a selector names, once it is clicked below `root`.
 * @param {Document | HTMLElement} root @param {string} selector
 * @param {(it: HTMLElement, event: Event) => void} act */
export function onClickAt(root, selector, act) {
  root.addEventListener("click", (event) => {
    const it = around(event, selector);
    if (it) {
      act(it, event);
    }
  });
}

let hiding = 0;

/** Tells the member something above all else, for some seconds: news, or with that class a refusal.
 * @param {string} words */
export function tellMember(words, className = "") {
  const notice = byId("notice");
  (document.querySelector("dialog:modal") ?? document.body).append(notice); // what is modal hides all beside it
  notice.className = className;
  notice.textContent = words;
  notice.hidden = false;
  clearTimeout(hiding);
  hiding = setTimeout(() => { notice.hidden = true; }, STAYS);
}

/** Takes back what the member was told, where it has that class.
 * @param {string} className */
export function forgetNotice(className) {
  const notice = byId("notice");
  if (notice.className === className) {
    notice.hidden = true;
  }
}

/** One of the drawings of icons.svg.
 * @param {string} name */
export function icon(name) {
  return shape("svg", { class: "icon", "aria-hidden": "true" }, shape("use", { href: drawingAt(name) }));
}

/** An element of a drawing, with its attributes and what it has in it.
 * @template {keyof SVGElementTagNameMap} K
 * @param {K} name @param {Record<string, string | number>} attributes @param {...Element} parts */
export function shape(name, attributes, ...parts) {
  const made = document.createElementNS("http://www.w3.org/2000/svg", name);
  Object.entries(attributes).forEach(([key, value]) => made.setAttribute(key, String(value)));
  made.append(...parts);
  return made;
}

/** An element with a class and what it says; a button sends no form.
 * @template {keyof HTMLElementTagNameMap} K
 * @param {K} name */
export function element(name, className = "", text = "") {
  const made = document.createElement(name);
  made.className = className;
  made.textContent = text;
  if (made instanceof HTMLButtonElement) {
    made.type = "button";
  }
  return made;
}

/** Calls `act` where a form is sent, and nothing else.
 * @param {string} id @param {() => void} act */
export function onSubmit(id, act) {
  byId(id).addEventListener("submit", (event) => {
    event.preventDefault();
    act();
  });
}

/** @param {string} id @param {() => void} act */
export function onClick(id, act) {
  byId(id).addEventListener("click", act);
}

/** Asks once more before `act`: opens the dialog of that id, in which the strong button says yes.
 * @param {DialogId} id @param {() => void} act */
export function ask(id, act) {
  const dialog = byId(id);
  dialog.onclick = (event) => {
    const button = around(event, "button");
    if (button) {
      dialog.close();
      if (button.classList.contains("strong")) {
        act();
      }
    }
  };
  dialog.showModal();
}
