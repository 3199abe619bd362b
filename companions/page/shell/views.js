/** The views of the page: the lobby, the board, the talk, and the login before them. Where the window is wide the talk
 * stands beside the other two; the style sheets say from which width on. */

import { byId, onClickAt } from "./elements.js";

/** @type {((name: string) => void)[]} */
const changed = [];

/** The view that was chosen: login, lobby, board or talk. */
export function shownView() {
  return document.body.dataset.view;
}

/** Whether the lobby is to be seen: where the talk has no view of its own, the lobby is beside it. */
export function isLobbySeen() {
  return byId("lobby").checkVisibility();
}

export function isTalkSeen() {
  return byId("talk").checkVisibility();
}

/** Shows a view.
 * @param {string} name */
export function showView(name) {
  if (name !== shownView()) {
    document.body.dataset.view = name;
    window.scrollTo(0, 0);
  }
  for (const button of /** @type {NodeListOf<HTMLElement>} */ (document.querySelectorAll("#ways [data-view]"))) {
    button.setAttribute("aria-current", String(button.dataset.view === name));
  }
  changed.forEach((it) => it(name));
}

/** Calls `listener` whenever a view was chosen.
 * @param {(name: string) => void} listener */
export function onView(listener) {
  changed.push(listener);
}

/** The buttons that name a view show it. */
export function listenForViews() {
  onClickAt(document, "button[data-view]", (button) => showView(button.dataset.view ?? ""));
}

/** What is told of a game leads to the board where the member's own game begins, or one that it looks on at; without
 * any game that is shown there is the lobby. */
export class Following {
  /** @param {Games} games */
  constructor(games) {
    this.games = games;
    /** @type {Game | null} */
    this.begun = null; // the game whose first board is awaited
  }

  /** @param {Game | null} game @param {Happened} event */
  told(game, event) {
    const { shown } = this.games;
    if (event.kind === "creating" || event.kind === "continuing") {
      this.begun = game;
    } else if (event.kind === "chosen" && shown) {
      showView("board");
    } else if (event.kind === "removed" && !shown && shownView() === "board") {
      showView("lobby");
    } else if (event.kind === "board" && game === shown && (game === this.begun || game?.places.size === 1)) {
      this.begun = null;
      showView("board");
    }
  }
}
