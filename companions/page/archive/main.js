/** The page of the archive: what its address names is asked for, and shown as a list or as a game. Nothing here has a
 * link of the server. */

import { listenForBoxes, openBy } from "../shell/boxes.js";
import { showLooks, takeUpLooks } from "../member/looks.js";
import { byId } from "../shell/elements.js";
import { onLanguage, t } from "../shell/texts.js";
import { dataOf, placeOf } from "./addresses.js";
import { GameView } from "./game_view.js";
import { ListView } from "./list_view.js";

const NOT_FOUND = 404;

/** What the archive tells of an address; null where there is nothing, and undefined where it doesn't answer.
 * @param {Address} place */
async function toldOf(place) {
  if (!place.kind) {
    return null;
  }
  try {
    const answer = await fetch(dataOf(location.pathname, location.search));
    return answer.ok ? await answer.json() : answer.status === NOT_FOUND ? null : undefined;
  } catch {
    return undefined;
  }
}

/** Shows that there is nothing, or nothing for the moment.
 * @param {string} key */
function showNothing(key) {
  const name = () => {
    document.title = t(key);
    byId("nothing-title").textContent = t(key);
  };
  byId("nothing").hidden = false;
  onLanguage(name);
  name();
}

async function start() {
  const place = placeOf(location.pathname);
  const told = await toldOf(place);
  if (!told) {
    showNothing(told === null ? "archive.nothing" : "archive.no-answer");
  } else if (place.kind === "game") {
    new GameView(place.link ?? "", told);
  } else {
    new ListView(place, told);
  }
}

await takeUpLooks();
showLooks();
listenForBoxes("settings");
openBy("settings-open", "settings");
await start();
