/** Lists of games: the newest ones, those that were looked for, of a day, of a player. */

import { byId, element, onSubmit } from "../shell/elements.js";
import { onLanguage, t } from "../shell/texts.js";
import { olderAddress, TOP } from "./addresses.js";
import { showLadder, showLadders, showRatings } from "./rating_view.js";
import { dayInWords, dayRow, gameRow, link, playerRow, tallyRow, variantInWords } from "./rows.js";

const VARIANTS = ["chess", "crazyhouse", "bughouse", "fischer"];
const FIELDS = /** @type {const} */ (["name", "other", "variant", "result"]);

/** The field of what is looked for.
 * @param {FIELDS[number]} name */
function field(name) {
  return byId(/** @type {`search-${FIELDS[number]}`} */ (`search-${name}`));
}

/** A row of what came of each variant, and where there are several one of all together.
 * @param {{ name: string, tally: Record<string, number[]> }} told */
function tallyRows({ name, tally }) {
  const kinds = VARIANTS.filter((it) => it in tally);
  const sum = [0, 1, 2, 3].map((n) => kinds.reduce((all, it) => all + tally[it][n], 0));
  const rows = kinds.map((it) => tallyRow(name, it, tally[it]));
  return kinds.length > 1 ? [...rows, tallyRow(name, "", sum)] : rows;
}

/** @param {string} name @param {string} day */
function dayLink(name, day) {
  return link(TOP + day, t(name, { day: dayInWords(day) }));
}

export class ListView {
  /** `place` says what is shown, `told` is what the archive told of it.
   * @param {Address} place @param {ArchivedList} told */
  constructor(place, told) {
    this.place = place;
    this.told = told;
    this.asked = new URLSearchParams(location.search);
    byId("games-view").hidden = false;
    if (place.kind === "games") {
      this.fillSearch();
    }
    onLanguage(() => this.show());
    this.show();
  }

  get isSearch() {
    return FIELDS.some((it) => this.asked.get(it));
  }

  fillSearch() {
    byId("search").hidden = false;
    FIELDS.forEach((it) => { field(it).value = this.asked.get(it) ?? ""; });
    byId("search").addEventListener("submit", () => {
      FIELDS.map(field).forEach((it) => { it.disabled = !it.value.trim(); });
    });
    window.addEventListener("pageshow", () => FIELDS.forEach((it) => { field(it).disabled = false; }));
    const { firstDay, lastDay } = this.told;
    Object.assign(byId("day"), { min: firstDay ?? "", max: lastDay ?? "", value: lastDay ?? "" });
    onSubmit("day-form", () => location.assign(TOP + byId("day").value));
  }

  show() {
    const { kind } = this.place;
    const { games, hasMore } = this.told;
    byId("games-title").textContent = this.title();
    document.title = this.title();
    if (kind === "ladder") {
      showLadder(this.told);
      byId("list").hidden = true;
      return;
    }
    byId("list-title").textContent = this.listTitle();
    byId("games-list").replaceChildren(...games.map((it) => gameRow(it, kind !== "day")));
    if (!games.length) {
      byId("games-list").append(element("li", "", t("archive.none")));
    }
    byId("older").hidden = !hasMore;
    byId("older").href = hasMore ? olderAddress(location.pathname, location.search, games[games.length - 1].link) : "";
    if (kind === "games") {
      this.showFound();
    } else if (kind === "day") {
      this.showDay();
    } else {
      this.showPlayer();
    }
  }

  title() {
    const { kind, day = "" } = this.place;
    const { name, count } = this.told;
    return kind === "ladder" ? t("ratings.ladder", { pool: t(`pool.${this.place.name}`) })
      : kind === "day" ? t("archive.of-day", { day: dayInWords(day) })
      : kind === "player" ? t("archive.of-player", { name, n: count }) : t("archive.title");
  }

  listTitle() {
    const variant = this.asked.get("variant") ?? "";
    const isVariant = VARIANTS.includes(variant) && this.place.kind === "player";
    return isVariant ? variantInWords(variant) : this.isSearch && this.place.kind === "games" ? t("archive.found")
      : this.place.kind === "games" ? t("archive.newest", { n: this.told.count }) : t("archive.games");
  }

  showFound() {
    const { players, days } = this.told;
    byId("players-found").hidden = !players.length;
    byId("players-list").replaceChildren(...players.map(playerRow));
    byId("days").hidden = this.isSearch || !days.length;
    byId("days-list").replaceChildren(...days.map(dayRow));
    showLadders(this.isSearch ? [] : this.told.ladders ?? []);
  }

  showDay() {
    const { earlier, later } = this.told;
    byId("beside-day").hidden = !earlier && !later;
    byId("beside-day").replaceChildren(...earlier ? [dayLink("archive.day-before", earlier)] : [],
      ...later ? [dayLink("archive.day-behind", later)] : []);
  }

  showPlayer() {
    byId("tally").hidden = false;
    byId("tally-rows").replaceChildren(...tallyRows(this.told));
    showRatings(this.told.ratings ?? []);
  }
}
