/** The ratings beside names, where the go-between has them told. Whose is shown is asked for, some at a time, and again
 * after a while. */

const ADDRESS = "/games/ratings.json?names=";
const FRESH = 60_000; // milliseconds for which what was told is shown without a further question
const PAUSE = 400; // milliseconds between a name that is wanted and the question, which is for all that are by then
const MOST = 200; // names of one question

/** @typedef {{ ratings: RatingTold[], since: number }} Known */

/** @type {Map<string, Known>} */
const known = new Map();
/** @type {Set<string>} */
const wanted = new Set();
let isThere = false;
let timer = 0;
/** @type {() => void} */
let changed = () => undefined;

/** A rating as it is written; nothing where there is none.
 * @param {RatingTold | undefined} it */
function inFigures(it) {
  return it ? `${it.points}${it.isProvisional ? "?" : ""}` : "";
}

async function ask() {
  const names = [...wanted].slice(0, MOST);
  names.forEach((it) => wanted.delete(it));
  /** @type {Record<string, RatingTold[]>} */
  let told = {};
  try {
    const answer = await fetch(ADDRESS + names.map(encodeURIComponent).join(","));
    if (!answer.ok) {
      return;
    }
    told = await answer.json();
  } catch {
    return; // what is shown stays, and is asked for again
  } finally {
    const since = Date.now();
    names.forEach((it) => known.set(it, { ratings: told[it] ?? known.get(it)?.ratings ?? [], since }));
    timer = wanted.size ? setTimeout(ask, PAUSE) : 0;
  }
  changed();
}

/** @param {string} name */
function want(name) {
  wanted.add(name);
  timer = timer || setTimeout(ask, PAUSE);
}

/** What a player is in a pool, or without one in that of most of its games: as 1612, with a question mark where that
 * says little; nothing where it isn't known.
 * @param {string} name */
export function ratingOf(name, pool = "") {
  if (!isThere || !name) {
    return "";
  }
  const it = known.get(name);
  if (!it || Date.now() - it.since > FRESH) {
    want(name);
  }
  return inFigures(pool ? it?.ratings.find((its) => its.pool === pool) : it?.ratings[0]);
}

/** A name with its rating behind it.
 * @param {string} name */
export function withRating(name, pool = "") {
  return `${name} ${ratingOf(name, pool)}`.trimEnd();
}

/** Has ratings shown where the go-between says that it tells them; `shows` is called once others are known.
 * @param {Session} session @param {() => void} shows */
export function listenForRatings(session, shows) {
  changed = shows;
  session.on("told", ({ it }) => {
    if ("ratings" in it) {
      isThere = it.ratings === true;
    }
  });
}
