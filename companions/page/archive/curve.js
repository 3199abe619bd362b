/** A curve of ratings: a line by days, and around it how sure it is. */

import { shape } from "../shell/elements.js";
import { t } from "../shell/texts.js";
import { dayInWords } from "./rows.js";

const WIDTH = 640;
const HEIGHT = 160;
const LEFT = 44; // where the figures stand
const EDGE = 12; // above and below the highest and the lowest place
const A_DAY = 86_400_000; // milliseconds
const LEAST = 50; // points that the height stands for, so that a small change looks like one

/** @typedef {{ x: number, y: number, above: number, below: number }} Spot */

/** Where the points of a curve stand, and which ratings its heights stand for.
 * @param {CurvePoint[]} curve
 * @returns {{ spots: Spot[], high: number, low: number }} */
export function spotsOf(curve) {
  const days = curve.map(([day]) => Date.parse(`${day}T00:00:00Z`) / A_DAY);
  const span = Math.max(1, days[days.length - 1] - days[0]);
  const middle = curve.map(([, points]) => points);
  const extra = Math.max(0, LEAST - (Math.max(...middle) - Math.min(...middle))) / 2;
  const high = Math.max(...middle) + extra;
  const low = Math.min(...middle) - extra;
  const yOf = (/** @type {number} */ it) => {
    const y = EDGE + (HEIGHT - 2 * EDGE) * (high - it) / (high - low);
    return Math.min(HEIGHT, Math.max(0, y));
  };
  const spots = curve.map(([, points, deviation], n) => ({
    x: LEFT + (WIDTH - LEFT - EDGE) * (days[n] - days[0]) / span,
    y: yOf(points), above: yOf(points + deviation), below: yOf(points - deviation),
  }));
  return { spots, high: Math.round(high), low: Math.round(low) };
}

/** @param {number} x @param {number} y */
function pair(x, y) {
  return `${x.toFixed(1)},${y.toFixed(1)}`;
}

/** @param {number} y @param {number} points */
function figure(y, points) {
  const made = shape("text", { x: LEFT - 6, y: y + 4, "text-anchor": "end" });
  made.textContent = String(points);
  return made;
}

/** A curve as a drawing, which says in words from where to where it goes.
 * @param {string} pool @param {CurvePoint[]} curve */
export function curveOf(pool, curve) {
  const { spots, high, low } = spotsOf(curve);
  const [first, last] = [curve[0], curve[curve.length - 1]];
  const band = [...spots.map((it) => pair(it.x, it.above)), ...[...spots].reverse().map((it) => pair(it.x, it.below))];
  const drawing = shape("svg", { class: "curve", viewBox: `0 0 ${WIDTH} ${HEIGHT}`, role: "img" },
    shape("polygon", { points: band.join(" ") }),
    shape("polyline", { points: spots.map((it) => pair(it.x, it.y)).join(" ") }),
    ...spots.map((it) => shape("circle", { cx: it.x.toFixed(1), cy: it.y.toFixed(1), r: 2.5 })),
    figure(EDGE, high), figure(HEIGHT - EDGE, low));
  drawing.setAttribute("aria-label", t("ratings.curve", { pool: t(`pool.${pool}`), from: first[1], to: last[1],
    since: dayInWords(first[0]), until: dayInWords(last[0]) }));
  return drawing;
}
