/** Holds `stamps.js` to the example of docs/CLIENTS.md. */

import { readFileSync } from "node:fs";

/** What is wrong with the spelling of the documented line, in words. */
export function stampFaults(path, sealed) {
  const example = /The text `(.+)` with the stamp (\d+) is `([0-9A-F ]+) 0A`/.exec(readFileSync(path, "utf8"));
  const [, text, stamp, documented] = example;
  const bytes = Array.from(sealed(text, Number(stamp)), (it) => it.charCodeAt(0).toString(16).padStart(2, "0"));
  const spelled = bytes.join(" ").toUpperCase();
  return spelled === documented ? [] : [`${text} with the stamp ${stamp} is ${documented}, and not ${spelled}`];
}
