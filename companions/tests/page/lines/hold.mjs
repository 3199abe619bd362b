/** Holds `link/lines.js` of the page to docs/CLIENTS.md, over what the server says in evenings that bring each of its
 * texts: each line is one that the docs have and is an event, each text of the docs is seen, and texts that the docs
 * tell apart are events of different kinds. Holds `link/stamps.js` to the docs' example too.
 *
 * usage: node hold.mjs PROGRAM CLIENTS.md
 * Prints what it found; ends with 0 where all of that holds. */

import { page } from "../modules/page.mjs";
import { Checks } from "./checks.mjs";
import { documentedForms } from "./documented.mjs";
import { EVENINGS } from "./evenings.mjs";
import { stampFaults } from "./stamped.mjs";
import { told } from "./transcript.mjs";

const MOST_FAULTS = 20;

const [, , program, docs] = process.argv;
const { eventOf } = await page("link/lines.js");
const { sealed } = await page("link/stamps.js");
const checks = new Checks(documentedForms(docs), eventOf);
for (const evening of Object.values(EVENINGS)) {
  told(program, evening()).forEach((it) => checks.line(it));
}
checks.coverage();
checks.kindsApart();
checks.faults.push(...stampFaults(docs, sealed));
checks.faults.slice(0, MOST_FAULTS).forEach((it) => console.log(it));
const { count, forms, kinds, faults } = checks;
console.log(`${count} lines, ${forms.length} texts of the docs in ${kinds.size} kinds, ${faults.length} faults`);
process.exitCode = faults.length ? 1 : 0;
