/** Tells what the docs and the evenings have, for tests in other languages.
 *
 * usage: node tell.mjs PROGRAM PAGE [EVENING ...]; all evenings where none is named
 * Writes JSON: `forms`, the texts that the page has, with patterns; `beyond`, those that no script brings; and `lines`,
 * what the program says in the evenings, each with the command that it answers. */

import { BEYOND_SCRIPTS, documentedForms } from "./documented.mjs";
import { EVENINGS } from "./evenings.mjs";
import { told } from "./transcript.mjs";

const [, , program, page, ...names] = process.argv;
const forms = documentedForms(page).map(({ unit, text, pattern, commands, hasText }) =>
  ({ unit, text, pattern: pattern.source, commands, hasText }));
const lines = (names.length ? names : Object.keys(EVENINGS)).flatMap((it) => told(program, EVENINGS[it]()));
process.stdout.write(JSON.stringify({ forms, beyond: [...BEYOND_SCRIPTS.keys()], lines }));
