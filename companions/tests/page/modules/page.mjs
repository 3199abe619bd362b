/** The page's modules for node, which takes a `.js` file for a module only where a package says so: so it gets copies
 * in a folder that has one. */

import { cpSync, mkdtempSync, rmSync, writeFileSync } from "node:fs";
import { tmpdir } from "node:os";
import { dirname, join } from "node:path";
import { fileURLToPath } from "node:url";

const PAGE = join(dirname(fileURLToPath(import.meta.url)), "../../../page");
const folder = mkdtempSync(join(tmpdir(), "page_modules."));

cpSync(PAGE, folder, { recursive: true });
writeFileSync(join(folder, "package.json"), '{"type": "module"}');
process.on("exit", () => rmSync(folder, { recursive: true }));

/** What a module of the page exports. */
export function page(name) {
  return import(join(folder, name));
}
