/** What `replay` writes for an evening, each line with the command that it stands in the answer to. */

import { spawnSync } from "node:child_process";

const PROMPTS = ["login: ", "password: ", "fics% "];
const ASKS_BACK = "[G]"; // its zero byte isn't in a transcript
const LARGEST = 1 << 30;

/** The parts of each session, which end with a prompt or with the farewell. */
function partsOf(transcript) {
  const parts = new Map();
  for (const shown of transcript.split("\n").slice(0, -1)) {
    const [, session, text] = /^(\d+)\|(.*)$/.exec(shown);
    const own = parts.get(session) ?? [[]];
    parts.set(session, own);
    const line = text.startsWith(ASKS_BACK) ? text.slice(ASKS_BACK.length) : text;
    own.at(-1).push(line);
    if (PROMPTS.includes(line)) {
      own.push([]);
    }
  }
  return parts;
}

/** The lines of an evening: { command, text }. Prompts and the empty line before news are left out. */
export function told(program, evening) {
  const run = spawnSync(program, ["replay"], { input: evening.script, maxBuffer: LARGEST, encoding: "latin1" });
  if (run.status !== 0) {
    throw new Error(`status ${run.status}: ${run.stdout.slice(-300)} ${run.stderr}`);
  }
  const parts = partsOf(run.stdout);
  const lines = [];
  for (const { session, mark, text } of evening.events) {
    const own = parts.get(String(session)) ?? [[]];
    const isNews = own[0]?.[0] === "";
    const isUnanswered = mark === "!" || mark === "-" || (mark === "*" && text.includes("TIMESTAMP|"));
    if (isUnanswered || (mark === "?" && !isNews)) {
      continue;
    }
    const command = mark === ">" ? text.trim().split(" ")[0] : "";
    const answer = (own.shift() ?? []).filter((it) => it && !PROMPTS.includes(it));
    lines.push(...answer.map((it) => ({ command, text: it })));
  }
  return lines;
}
