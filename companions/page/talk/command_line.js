/** A box with a line to type any command in; what comes of it is shown as it came. */

import { openBy, toggle } from "../shell/boxes.js";
import { commandOf } from "../link/commands.js";
import { askingFirst } from "../game/costly.js";
import { byId, onClick, onSubmit, tellMember } from "../shell/elements.js";
import { isPassword, passwordOf } from "../member/passwords.js";
import { t } from "../shell/texts.js";

const KEPT = 2000; // lines
/** @type {Record<string, number>} */
const STEPS = { ArrowUp: -1, ArrowDown: 1 };

export class CommandLine {
  /** `isPlaying` says whether a line may cost the member a game.
   * @param {Session} session @param {() => boolean} isPlaying */
  constructor(session, isPlaying) {
    this.session = session;
    /** @type {string[]} */
    this.typed = [];
    this.at = 0; // the place in what was typed
    onSubmit("command-form", () => askingFirst(byId("command").value, isPlaying(), () => this.send()));
    openBy("commands-open", "commands", { isModal: false, opened: () => byId("command").focus() });
    onClick("commands-close", () => byId("commands").close());
    document.addEventListener("keydown", (event) => this.press(event));
    byId("command").addEventListener("keydown", (event) => this.recall(event));
  }

  /** Ctrl and K open the box, and close it; Escape closes it too.
   * @param {KeyboardEvent} event */
  press(event) {
    const box = byId("commands");
    if (event.key === "Escape" && box.open && box.contains(document.activeElement)) {
      box.close();
      byId("commands-open").focus();
    } else if (event.key === "k" && event.ctrlKey && this.session.isIn && !document.querySelector("dialog:modal")) {
      event.preventDefault();
      toggle("commands", false, () => byId("command").focus());
    }
  }

  async send() {
    const field = byId("command");
    const line = field.value;
    const isSecret = commandOf(line) === "register";
    if (isSecret && passwordOf(line) && !isPassword(passwordOf(line))) {
      tellMember(t("password.blanks"), "refusal");
      return;
    }
    field.value = "";
    if (!isSecret) {
      this.typed.push(line);
    }
    this.at = this.typed.length;
    const answer = await this.session.act(line);
    this.show([isSecret ? "> register ..." : `> ${line}`, ...answer.lines]);
    if (answer.command === "style" && answer.isDone && /\b1$/.test(line.trim())) {
      tellMember(t("commands.style-1"));
    }
  }

  /** @param {string[]} lines */
  show(lines) {
    const output = byId("output");
    const all = (output.textContent ?? "").split("\n").filter((it) => it !== "").concat(lines);
    output.textContent = `${all.slice(-KEPT).join("\n")}\n`;
    output.scrollTop = output.scrollHeight;
  }

  /** The arrows bring back what was typed.
   * @param {KeyboardEvent} event */
  recall(event) {
    const step = STEPS[event.key];
    if (step) {
      event.preventDefault();
      this.at = Math.min(Math.max(this.at + step, 0), this.typed.length);
      byId("command").value = this.typed[this.at] ?? "";
    }
  }

  forget() {
    byId("output").textContent = "";
    byId("commands").close();
  }
}
