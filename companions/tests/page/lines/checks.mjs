/** Holds `lines.js` to the docs, over what the server says in the evenings. */

import { BEYOND_SCRIPTS } from "./documented.mjs";

/** The form of a line: the one that has just these letters, or one of the command that it answers, or one of any. */
function formOf(forms, { command, text }) {
  const fitting = forms.filter((it) => it.pattern.test(text));
  return fitting.find((it) => it.text === text) ?? fitting.find((it) => it.commands.includes(command))
    ?? fitting.find((it) => !it.commands.length);
}

/** What an event says, as texts. */
function saidBy(event) {
  const { board, ...fields } = event;
  return [...Object.values(fields), ...(board ? Object.values(board) : [])].map(String);
}

export class Checks {
  constructor(forms, eventOf) {
    this.forms = forms;
    this.eventOf = eventOf;
    this.faults = [];
    this.kinds = new Map(); // of each unit the kinds of its lines
    this.count = 0;
  }

  /** A line is documented, is an event that says what the line says, and isn't one with anything more in it. */
  line(told) {
    this.count += 1;
    const form = formOf(this.forms, told);
    const event = this.eventOf(told.text, told.command);
    if (!form) {
      this.faults.push(`not in the docs: ${told.text} (behind "${told.command}")`);
    } else if (event.kind === "unknown") {
      this.faults.push(`unknown: ${told.text} (behind "${told.command}")`);
    } else {
      form.isSeen = true;
      this.kinds.set(form.unit, (this.kinds.get(form.unit) ?? new Set()).add(event.kind));
      this.fields(form, event, told.text);
      this.strictness(form, told);
    }
  }

  /** The places of a documented form are in the event; minutes, increment and variant are in its terms. */
  fields(form, event, text) {
    const said = saidBy(event);
    const terms = event.terms ? String(event.terms) : "";
    for (const value of form.pattern.exec(text).slice(1)) {
      if (!said.includes(value) && !terms.split(" ").includes(value) && !terms.includes(value)) {
        this.faults.push(`the event doesn't say ${value}: ${text}`);
      }
    }
  }

  strictness(form, { command, text }) {
    const longer = [`x ${text}`, ` ${text}`];
    const others = form.hasText ? longer : [...longer, `${text} x`, `${text}.`, text.slice(0, -1)];
    for (const other of others) {
      const kind = this.eventOf(other, command).kind;
      if (kind !== "unknown" && !formOf(this.forms, { command, text: other })) {
        this.faults.push(`isn't a text of the server, and is ${kind}: ${other}`);
      }
    }
  }

  /** Each documented text was seen, but for those that no script brings, which are read as they are written. */
  coverage() {
    for (const form of this.forms) {
      if (BEYOND_SCRIPTS.has(form.text)) {
        if (form.isSeen) {
          this.faults.push(`a script brings it: ${form.text}`);
        }
        this.line({ command: "", text: form.text });
      } else if (!form.isSeen) {
        this.faults.push(`no line of the evenings is: ${form.text}`);
      }
    }
  }

  /** Texts that the docs tell apart are told apart. */
  kindsApart() {
    const units = [...this.kinds];
    units.forEach(([unit, kinds], n) => {
      for (const [other, otherKinds] of units.slice(0, n)) {
        const both = [...kinds].filter((it) => otherKinds.has(it));
        if (both.length) {
          this.faults.push(`${unit} and ${other} are both ${both.join(", ")}`);
        }
      }
    });
  }
}
