/** What partners say to each other beside the partner's board. */

import { byId, onSubmit } from "../shell/elements.js";
import { t } from "../shell/texts.js";

const SHOWN = 3; // lines

export class PartnerTalk {
  /** @param {Session} session */
  constructor(session) {
    this.session = session;
    /** @type {string[]} */
    this.said = [];
    session.on("partner-tell", (event) => this.add(`${event.who}: ${event.said}`));
    session.on(["partners", "parted"], () => this.forget());
    session.onAnswer((answer) => this.take(answer));
    onSubmit("partner-say-form", () => this.say());
  }

  async say() {
    const field = byId("partner-say");
    const words = field.value.trim();
    if (words && (await this.session.act(`ptell ${words}`)).isDone) {
      field.value = "";
    }
  }

  /** Takes what was said to the partner, wherever it was typed.
   * @param {Answer} answer */
  take(answer) {
    if (answer.command === "ptell" && answer.isDone) {
      this.add(t("talk.you", { said: answer.said.trim().replace(/^\S+ */, "") }));
    }
  }

  /** @param {string} text */
  add(text) {
    this.said = [...this.said, text].slice(-SHOWN);
    byId("partner-said").textContent = this.said.join("\n");
  }

  forget() {
    this.said = [];
    byId("partner-said").textContent = "";
  }
}
