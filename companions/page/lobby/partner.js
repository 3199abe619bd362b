/** The partner of bughouse. */

import { byId, onSubmit, tellMember } from "../shell/elements.js";
import { onLanguage, t } from "../shell/texts.js";

export class Partner {
  /** @param {Session} session */
  constructor(session) {
    this.session = session;
    this.name = "";
    this.asked = "";
    session.on("partners", (event) => this.set(event.who));
    session.on("parted", () => this.set(""));
    session.onAnswer((answer) => this.take(answer));
    onSubmit("partner-form", () => this.ask());
    onLanguage(() => this.show());
    this.show();
  }

  ask() {
    const name = byId("partner-name").value.trim();
    if (name) {
      this.session.act(`partner ${name}`);
    }
  }

  /** Who asks somebody that has asked already has a partner then; the server answers `Ok.` to it.
   * @param {Answer} answer */
  take(answer) {
    if (answer.command !== "partner" || answer.refusal) {
      return;
    }
    const name = answer.said.trim().split(/ +/)[1] ?? "";
    if (answer.all("asked").length) {
      tellMember(t("partner.asked", { who: name }));
    } else if (answer.all("ok").length) {
      this.set(name);
    }
  }

  /** @param {string} name */
  set(name) {
    this.name = name;
    this.show();
  }

  show() {
    byId("partner-state").textContent = this.name ? t("partner.is", { who: this.name }) : t("partner.none");
    byId("partner-part").disabled = !this.name;
    byId("partner-ask").disabled = Boolean(this.name);
  }
}
