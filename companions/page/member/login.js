/** Coming in: as a guest, under a free name, or by the password of an account. */

import { ask, byId, onClick, onSubmit, tellMember } from "../shell/elements.js";
import { isPassword } from "./passwords.js";
import { SmallBoard } from "../board/small_board.js";
import { t } from "../shell/texts.js";

const PASSWORD = "password: ";
const GUEST = "guest";
// Anderssen against Kieseritzky, London 1851, before the last three moves
const IMMORTAL = ["r-b-k-nr", "p--p-ppp", "n--B----", "-p-NPN-P", "------P-", "---P-Q--", "P-P-K---", "q-----b-"];

export class Login {
  /** @param {Session} session */
  constructor(session) {
    this.session = session;
    this.asked = ""; // the name whose password the server waits for
    this.isBusy = false; // a name or a password is on its way
    new SmallBoard(byId("login-board")).show(IMMORTAL);
    onSubmit("login-form", () => this.start(byId("login-name").value.trim()));
    onClick("guest", () => this.start(GUEST));
    session.onEnd(() => { this.asked = ""; });
  }

  /** @param {string} name */
  async start(name) {
    if (!this.isBusy) {
      this.isBusy = true;
      try {
        await this.enter(name);
      } finally {
        this.isBusy = false;
      }
    }
  }

  /** The server waits for the password of one name only; for another one a new link is needed.
   * @param {string} name */
  async enter(name) {
    const password = byId("login-password").value;
    if (!name) {
      byId("login-name").focus();
      return;
    }
    if (password && !isPassword(password)) {
      tellMember(t("password.blanks"), "refusal");
      byId("login-password").focus();
      return;
    }
    if (!this.session.link.isOpen || (this.asked && this.asked !== name)) {
      this.session.connect();
      this.asked = "";
    }
    await this.session.link.opened;
    if (!this.asked) {
      const answer = await this.session.act(name);
      this.asked = answer.prompt === PASSWORD ? name : "";
      if (password && name !== GUEST && answer.all("entered").length) {
        this.askToRegister(password);
      }
    }
    if (this.asked) {
      await this.givePassword();
    }
  }

  async givePassword() {
    const field = byId("login-password");
    if (!field.value) {
      tellMember(t("login.wants-password", { name: this.asked }));
      field.focus();
      return;
    }
    const answer = await this.session.act(field.value);
    field.value = "";
    this.asked = answer.prompt === PASSWORD ? this.asked : "";
  }

  /** A password was given for a name that has no account: perhaps it is to be made one.
   * @param {string} password */
  askToRegister(password) {
    byId("login-password").value = "";
    ask("register-ask", async () => {
      if ((await this.session.act(`register ${password}`)).isDone) {
        tellMember(t("account.done", { who: this.session.me }));
      }
    });
  }
}
