/** A way back in, behind a reload, a lost link and a server that begins anew. The go-between holds a seat for half a
 * minute; behind that, and where the server has ended, who has an account enters again, and asks to go on with the game
 * that was adjourned. A bar says what goes on. */

import { GONE } from "./link.js";
import { inWords } from "./refusals.js";
import { byId, forgetNotice, tellMember } from "../shell/elements.js";
import { Remembered } from "./remembered.js";
import { hasText, t } from "../shell/texts.js";
import { showView } from "../shell/views.js";

const KEY = "seat";
const PASSWORD = "password: ";
const ADJOURNED = "adjourned"; // the class of what is said of adjourned games, until one goes on
const STAYS = 5_000; // milliseconds
const LOOKS = [0, 500, 2_000]; // milliseconds before each look at the shelf, to which a game comes a little later
const NOT_HERE = 32; // the refusal where nobody of that name is in
const ANEW = 1001; // the code of a close by a server that ends, perhaps to begin anew
const GUEST = /^Guest[A-Z]{4}$/; // a name that the server gives
const LOST = [GONE, 1001, 1005, 1006, 4004]; // codes of a close that nobody wished for

/** What a member is told where a link has ended by that code of a close.
 * @param {number} code @param {boolean} wasIn @param {boolean} wasPlaying */
export function endInWords(code, wasIn, wasPlaying) {
  return hasText(`close.${code}`) ? t(`close.${code}`)
    : t(wasPlaying ? "link.ended-in-game" : wasIn ? "link.ended" : "close.before-login");
}

/** What an earlier page of this tab has kept, or null.
 * @param {Storage | null} store */
export function keptPage(store) {
  try {
    return JSON.parse(store?.getItem(KEY) ?? "null");
  } catch {
    return null;
  }
}

/** The browser's store for this tab, or none where it is switched off. */
export function tabStore() {
  try {
    return window.sessionStorage;
  } catch {
    return null;
  }
}

export class WayBack {
  /** @param {Session} session @param {Games} games @param {Storage | null} store @param {KeptPage | null} kept */
  constructor(session, games, store, kept) {
    this.session = session;
    this.games = games;
    this.store = store;
    /** @type {{ me: string, games: KeptGame[] } | null} */
    this.kept = kept;
    this.remembered = new Remembered(kept?.remembered);
    this.password = ""; // of the member's account; it is kept nowhere else
    this.prompt = "";
    /** @type {string[]} */
    this.opponents = []; // of the games that are to go on
    /** @type {Set<string>} */
    this.awaited = new Set(); // with whom adjourned games go on as soon as they ask for it
    this.asked = ""; // with whom it has just asked to go on, as long as that isn't answered
    /** @type {Promise<unknown>} */
    this.agreed = Promise.resolve(); // kept once all who have asked it to go on are answered
    /** @type {Set<string>} */
    this.goneOn = new Set(); // whose games have gone on since adjourned ones were looked for
    this.hiding = 0;
    session.on("partners", (event) => this.remembered.partner(event.who));
    session.on("parted", () => this.remembered.partner(""));
    session.on("link-lost", ({ code }) => this.show(code === ANEW ? "way.anew" : "way.lost"));
    session.on("link-back", (event) => this.back(event));
    session.on("link-gone", () => this.gone());
    session.on("resume-asked", ({ who }) => this.agree(who));
    session.on(["creating", "continuing"], (event) => this.begun(event));
    session.onAnswer((answer) => this.take(answer));
    window.addEventListener("pagehide", () => this.keep());
    document.addEventListener("visibilitychange", () => (document.hidden ? this.keep() : this.forget()));
    this.forget();
  }

  /** Keeps what a page that begins anew has to know, as this one is left or goes out of sight. */
  keep() {
    const { session } = this;
    if (session.isIn) {
      this.store?.setItem(KEY, JSON.stringify({
        link: session.keep, me: session.me, remembered: this.remembered.rows, games: this.games.keep,
      }));
    } else {
      this.forget();
    }
  }

  /** A tab that is made of this one while it is seen has a seat of its own. */
  forget() {
    this.store?.removeItem(KEY);
  }

  /** @param {Answer} answer */
  take(answer) {
    this.remembered.take(answer);
    if (answer.all("entered").length) {
      this.password = this.prompt === PASSWORD ? answer.said : "";
    } else if (answer.command === "register" && answer.isDone) {
      this.password = answer.said.trim().replace(/^\S+ +/, "");
    }
    this.prompt = answer.prompt;
  }

  /** Somebody has come in by the login: what an earlier session set holds no more, but a game may wait.
   * @param {Happened<'entered'>} event */
  entered({ who, isBack }) {
    if (!isBack) {
      this.awaited.clear();
      this.remembered.clear();
      this.hide();
      const waits = this.opponents;
      this.opponents = [];
      if (this.kept?.me.toLowerCase() === who.toLowerCase()) {
        this.resume(waits);
      }
    }
  }

  /** The link is the one of before. A page that began anew learns again what it showed.
   * @param {Happened<'link-back'>} event */
  async back({ isSame, isNewPage }) {
    if (isNewPage && this.kept) {
      this.games.restore(this.kept.games);
      for (const { line, told } of this.remembered.rows) {
        this.session.take({ line, lines: told, prompt: this.session.link.prompt });
      }
    }
    this.kept = null;
    if (!isSame) {
      await this.games.learnAgain();
    }
    if (isNewPage && this.games.shown) {
      showView("board");
    }
    this.show("way.back", true);
  }

  /** The seat of an earlier page is gone: its member may enter again, and the game goes on where it was adjourned. */
  gone() {
    const { me, games } = /** @type {KeptPage} */ (this.kept);
    this.opponents = games.filter((it) => it.role === "mine" && !it.end)
      .map((it) => (it.white === me ? it.black : it.white));
    byId("login-name").value = GUEST.test(me) ? "" : me;
    this.show(this.opponents.length ? "way.gone-in-game" : "way.gone", true);
  }

  /** Whether the page may enter again by itself, behind the end of a link under that name.
   * @param {LinkEnd} end */
  mayEnter({ code, me }) {
    this.forget();
    this.hide();
    return LOST.includes(code) && me !== "" && this.password !== "";
  }

  /** Asks the member to enter again, behind the end of a link under that name that nobody wished for, with games
   * against those opponents.
   * @param {LinkEnd} end @param {string[]} opponents */
  askToEnter({ code, me }, opponents) {
    if (LOST.includes(code) && me && !GUEST.test(me)) {
      this.kept = { me, games: [] };
      this.opponents = opponents;
      byId("login-name").value = me;
      byId("login-password").focus();
      this.show("way.asks");
    }
  }

  /** Enters again under an account, to go on with the games against those opponents. Whether the member is in.
   * @param {string} me @param {string[]} opponents */
  async enterAgain(me, opponents) {
    const { password, session } = this;
    this.kept = { me, games: [] };
    this.opponents = opponents;
    this.show("way.enters");
    session.connect();
    await session.link.opened;
    const answer = await session.act(me);
    if (answer.prompt === PASSWORD) {
      await session.act(password);
    }
    this.show(session.isIn ? "way.back" : "way.gone", true);
    return session.isIn;
  }

  /** Asks to go on with the games against those players that lie on the server's shelf, and says of each that doesn't
   * go on at once what became of it.
   * @param {string[]} opponents */
  async resume(opponents) {
    this.goneOn.clear();
    const names = opponents.length ? await this.storedWith(opponents) : null;
    if (names) {
      this.awaited = new Set(opponents.filter((it) => names.includes(it) && !this.goneOn.has(it)));
      const refused = await this.askAwaited();
      await this.agreed;
      const left = opponents.filter((it) => !this.goneOn.has(it));
      if (left.length) {
        tellMember(left.map((who) => this.adjournedInWords(who, names.includes(who), refused.get(who))).join(" "),
          ADJOURNED);
      }
    }
  }

  /** Asks those with whom games are to go on, but who has asked meanwhile: by which refusals that isn't done now. */
  async askAwaited() {
    /** @type {Map<string, number>} */
    const refused = new Map();
    for (const other of this.awaited) {
      this.asked = other;
      const { refusal } = await this.session.ask(`resume ${other}`);
      if (refusal && refusal !== NOT_HERE) { // who isn't here yet asks later
        refused.set(other, refusal);
      }
    }
    this.asked = "";
    return refused;
  }

  /** What became of a game that doesn't go on yet; `refusal` is the number of that by which it doesn't go on now.
   * @param {string} who @param {boolean} isKept @param {number} [refusal] */
  adjournedInWords(who, isKept, refusal) {
    return refusal ? t("way.refused", { who, why: inWords(refusal) })
      : t(!isKept ? "way.not-kept" : this.awaited.has(who) ? "way.adjourned" : "way.lies", { who });
  }

  /** Goes on with whom asks for it, where that is awaited. A question of one's own that is on its way says so already.
   * @param {string} who */
  agree(who) {
    if (who !== this.asked && this.awaited.delete(who)) {
      this.agreed = this.session.act(`resume ${who}`); // answers come in the order of their lines
    }
  }

  /** A game has begun: no adjourned one goes on by itself any more, and what was said of that holds no more.
   * @param {Happened<'creating' | 'continuing'>} event */
  begun({ kind, white, black }) {
    this.awaited.clear();
    if (kind === "continuing") {
      this.goneOn.add(white).add(black);
    }
    forgetNotice(ADJOURNED);
  }

  /** With whom the member has adjourned games, once these are among them or it is late; null where the server doesn't
   * say.
   * @param {string[]} opponents */
  async storedWith(opponents) {
    /** @type {(string | undefined)[]} */
    let names = [];
    for (const wait of LOOKS) {
      if (!opponents.every((it) => names.includes(it))) {
        await new Promise((keep) => { setTimeout(keep, wait); });
        const answer = await this.session.ask("stored");
        if (!answer.isDone) {
          return null;
        }
        names = [...answer.all("stored"), ...answer.all("stored-pair")]
          .flatMap((it) => [it.white, it.black, it.third, it.fourth]);
      }
    }
    return names;
  }

  /** @param {string} key */
  show(key, isForAMoment = false) {
    clearTimeout(this.hiding);
    byId("way-back").textContent = t(key, { who: this.opponents.join(", ") });
    byId("way-back").hidden = false;
    if (isForAMoment) {
      this.hiding = setTimeout(() => this.hide(), STAYS);
    }
  }

  hide() {
    byId("way-back").hidden = true;
  }
}
