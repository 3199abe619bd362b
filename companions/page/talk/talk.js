/** Talk: tells, channels, shouts, kibitzing, the partner's words, and what else happened, each in its room. Who talks
 * to the member doesn't change whom the member writes to. */

import { byId, onClick, onClickAt, onSubmit, tellMember } from "../shell/elements.js";
import { hideButton } from "./hide.js";
import { buttonOf } from "../shell/list.js";
import { Rooms } from "./rooms.js";
import { hasText, onLanguage, t } from "../shell/texts.js";
import { isTalkSeen, onView, showView } from "../shell/views.js";
import { reasonInWords } from "../game/state_words.js";

/** @type {AtGame[]} */
const AT_GAMES = ["declines", "taken-back", "lost", "drawn", "stopped", "pair-ended", "offer-draw", "offer-abort",
  "offer-adjourn", "offer-takeback"];
/** @type {InHall[]} */
const IN_HALL = ["challenge-declined", "partners", "parted", "partner-asked", "resume-asked"];
const [ALL, GAME, PARTNER] = ["all", "game", "partner"];
const NUMBER = /^\d{1,3}$/;

/** @param {string} who */
function roomOfPerson(who) {
  return `person ${who.toLowerCase()}`;
}

/** @param {number} n */
function roomOfChannel(n) {
  return `channel ${n}`;
}

/** What happened; an end has its reason in words.
 * @param {Happened<AtGame | InHall | 'unknown'>} event */
function happenedInWords(event) {
  if ("result" in event) {
    return t("happened.end", { ...event, reason: reasonInWords(event.reason) });
  }
  return hasText(`happened.${event.kind}`) ? t(`happened.${event.kind}`, event) : event.text;
}

export class Talk {
  /** `atGame(line)` sends a line for the game that is shown, if there is one; `isForeign(event)` says of what is told
   * of a game that the member neither plays nor looks on there; `isKeptAway(who)` of whom nothing is wanted;
   * `isShown(who)` of whom what it says is shown, and `isHidden(who)` who was named as one of whom it isn't.
   * @param {Session} session @param {TalkListeners} listeners */
  constructor(session, { atGame, isForeign, isKeptAway, isShown, isHidden }) {
    this.session = session;
    this.atGame = atGame;
    this.isKeptAway = isKeptAway;
    this.isShown = isShown;
    this.isHidden = isHidden;
    this.rooms = new Rooms(isTalkSeen, () => this.show());
    /** @param {Happened<"kibitz" | AtGame>} event @param {() => void} act */
    const here = (event, act) => !isForeign(event) && act();
    session.on("tell", (event) => isShown(event.who) && this.hear(this.person(event.who), event));
    session.on("partner-tell", (event) => this.hear(this.partner(), event));
    session.on("channel-tell", (event) => isShown(event.who) && this.hear(this.channel(event.n), event));
    session.on("shout", (event) => isShown(event.who) && this.hear(ALL, event));
    session.on("kibitz", (event) => isShown(event.who) && here(event, () => this.hear(this.game(), event)));
    session.on("left-out", ({ n }) => this.rooms.leaveOut(ALL, n));
    session.on(AT_GAMES, (event) => here(event, () => this.happen(this.game(), event)));
    session.on(IN_HALL, (event) => this.happen(ALL, event));
    session.on("partners", () => this.partner());
    session.on("unknown", (event, answer) => answer?.line === null && this.happen(ALL, event));
    session.onAnswer((answer) => this.take(answer));
    this.listen();
    this.forget();
  }

  listen() {
    onSubmit("talk-form", () => this.say());
    onSubmit("room-form", () => this.go());
    onClick("room-open", () => this.askWhere(byId("room-form").hidden));
    onView(() => this.rooms.read());
    onLanguage(() => this.rename());
    onClickAt(document, "[data-room]", (button) => this.speakIn(button.dataset.room ?? ""));
    onClickAt(byId("said"), "[data-types]", (button) => this.session.act(button.dataset.types ?? ""));
    onClickAt(byId("room-acts"), "[data-leaves]", () => this.leave(this.rooms.chosen));
  }

  // ---- rooms ----

  /** The room of a person; a name that was typed may have other capitals than the player's own.
   * @param {string} who */
  person(who, isTyped = false) {
    const key = roomOfPerson(who);
    return isTyped && this.rooms.has(key) ? key : this.rooms.open(key, who[0].toUpperCase() + who.slice(1)).key;
  }

  /** @param {number} n */
  channel(n) {
    return this.rooms.open(roomOfChannel(n), t("talk.channel", { n })).key;
  }

  /** The room of the game that is on the board. */
  game() {
    return this.rooms.open(GAME, t("talk.game")).key;
  }

  /** A game begins: what the member says from now on is for the opponent, or where there are more of them for the game,
   * unless it is writing to somebody just now.
   * @param {string | null} opponent */
  begin(opponent) {
    const key = opponent ? this.person(opponent) : this.game();
    if (!byId("talk-text").value) {
      this.rooms.choose(key);
    }
  }

  partner() {
    return this.rooms.open(PARTNER, t("talk.partner")).key;
  }

  /** Opens the room of a person or a channel, and goes to its field.
   * @param {string} key */
  speakIn(key) {
    const [kind, who] = key.split(" ");
    if (kind === "person") {
      this.person(who, true);
    } else if (kind === "channel") {
      this.channel(Number(who));
    }
    this.rooms.choose(kind === "person" ? roomOfPerson(who) : key);
    if (!isTalkSeen()) {
      showView("talk");
    }
    byId("talk-text").focus();
  }

  /** @param {boolean} isAsking */
  askWhere(isAsking) {
    byId("room-form").hidden = !isAsking;
    byId("room-open").setAttribute("aria-expanded", String(isAsking));
    if (isAsking) {
      byId("room-name").focus();
    }
  }

  /** Goes where the member named a person, or a channel, which is joined. */
  async go() {
    const name = byId("room-name").value.trim();
    if (!name) {
      byId("room-name").focus();
      return;
    }
    if (NUMBER.test(name) && !(await this.session.act(`+channel ${Number(name)}`)).isDone) {
      return;
    }
    byId("room-name").value = "";
    this.askWhere(false);
    this.speakIn(NUMBER.test(name) ? roomOfChannel(Number(name)) : `person ${name}`);
  }

  /** @param {string} key */
  async leave(key) {
    const [kind, n] = key.split(" ");
    if (kind !== "channel") {
      this.rooms.close(key);
    } else if (!(await this.session.act(`-channel ${n}`)).isDone) {
      this.rooms.close(key); // one is out of it already
    }
  }

  // ---- what is heard, said and done ----

  /** @param {string} key @param {Happened<'tell' | 'partner-tell' | 'channel-tell' | 'shout' | 'kibitz'>} event */
  hear(key, { who, said, kind }) {
    const isRead = kind === "partner-tell" && byId("partner-talk").checkVisibility();
    this.rooms.add(key, { who, said, kind }, isRead);
    if (["tell", "partner-tell"].includes(kind) && !isRead && !isTalkSeen()) {
      tellMember(t("said.tell", { who, said }));
    }
  }

  /** @param {string} key @param {Happened<AtGame | InHall | 'unknown'>} event */
  happen(key, event) {
    const isAsking = event.kind === "partner-asked" || event.kind === "resume-asked";
    if (!isAsking || !this.isKeptAway(event.who)) {
      this.rooms.add(key, { said: happenedInWords(event), kind: "happened" });
    }
  }

  /** @param {string} key @param {string} text */
  lineOf(key, text) {
    const [kind, who] = key.split(" ");
    return { [ALL]: `shout ${text}`, [GAME]: `kibitz ${text}`, [PARTNER]: `ptell ${text}` }[kind]
      ?? `tell ${who} ${text}`;
  }

  async say() {
    const field = byId("talk-text");
    const text = field.value.trim();
    const key = this.rooms.chosen;
    if (!text) {
      field.focus();
      return;
    }
    const line = this.lineOf(key, text);
    const answer = await (key === GAME ? this.atGame(line) : this.session.act(line));
    if (answer?.isDone && field.value.trim() === text) {
      field.value = "";
    }
  }

  /** Takes what was said and done, whoever typed it.
   * @param {Answer} answer */
  take(answer) {
    const { command, line } = answer;
    if (line === null || !answer.isDone) {
      return;
    }
    const said = line.trim().replace(/^\S+ */, "");
    const [, first = "", rest = ""] = /^(\S*) *(.*)$/.exec(said) ?? [];
    if (command === "tell") {
      this.told(NUMBER.test(first) ? this.channel(Number(first)) : this.person(first, true), rest);
    } else if (command === "shout") {
      this.told(ALL, said);
    } else if (command === "ptell") {
      this.told(this.partner(), said);
    } else if (command === "+channel") {
      this.channel(Number(first));
    } else if (command === "-channel") {
      this.rooms.close(roomOfChannel(Number(first)));
    } else if (command.endsWith("censor")) {
      this.show();
    } else if (command === "inchannel") {
      const names = answer.all("player").map((it) => it.who).join(", ") || t("channel.nobody");
      const members = t("channel.members", { n: Number(first), names });
      const key = roomOfChannel(Number(first));
      this.rooms.add(this.rooms.has(key) ? key : ALL, { said: members, kind: "happened" });
    }
  }

  /** @param {string} key @param {string} said */
  told(key, said) {
    this.rooms.add(key, { who: t("talk.me"), said, kind: "own" });
  }

  // ---- what is shown ----

  /** Names the rooms anew, in another language. */
  rename() {
    for (const key of this.rooms.byKey.keys()) {
      const [kind, n] = key.split(" ");
      if (kind === "channel") {
        this.channel(Number(n));
      } else if (kind !== "person") {
        this.rooms.open(key, t(`talk.${kind}`));
      }
    }
    this.show();
  }

  /** The field says to whom one writes; the room's own acts stand above what was said there. */
  show() {
    const { chosen, unread } = this.rooms;
    const room = this.rooms.byKey.get(chosen);
    const words = this.wordsOf(chosen, room?.name.textContent ?? "");
    byId("talk-label").textContent = words;
    byId("talk-text").placeholder = words;
    byId("unread").hidden = !unread;
    byId("unread").textContent = String(unread);
    byId("unread").title = t("talk.unread", { n: unread });
    this.showActs(chosen);
  }

  /** @param {string} key @param {string} name */
  wordsOf(key, name) {
    const [kind, n] = key.split(" ");
    return kind === "channel" ? t("talk.to-channel", { n }) : kind === "person" ? t("talk.to-person", { who: name })
      : t(`talk.to-${kind || ALL}`);
  }

  /** @param {string} key */
  showActs(key) {
    const [kind, n] = key.split(" ");
    const acts = byId("room-acts");
    acts.hidden = !["channel", "person"].includes(kind);
    const buttons = kind === "channel" ? this.actsOfChannel(key, n)
      : kind === "person" ? this.actsOfPerson(key, n) : [];
    const state = JSON.stringify(buttons);
    if (acts.dataset.of !== state) {
      acts.dataset.of = state;
      acts.replaceChildren(...buttons.map(buttonOf));
    }
  }

  /** @param {string} key @param {string} n
   * @returns {RowButton[]} */
  actsOfChannel(key, n) {
    return [{ drawing: "people", name: t("channel.who"), command: `inchannel ${n}` },
      { drawing: "close", name: t("channel.leave"), leaves: key }];
  }

  /** What a person says is shown, or isn't, at all places.
   * @param {string} key @param {string} n
   * @returns {RowButton[]} */
  actsOfPerson(key, n) {
    const who = this.rooms.byKey.get(key)?.name.textContent ?? n;
    return [hideButton(who, this.isHidden(who)), { drawing: "close", name: t("close"), leaves: key }];
  }

  forget() {
    this.rooms.clear();
    this.rooms.open(ALL, t("talk.all"));
    this.rooms.choose(ALL);
  }
}
