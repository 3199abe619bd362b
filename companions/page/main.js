/** The page: one link of the server, and the parts that show what comes by it.
 *
 * A reader begins with `lines.js` (the server's texts), `link.js` (a line and its answer) and `session.js` (who is
 * told what); then `game.js` and `games.js` keep the games, `table.js` and `board.js` show one, `play.js` sends what
 * is done there, `lobby.js` and `talk.js` are the other two views, `texts.js` has the words, and each other file is a
 * part of the page. */

import { listenForActs } from "./shell/acts.js";
import { Alerts } from "./member/alerts.js";
import { ArchiveLinks } from "./archive/links.js";
import { Earlier } from "./archive/earlier.js";
import { BoardView } from "./board/board_view.js";
import { closeBoxes, listenForBoxes, openBy } from "./shell/boxes.js";
import { PartnerTalk } from "./talk/partner_talk.js";
import { Calls } from "./lobby/calls.js";
import { CommandLine } from "./talk/command_line.js";
import { listenForRefusals } from "./shell/complaints.js";
import { takeInDrawings } from "./shell/drawings.js";
import { Games } from "./game/games.js";
import { Lobby } from "./lobby/lobby.js";
import { Login } from "./member/login.js";
import { showLooks, takeUpLooks } from "./member/looks.js";
import { ask, byId, onClick, onClickAt, tellMember } from "./shell/elements.js";
import { Partner } from "./lobby/partner.js";
import { Play } from "./board/play.js";
import { browserStore, listenForPreferences, Preferences } from "./member/preferences.js";
import { Session } from "./link/session.js";
import { Settings } from "./member/settings.js";
import { Simul } from "./lobby/simul.js";
import { SmallGames } from "./lobby/small_games.js";
import { Sounds } from "./member/sounds.js";
import { Talk } from "./talk/talk.js";
import { listenForTerms } from "./lobby/terms_form.js";
import { listenForRatings } from "./shell/ratings.js";
import { onLanguage } from "./shell/texts.js";
import { Following, listenForViews, showView } from "./shell/views.js";
import { endInWords, keptPage, tabStore, WayBack } from "./link/way_back.js";

const INSIDE = ["ways", "lobby", "talk", "commands-open", "leave", "member-settings"];

function linkUrl() {
  const scheme = location.protocol === "https:" ? "wss:" : "ws:";
  return `${scheme}//${location.host}/link`;
}

/** Shows the login alone, or all but the login.
 * @param {Session} session */
function showInside(session) {
  byId("login").hidden = session.isIn;
  INSIDE.forEach((it) => { byId(it).hidden = !session.isIn; });
  byId("me").textContent = session.isIn ? session.me : "";
  showView(session.isIn ? "lobby" : "login");
}

/** The parts that tell the member of what comes, whatever is seen: sounds, notes, calls and the talk.
 * @param {{ session: Session, games: Games, smallGames: SmallGames, play: Play, simul: Simul,
 *   preferences: Preferences, shows: (keys: string[]) => void }} parts */
function heralds({ session, games, smallGames, play, simul, preferences, shows }) {
  const settings = new Settings(session, preferences);
  const sounds = new Sounds(session, games, preferences);
  const alerts = new Alerts(session, games, preferences);
  const calls = new Calls(session, {
    isPlaying: () => games.running.length > 0 && !simul.isGiven, wants: (who) => settings.wants(who),
    changed: (count) => alerts.called(count), shows,
  });
  const talk = new Talk(session, {
    atGame: (line) => (games.shown ? play.act(games.shown, line) : session.act(line)),
    isForeign: (event) => ("game" in event ? !games.byNumber.has(event.game) : smallGames.isOn),
    isKeptAway: (who) => settings.isKeptAway(who), isShown: (who) => settings.isShown(who),
    isHidden: (who) => settings.isHidden(who),
  });
  return { settings, sounds, alerts, calls, talk };
}

/** Leaving is asked first where it may cost a game; a page that is left in a game asks too.
 * @param {Session} session @param {Games} games */
function listenForLeaving(session, games) {
  onClick("leave", () => {
    const leave = () => session.act("quit");
    return games.running.length ? ask("leave-ask", leave) : leave();
  });
  window.addEventListener("beforeunload", (event) => {
    if (games.running.length) {
      event.preventDefault();
    }
  });
}

/** The talk goes to the opponent of a game that begins; in bughouse and in a simul to all who are at it.
 * @param {Talk} talk @param {Games} games @param {string} me @param {Game | null} game @param {Happened} event */
function talkAtGame(talk, games, me, game, event) {
  if (game?.role === "mine" && (event.kind === "creating" || event.kind === "continuing")) {
    talk.begin(game.terms.isBughouse || games.running.length > 1 ? null : game.otherThan(me));
  }
}

/** `data-show` names a game that the member has, which is brought to the board.
 * @param {Games} games */
function listenForShowing(games) {
  onClickAt(document, "[data-show]", (button) => games.choose(Number(button.dataset.show)));
}

/** Somebody comes in, and all that was of another session is forgotten; or the link ends, and perhaps there is a way
 * back.
 * @param {{ session: Session, games: Games, forgetful: { forget(): void }[], partner: Partner, lobby: Lobby,
 *   wayBack: WayBack, calls: Calls }} parts */
function listenForComing({ session, games, forgetful, partner, lobby, wayBack, calls }) {
  session.on("entered", (event) => {
    showInside(session);
    forgetful.forEach((it) => it.forget());
    partner.set("");
    lobby.begin();
    wayBack.entered(event);
  });
  session.on(["creating", "continuing"], () => closeBoxes("settings"));
  session.onEnd(async ({ code, me }) => {
    const opponents = games.running.map((it) => it.otherThan(me));
    games.forgetAll();
    calls.forget();
    closeBoxes("settings", "terms", "commands", "leave-ask", "resign-ask");
    if (!wayBack.mayEnter({ code, me }) || !await wayBack.enterAgain(me, opponents)) {
      showInside(session);
      tellMember(endInWords(code, me !== "", opponents.length > 0));
      wayBack.askToEnter({ code, me }, opponents);
    }
  });
}

function start() {
  const isStamped = !new URLSearchParams(location.search).has("plain");
  const store = tabStore();
  const kept = keptPage(store);
  const session = new Session(linkUrl(), isStamped, kept?.link ?? null);
  listenForRefusals(session);
  const preferences = new Preferences(browserStore());
  listenForPreferences(preferences);
  /** @type {((game: Game | null, event: Happened) => void)[]} */
  const hearers = []; // of what is told of games, in their order
  /** @type {Games} */
  const games = new Games(session, {
    changed: (game, event) => hearers.forEach((it) => it(game, event)), passes: (number) => smallGames.has(number),
  });
  /** @type {SmallGames} */
  const smallGames = new SmallGames(session, store, {
    isBusy: () => games.isAtOne, changed: (number) => lobby.running.showOne(number),
  });
  const simul = new Simul(session, games);
  /** @type {Play} */
  const play = new Play(session, games, simul, preferences, (game) => view.waits(game));
  /** @type {BoardView} */
  const view = new BoardView(session, games, play);
  const { settings, sounds, alerts, calls, talk } = heralds({
    session, games, smallGames, play, simul, preferences, shows: (keys) => lobby.showChallenges(keys),
  });
  /** @type {Lobby} */
  const lobby = new Lobby(session, games, smallGames, {
    challenged: (rows) => calls.challenged(rows), hideOf: (who) => settings.hideOf(who),
  });
  const following = new Following(games);
  hearers.push((...it) => following.told(...it), (...it) => play.told(...it), (...it) => view.changed(...it),
    (...it) => sounds.told(...it), (...it) => alerts.told(...it), () => calls.show(), () => lobby.running.want(),
    () => games.isAtOne && talk.game(), (...it) => talkAtGame(talk, games, session.me, ...it));
  const archiveLinks = new ArchiveLinks(session);
  const earlier = new Earlier(() => archiveLinks.isThere, (game) => games.changed(game, { kind: "chosen" }));
  hearers.push(() => archiveLinks.show(games.shown), (game) => earlier.told(game));
  const wayBack = new WayBack(session, games, store, kept);
  preferences.onChange(() => {
    lobby.show();
    view.show();
  });
  listenForRatings(session, () => {
    lobby.show();
    view.show();
  });
  onLanguage(() => view.rename());
  const commandLine = new CommandLine(session, () => games.running.length > 0);
  const forgetful = [talk, settings, commandLine, new PartnerTalk(session), simul, smallGames, lobby, calls];
  const partner = new Partner(session);
  new Login(session);
  listenForTerms(session);
  listenForActs(session, (number, line) => play.act(number ? games.byNumber.get(number) : games.shown, line));
  listenForShowing(games);
  listenForLeaving(session, games);
  listenForComing({ session, games, forgetful, partner, lobby, wayBack, calls });
  showInside(session); // the login isn't seen before, since a form that nobody listens to loads the page anew
}

takeInDrawings();
await takeUpLooks();
showLooks();
listenForViews();
listenForBoxes("settings", "terms");
openBy("settings-open", "settings");
start();
