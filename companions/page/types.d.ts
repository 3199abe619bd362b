/* What the page's modules hand each other. The classes are named here too, so that each module may say of what type
 * its words are without an import. */

type Answer = import("./link/session.js").Answer;
type ArchivedGame = import("./archive/game.js").ArchivedGame;
type Board = import("./board/board.js").Board;
type Game = import("./game/game.js").Game;
type Games = import("./game/games.js").Games;
type Play = import("./board/play.js").Play;
type Preferences = import("./member/preferences.js").Preferences;
type Session = import("./link/session.js").Session;
type Simul = import("./lobby/simul.js").Simul;
type SmallGames = import("./lobby/small_games.js").SmallGames;
type Terms = import("./game/terms.js").Terms;

// ---- positions and moves ----

type Colour = "w" | "b";
type Wing = "short" | "long";
/** Of squares, as e2, their men, as wP; another square is empty. */
type Men = Record<string, string>;
/** The letters in hand of each colour. */
type Hands = Record<Colour, string>;
type Rights = Record<Colour, Record<Wing, boolean>>;
/** The seconds of each colour; null where they aren't known. */
type Clocks = Record<Colour, number | null>;
/** The files of king and rooks in an array. */
type Homes = { king: string } & Record<Wing, string>;

interface Position {
  men: Men;
  side: Colour;
  rights: Rights;
  /** The square that a pawn has just passed over, or nothing. */
  passed: string;
  hands: Hands | null;
  homes: Homes;
}

/** A move, a castling or a drop. */
interface Move {
  from?: string;
  to?: string;
  drop?: string;
  promotion?: string;
  castle?: Wing;
}

/** What the member plays once it is its turn. */
interface Premove extends Move {
  to: string;
  man?: string;
}

/** A square of a board, or a kind of men in a hand. */
interface Spot {
  element: HTMLElement;
  square?: string;
  drop?: string;
}

/** What of a board a FEN tells. */
interface Standing {
  ranks: string[];
  side: Colour;
  doubled: number;
  rights: Rights;
  quiet: number;
  move: number;
}

/** What a board line says. */
interface BoardLine extends Standing {
  line: string;
  game: number;
  white: string;
  black: string;
  relation: number;
  minutes: number;
  increment: number;
  clocks: Clocks;
  ply: number;
  long: string;
  took: string;
  short: string;
  blackBelow: boolean;
  /** What tells this position from others. */
  position: string;
}

/** What stands behind a half-move of a game. */
interface Place {
  board: BoardLine;
  men: Men;
  squares: string[];
  hands: Hands | null;
  /** Of an archived pair, what stood at the other board. */
  beside?: Place;
}

interface HalfMove {
  ply: number;
  short: string;
}

type Role = "mine" | "partner's" | "watched";
type OfferKind = "draw" | "abort" | "adjourn" | "takeback";
type End = { reason: string; result: string };
type Offer = { who: string; kind: OfferKind; n: number };

interface KeptGame {
  number: number;
  white: string;
  black: string;
  hasTerms: boolean;
  terms: string;
  role: Role;
  hands: Hands | null;
  end: End | null;
  began: number | null;
  since: number;
  offers: Offer[];
  places: { line: string; hands: Hands | null }[];
}

// ---- the link ----

/** A part of what came: an answer to a line, or news, where `line` is null. */
interface Part {
  line: string | null;
  lines: string[];
  prompt: string;
}

type Words = Record<string, unknown>;
/** What the go-between tells the page itself. */
type Told = Words & { archive?: boolean; ratings?: boolean; away?: string; held?: number };

/** The go-between's answer to a page that comes. */
interface Taken {
  seat: string;
  taken: "new" | "same" | "anew";
  heard: number;
  name: string;
  prompt: string;
  stamped: boolean;
  plain: boolean;
  archive?: boolean;
  ratings?: boolean;
}

interface KeptSeat {
  token: string | null;
  heard: number | null;
  sentCount: number;
  sent: string[];
  /** Whether the page is to begin anew, and nothing is told of what it has sent. */
  isAnew?: boolean;
}

interface KeptLink {
  seat: KeptSeat;
  owed: string[];
  lines: string[];
  prompt: string;
}

/** A line that would set again what the member has set. */
interface RememberedRow {
  key: string;
  line: string | null;
  told: string[];
}

interface KeptPage {
  link: KeptLink;
  me: string;
  remembered: RememberedRow[];
  games: KeptGame[];
}

// ---- events ----

type Players = { white: string; black: string };
type Ended = { game: number } & Players & End;

/** Of each kind of event its fields; the rows of `link/lines.js` say from which texts they come. */
interface Fields {
  refused: { n: number; name: string };
  ok: {};
  asked: {};
  heard: { n: number };
  "seek-made": { n: number };
  entered: { who: string; isBack?: boolean };
  opening: {};
  empty: {};
  player: { who: string };
  sought: { n: number; who: string; terms: Terms };
  game: { game: number; terms: Terms } & Players;
  "pending-from": { who: string; terms: Terms };
  "pending-to": { who: string; terms: Terms };
  stored: { n: number; terms: Terms; third?: string; fourth?: string } & Players;
  "stored-pair": { n: number; terms: Terms; third: string; fourth: string } & Players;
  challenge: { who: string; terms: Terms };
  "challenge-declined": { who: string };
  seeking: { who: string; terms: Terms; n: number };
  "resume-asked": { who: string };
  creating: { game: number; terms: Terms } & Players;
  continuing: { game: number; terms: Terms } & Players;
  /** `games.js` says whether the board is a new one, and whether it is the one behind a half-move. */
  board: { board: BoardLine; isNew?: boolean; isHalfMove?: boolean };
  hands: { game: number; whiteHand: string; blackHand: string; came?: string };
  "text-turn": { side: string; game: number; whiteLeft: number; blackLeft: number; last: string };
  "text-rank": { rank: string };
  "offer-draw": { who: string };
  "offer-abort": { who: string };
  "offer-adjourn": { who: string };
  "offer-takeback": { who: string; n: number };
  declines: { who: string };
  "taken-back": { n: number };
  lost: Ended & { loser: string };
  drawn: Ended;
  stopped: Ended;
  "pair-ended": Ended;
  kibitz: { who: string; said: string };
  tell: { who: string; said: string };
  "channel-tell": { who: string; n: number; said: string };
  shout: { who: string; said: string };
  "partner-tell": { who: string; said: string };
  "partner-asked": { who: string };
  partners: { who: string };
  parted: { who: string };
  goodbye: {};
  hushed: { n: number };
  "left-out": { n: number };
  unknown: {};
}

/** Events that no text of the server is: what the link and the member do, and what of the games is chosen. */
interface OwnFields {
  told: { it: Told };
  /** By that code of a close. */
  "link-lost": { code: number };
  "link-back": { isSame: boolean; isNewPage: boolean };
  "link-gone": { isSame: boolean; isNewPage: boolean };
  /** The member sends a line of that command. */
  acting: { command: string };
  /** What the member sent was refused, by that number, or done. */
  complaint: { n: number };
  settled: {};
  removed: {};
  chosen: {};
}

type LineKind = keyof Fields;
type EventKind = LineKind | keyof OwnFields;
type Events = { [K in LineKind]: { kind: K; text: string } & Fields[K] }
  & { [K in keyof OwnFields]: { kind: K } & OwnFields[K] };
/** An event of one of these kinds. */
type Happened<K extends EventKind = EventKind> = K extends EventKind ? Events[K] : never;
/** What a line of the server is. */
type LineEvent = Happened<LineKind>;

// ---- lists ----

interface RowButton {
  label?: string;
  name?: string;
  drawing?: string;
  parts?: Record<string, string>;
  className?: string;
  command?: string;
  at?: number;
  fill?: string;
  dismiss?: string;
  room?: string;
  show?: string;
  challenge?: string;
  isOff?: boolean;
  leaves?: string;
  prefers?: PreferenceName;
  /** Of a switch whether it is on. */
  isPressed?: boolean;
}

/** A row of a list that keeps itself. */
interface Row {
  key: string;
  text?: string;
  parts?: Record<string, string>;
  buttons?: RowButton[];
  className?: string;
}

/** A line of a room of the talk. */
interface SaidLine {
  who?: string;
  said: string;
  kind: string;
  /** How many lines it stands for that were left out. */
  n?: number;
}

// ---- the archive ----

type Counted = [string, number];

interface ArchiveRow {
  link: string;
  white: string;
  black: string;
  result: string;
  time: string;
  halfMoves: number;
  control?: string;
  variant: string;
}

/** What is told of one game, and of the pair of which it is one. */
interface ArchivedText {
  rated?: VerdictTold;
  pgn: string;
  pair: { link: string; pgn: string; bpgn?: string } | null;
  earlier: string | null;
  later: string | null;
}

/** What is told of a game's being rated. */
interface VerdictTold {
  why: string;
  who: string;
  pool: string;
}

/** What a player is in a pool. */
interface RatingTold {
  pool: string;
  name: string;
  points: number;
  deviation: number;
  games: number;
  isProvisional: boolean;
}

/** A day, and the rating and its deviation behind that day's games. */
type CurvePoint = [string, number, number];

/** What is told of a list of games. */
interface ArchivedList {
  games: ArchiveRow[];
  hasMore: boolean;
  name: string;
  count: number;
  firstDay: string | null;
  lastDay: string | null;
  players: Counted[];
  days: Counted[];
  earlier: string | null;
  later: string | null;
  tally: Record<string, number[]>;
  ladders?: Counted[];
  pools?: Counted[];
  rows?: RatingTold[];
  ratings?: (RatingTold & { curve: CurvePoint[] })[];
}

/** What an address of the archive is of. */
interface Address {
  kind: "games" | "day" | "player" | "ladder" | "game" | "";
  link?: string;
  day?: string;
  name?: string;
}

// ---- what the parts of the page are given ----

type Keys = { shiftKey: boolean; ctrlKey?: boolean; altKey: boolean };
type Corner = { x: number; y: number };
type Shape = { from: string; to: string; colour: string };
type BoardName = "main" | "partner";
type StepName = "first" | "back" | "on" | "last";
type Drawing = { body: string[]; lines: string[] };
type Becomes = (colour: Colour, square: string) => Promise<string>;

/** Of each kind of mark the squares that have it, and of what is drawn its words by the squares. */
interface Marks {
  last: (string | undefined)[];
  chosen: (string | undefined)[];
  target: (string | undefined)[];
  check: (string | undefined)[];
  premove: (string | undefined)[];
  dropped?: { square: string; man: string } | null;
  drawn?: Record<string, string>;
}

interface Lifted {
  from: Spot;
  drawing: SVGElement | null;
  x: number;
  y: number;
  isFar: boolean;
}

interface DragListeners {
  mayLift(at: Spot): boolean;
  lifted(at: Spot): void;
  moved(from: Spot, to: Spot): void;
  clicked(at: Spot): void;
}

interface GamesListeners {
  changed(game: Game | null, event: Happened): void;
  passes(number: number): boolean;
}

interface SmallGamesListeners {
  isBusy(): boolean;
  changed(number: number): void;
}

interface CallsListeners {
  isPlaying(): boolean;
  wants(who: string): boolean;
  changed(count: number): void;
  shows(keys: string[]): void;
}

type Call = Pick<Happened<"partner-asked" | "resume-asked">, "kind" | "who">;
type OfferEvent = "offer-draw" | "offer-abort" | "offer-adjourn" | "offer-takeback";
type EndEvent = "lost" | "drawn" | "stopped" | "pair-ended";
type AtGame = "declines" | "taken-back" | EndEvent | OfferEvent;
type InHall = "challenge-declined" | "partners" | "parted" | "partner-asked" | "resume-asked";

interface TalkListeners {
  atGame(line: string): Promise<Answer | null>;
  isForeign(event: Happened<"kibitz" | AtGame>): boolean;
  isKeptAway(who: string): boolean;
  isShown(who: string): boolean;
  isHidden(who: string): boolean;
}

interface LobbyListeners {
  challenged(rows: Row[]): void;
  hideOf(who: string): RowButton;
}

interface SeatListeners {
  taken(answer: Taken): void;
  hear(message: string): void;
  told(it: Told): void;
  isIn(): boolean;
  waits(code: number): void;
  ended(code: number): void;
}

interface LinkListeners {
  take(part: Part): Answer;
  acknowledges(line: string): boolean;
  found(name: string, isSame: boolean): void;
  told(it: Told): void;
  isIn(): boolean;
  waits(code: number): void;
  ended(code: number): void;
}

/** A link has ended, by that code of a close, under which somebody was in by that name. */
type LinkEnd = { code: number; me: string };
/** A line that was sent, as which message, and who waits for its answer. */
type Owed = { line: string; at: number; keep: (answer: Answer) => void };
type ListName = "who" | "sought" | "games" | "pending" | "stored";
/** The rows of each list of the lobby. */
interface Lists {
  who: Happened<"player">[];
  sought: Happened<"sought">[];
  games: Happened<"game">[];
  pending: Happened<"pending-from" | "pending-to">[];
  stored: Happened<"stored" | "stored-pair">[];
}
type PreferenceName = "sounds" | "notes" | "premoves" | "legal" | "queen" | "flag" | "guests";
type SoundName = "move" | "capture" | "check" | "call" | "low";
type ElementOf<I extends string> = I extends keyof Elements ? Elements[I] : HTMLElement;
type DialogId = { [I in keyof Elements]: Elements[I] extends HTMLDialogElement ? I : never }[keyof Elements];

// ---- a game's text in the archive ----

type ReadHalfMove = { short: string; took: number | null; left: number | null };
type ReadGame = { tags: Record<string, string>; halfMoves: ReadHalfMove[] } & End;
/** A position with the squares of men that came by promotion, and the number of half-moves before it. */
type ArchivedPosition = Position & { promoted: Set<string>; ply: number };
type Paired = { link: string; pgn: string };

// ---- what browsers have that this compiler's own tables lack ----

interface Element {
  checkVisibility(): boolean;
  role: string | null;
}

// ---- the elements of index.html and games.html that aren't plain ones, by their ids ----

interface Elements {
  abort: HTMLButtonElement;
  adjourn: HTMLButtonElement;
  archived: HTMLAnchorElement;
  "calls-open": HTMLButtonElement;
  "close-game": HTMLButtonElement;
  colour: HTMLSelectElement;
  command: HTMLInputElement;
  "command-form": HTMLFormElement;
  "command-send": HTMLButtonElement;
  commands: HTMLDialogElement;
  "commands-close": HTMLButtonElement;
  "commands-open": HTMLButtonElement;
  day: HTMLInputElement;
  "day-form": HTMLFormElement;
  draw: HTMLButtonElement;
  earlier: HTMLAnchorElement;
  enter: HTMLButtonElement;
  first: HTMLButtonElement;
  fischer: HTMLInputElement;
  "fischer-die": HTMLButtonElement;
  flag: HTMLButtonElement;
  guest: HTMLButtonElement;
  increment: HTMLInputElement;
  "keep-add": HTMLButtonElement;
  "keep-form": HTMLFormElement;
  "keep-list": HTMLSelectElement;
  "keep-name": HTMLInputElement;
  last: HTMLButtonElement;
  later: HTMLAnchorElement;
  leave: HTMLButtonElement;
  "leave-ask": HTMLDialogElement;
  "leave-no": HTMLButtonElement;
  "leave-yes": HTMLButtonElement;
  "login-form": HTMLFormElement;
  "login-name": HTMLInputElement;
  "login-password": HTMLInputElement;
  match: HTMLButtonElement;
  "match-name": HTMLInputElement;
  minutes: HTMLInputElement;
  move: HTMLInputElement;
  "move-form": HTMLFormElement;
  "move-send": HTMLButtonElement;
  next: HTMLButtonElement;
  "of-day": HTMLAnchorElement;
  older: HTMLAnchorElement;
  pair: HTMLAnchorElement;
  "partner-ask": HTMLButtonElement;
  "partner-form": HTMLFormElement;
  "partner-name": HTMLInputElement;
  "partner-part": HTMLButtonElement;
  "partner-say": HTMLInputElement;
  "partner-say-form": HTMLFormElement;
  "partner-say-send": HTMLButtonElement;
  "pgn-copy": HTMLButtonElement;
  "pgn-save": HTMLAnchorElement;
  previous: HTMLButtonElement;
  register: HTMLButtonElement;
  "register-ask": HTMLDialogElement;
  "register-form": HTMLFormElement;
  "register-name": HTMLInputElement;
  "register-no": HTMLButtonElement;
  "register-password": HTMLInputElement;
  "register-yes": HTMLButtonElement;
  rematch: HTMLButtonElement;
  resign: HTMLButtonElement;
  "resign-ask": HTMLDialogElement;
  "resign-no": HTMLButtonElement;
  "resign-yes": HTMLButtonElement;
  "room-form": HTMLFormElement;
  "room-go": HTMLButtonElement;
  "room-name": HTMLInputElement;
  "room-open": HTMLButtonElement;
  search: HTMLFormElement;
  "search-name": HTMLInputElement;
  "search-other": HTMLInputElement;
  "search-result": HTMLSelectElement;
  "search-variant": HTMLSelectElement;
  seek: HTMLButtonElement;
  "set-open": HTMLInputElement;
  "set-seek": HTMLInputElement;
  "set-shout": HTMLInputElement;
  settings: HTMLDialogElement;
  "settings-open": HTMLButtonElement;
  simnext: HTMLButtonElement;
  simopen: HTMLButtonElement;
  simprev: HTMLButtonElement;
  takeback: HTMLButtonElement;
  "takeback-n": HTMLInputElement;
  "talk-form": HTMLFormElement;
  "talk-send": HTMLButtonElement;
  "talk-text": HTMLInputElement;
  terms: HTMLDialogElement;
  "terms-form": HTMLFormElement;
  "to-club": HTMLAnchorElement;
  turn: HTMLButtonElement;
  variant: HTMLSelectElement;
}
