/** Sounds, which the page makes by itself: a few tones one behind the other. Browsers let a page sound only once it was
 * clicked or typed in. */

import { LowTime, soundOf } from "./heard.js";

const LOW = 20; // seconds
const EVERY = 500; // milliseconds
const VOLUME = 0.25;
const RESTS_AFTER = 1_500; // milliseconds: a loudspeaker that is kept ready takes time of the processor
// of each sound its tones: frequency in hertz, when it begins and how long it is in seconds, its form
/** @type {Record<SoundName, [number, number, number, OscillatorType][]>} */
const TONES = {
  move: [[320, 0, 0.06, "triangle"], [180, 0.01, 0.08, "sine"]],
  capture: [[240, 0, 0.05, "square"], [150, 0.04, 0.12, "triangle"]],
  check: [[660, 0, 0.09, "triangle"], [880, 0.1, 0.14, "triangle"]],
  call: [[523, 0, 0.12, "sine"], [659, 0.14, 0.12, "sine"], [784, 0.28, 0.2, "sine"]],
  low: [[980, 0, 0.07, "square"], [980, 0.14, 0.07, "square"]],
};

export class Sounds {
  /** @param {Session} session @param {Games} games @param {Preferences} preferences */
  constructor(session, games, preferences) {
    this.session = session;
    this.games = games;
    this.preferences = preferences;
    /** @type {AudioContext | null} */
    this.context = null;
    this.resting = 0;
    this.isAllowed = false; // the page was clicked or typed in
    this.lowTime = new LowTime();
    session.on(["challenge", "partner-asked", "resume-asked"], (event) => this.play(soundOf(event)));
    setInterval(() => this.watchTime(), EVERY);
    const mayPlay = () => { this.isAllowed = true; };
    document.addEventListener("pointerdown", mayPlay, { once: true });
    document.addEventListener("keydown", mayPlay, { once: true });
  }

  /** A game was told of: what is heard of it is what is seen of it.
   * @param {Game | null} game @param {Happened} event */
  told(game, event) {
    if (game && (game === this.games.shown || game.role === "mine")) {
      this.play(soundOf(event));
    }
  }

  watchTime() {
    for (const game of this.games.running) {
      const colour = game.colourOf(this.session.me);
      const runs = game.place && game.isTicking && game.toMove === colour;
      if (colour && runs && this.lowTime.falls(game.number, game.left(colour) ?? Infinity, LOW)) {
        this.play("low");
      }
    }
  }

  /** @param {SoundName | ''} name */
  async play(name) {
    if (name && this.isAllowed && this.preferences.get("sounds") && window.AudioContext) {
      clearTimeout(this.resting);
      const context = this.context ?? new AudioContext();
      this.context = context;
      this.resting = setTimeout(() => context.suspend(), RESTS_AFTER);
      await context.resume();
      TONES[name].forEach((it) => this.tone(context, ...it));
    }
  }

  /** @param {AudioContext} context @param {number} frequency @param {number} begins @param {number} seconds
   * @param {OscillatorType} form */
  tone(context, frequency, begins, seconds, form) {
    const start = context.currentTime + begins;
    const oscillator = context.createOscillator();
    const volume = context.createGain();
    oscillator.type = form;
    oscillator.frequency.value = frequency;
    volume.gain.setValueAtTime(VOLUME, start);
    volume.gain.exponentialRampToValueAtTime(0.001, start + seconds);
    oscillator.connect(volume).connect(context.destination);
    oscillator.start(start);
    oscillator.stop(start + seconds);
  }
}
