/** The offers that stand at a desk: a draw, an abort, an adjournment, a takeback of so many half-moves. They are
 * those of all seats of the desk, so the two boards of bughouse share them. */

import { t } from "../shell/texts.js";

export class Offers {
  constructor() {
    /** @type {Offer[]} */
    this.standing = []; // { who, kind, n }, the earliest first
  }

  /** @param {string} who @param {OfferKind} kind @param {number} [n] */
  add(who, kind, n = 0) {
    if (kind === "takeback") {
      this.drop((it) => it.kind === kind && it.n !== n);
    }
    this.standing.push({ who, kind, n });
  }

  /** @param {(offer: Offer) => boolean} goes */
  drop(goes) {
    this.standing = this.standing.filter((it) => !goes(it));
  }

  clear() {
    this.standing = [];
  }

  /** Takes those that an earlier page has kept.
   * @param {Offer[]} standing */
  restore(standing) {
    this.standing = standing;
  }

  /** Who turns an offer down turns down the earliest one of another that it doesn't make too.
   * @param {string} who */
  declined(who) {
    const gone = this.firstFor(who);
    this.drop((it) => gone && it.kind === gone.kind && it.n === gone.n);
  }

  /** A half-move takes away every takeback, and what its player's opponent offers.
   * @param {string} opponent */
  moved(opponent) {
    this.drop((it) => it.kind === "takeback" || it.who === opponent);
  }

  /** The offers of others that somebody can answer, the earliest first.
   * @param {string} who */
  openTo(who) {
    return this.standing.filter((it) => it.who !== who
      && !this.standing.some((own) => own.who === who && own.kind === it.kind && own.n === it.n));
  }

  /** @param {string} who */
  firstFor(who) {
    return this.openTo(who)[0];
  }
}

/** What is offered, in words.
 * @param {Offer} offer */
export function offerInWords(offer) {
  return t(`offer.${offer.kind}`, { n: offer.n });
}

/** The line that accepts an offer. It offers the same, and so can't be taken for the answer to another offer.
 * @param {Offer} offer */
export function acceptance(offer) {
  return offer.kind === "takeback" ? `takeback ${offer.n}` : offer.kind;
}
