/** The offers at the board that is shown, each with buttons that name what they answer. */

import { showRows } from "../shell/list.js";
import { acceptance, offerInWords } from "../game/offers.js";
import { t } from "../shell/texts.js";

/** @param {Game} game @param {Offer} offer @param {string} me */
function buttonsFor(game, offer, me) {
  const what = offerInWords(offer);
  const accept = {
    label: t("offer.accept", { what }), name: t("offer.accept-from", { what, who: offer.who }),
    command: acceptance(offer), at: game.number,
  };
  const decline = { label: t("offer.decline", { what }), command: "decline", at: game.number };
  return game.offers.firstFor(me) === offer ? [accept, decline] : [accept];
}

/** The server turns down the earliest offer only, so only that one has a button for it.
 * @param {HTMLElement} list @param {Game} game @param {string} me */
export function showOffers(list, game, me) {
  const open = game.role === "mine" ? game.offers.openTo(me) : [];
  showRows(list, game.offers.standing.map((offer) => {
    const what = offerInWords(offer);
    const buttons = open.includes(offer) ? buttonsFor(game, offer, me) : [];
    return {
      key: `${game.number} ${offer.who} ${offer.kind} ${offer.n} ${buttons.length}`,
      text: offer.who === me ? t("offer.yours", { what }) : t("offer.theirs", { who: offer.who, what }),
      buttons,
    };
  }));
}
