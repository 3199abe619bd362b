/** Switches that have nothing shown of what somebody says. */

import { t } from "../shell/texts.js";

/** That of one player, whom the server keeps away too.
 * @param {string} who @param {boolean} isHidden
 * @returns {RowButton} */
export function hideButton(who, isHidden) {
  return { drawing: "hide", name: t("talk.hide", { who }), command: `${isHidden ? "-" : "+"}censor ${who}`,
    isPressed: isHidden };
}

/** That of all guests who have no name of their own.
 * @param {boolean} isHidden
 * @returns {RowButton} */
export function hideGuestsButton(isHidden) {
  return { drawing: "hide", name: t("talk.hide-guests"), prefers: "guests", isPressed: isHidden };
}
