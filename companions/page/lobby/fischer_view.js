/** What the number of Fischer random is: the array that it stands for, drawn, beside the field. */

import { arrayOf, ARRAYS } from "../game/fischer.js";
import { drawing } from "../board/men.js";
import { t } from "../shell/texts.js";

/** Shows White's men of the array of that number, or nothing where there is none.
 * @param {HTMLElement} root @param {number} number */
export function showArray(root, number) {
  const isArray = Number.isInteger(number) && number >= 0 && number < ARRAYS;
  const kinds = isArray ? [...arrayOf(number)] : [];
  root.replaceChildren(...kinds.map((kind) => drawing(`w${kind}`)));
  root.setAttribute("role", "img");
  root.setAttribute("aria-label", isArray
    ? t("lobby.array", { number, men: kinds.map((kind) => t(`kind.${kind}`)).join(", ") }) : t("lobby.no-array"));
}

/** A number of an array by chance. */
export function anyArray() {
  return Math.floor(Math.random() * ARRAYS);
}
