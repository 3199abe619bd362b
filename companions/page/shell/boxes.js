/** Boxes that lie over the page: dialogs that are opened by a button, and closed by theirs or by Escape. */

import { around, byId } from "./elements.js";

/** Opens a dialog by a button. What is modal keeps all else away meanwhile.
 * @param {string} buttonId @param {DialogId} dialogId @param {{ isModal?: boolean, opened?: () => void }} [how] */
export function openBy(buttonId, dialogId, how = {}) {
  const { isModal = true, opened } = how;
  byId(buttonId).addEventListener("click", () => toggle(dialogId, isModal, opened));
}

/** Opens a dialog, or closes it where it is open.
 * @param {DialogId} dialogId @param {boolean} isModal @param {() => void} [opened] */
export function toggle(dialogId, isModal, opened = () => {}) {
  const dialog = byId(dialogId);
  if (dialog.open) {
    dialog.close();
    return;
  }
  if (isModal) {
    dialog.showModal();
  } else {
    dialog.show();
  }
  opened();
}

/** Closes what is open of these dialogs.
 * @param {...DialogId} ids */
export function closeBoxes(...ids) {
  ids.forEach((it) => byId(it).open && byId(it).close());
}

/** `data-closes` names the dialog that a button closes; a click beside a modal dialog closes it too, where nothing
 * is asked by it.
 * @param {...string} lightly */
export function listenForBoxes(...lightly) {
  document.addEventListener("click", (event) => {
    const button = around(event, "[data-closes]");
    const { target } = event;
    if (button) {
      byId(/** @type {DialogId} */ (button.dataset.closes)).close();
    } else if (target instanceof HTMLDialogElement && lightly.includes(target.id)) {
      closeWhereBeside(target, event);
    }
  });
}

/** @param {HTMLDialogElement} dialog @param {MouseEvent} event */
function closeWhereBeside(dialog, { clientX, clientY }) {
  const { left, right, top, bottom } = dialog.getBoundingClientRect();
  if (clientX < left || clientX > right || clientY < top || clientY > bottom) {
    dialog.close();
  }
}
