/** The drawings of icons.svg. A browser asks for another file anew whenever an element is made that refers to it, so
 * the page takes the drawings into itself once, and what is made from then on refers to those. */

const OWN = "icon-"; // before the names of those that were taken in

/** Where the file is, from whichever address the page was opened: the page's head names it. */
function file() {
  return /** @type {HTMLLinkElement} */ (document.getElementById("drawings")).href;
}

/** Takes them in. Where they don't come, each is drawn from the file. */
export async function takeInDrawings() {
  try {
    const answer = await fetch(file());
    const drawings = new DOMParser().parseFromString(await answer.text(), "image/svg+xml").documentElement;
    drawings.querySelectorAll("symbol").forEach((it) => { it.id = OWN + it.id; });
    drawings.setAttribute("hidden", "");
    drawings.setAttribute("aria-hidden", "true");
    document.body.append(drawings);
  } catch {
    // the file is asked for again with each drawing
  }
}

/** What refers to a drawing.
 * @param {string} name */
export function drawingAt(name) {
  return document.getElementById(OWN + name) ? `#${OWN}${name}` : `${file()}#${name}`;
}
