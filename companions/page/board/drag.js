/** Men are moved by the pointer: by a drag from a square or a hand to a square, or by a click on each. */

const FAR = 5; // pixels from which on it is a drag

/** @param {EventTarget | null} target */
function place(target) {
  const it = target instanceof Element ? target.closest("[data-square], [data-drop]") : null;
  return it instanceof HTMLElement ? { element: it, square: it.dataset.square, drop: it.dataset.drop } : null;
}

export class Drag {
  /** `mayLift(place)` says whether a man may be lifted there; `lifted` gets the place where a drag begins, `moved(from,
   * to)` both places of it, and `clicked` the place of a click.
   * @param {HTMLElement} root @param {DragListeners} listeners */
  constructor(root, { mayLift, lifted, moved, clicked }) {
    this.root = root;
    this.mayLift = mayLift;
    this.lifted = lifted;
    this.moved = moved;
    root.addEventListener("pointerdown", (event) => this.press(event));
    root.addEventListener("click", (event) => {
      const at = place(event.target);
      if (at) {
        clicked(at);
      }
    });
    root.addEventListener("dragstart", (event) => event.preventDefault());
  }

  /** @param {PointerEvent} event */
  press(event) {
    const from = place(event.target);
    if (event.button !== 0 || !from || !this.mayLift(from)) {
      return;
    }
    const drawing = from.element.querySelector("svg");
    const lifted = { from, drawing, x: event.clientX, y: event.clientY, isFar: false };
    /** @param {PointerEvent} it */
    const go = (it) => this.go(lifted, it);
    /** @param {PointerEvent} it */
    const stop = (it) => {
      window.removeEventListener("pointermove", go);
      window.removeEventListener("pointerup", stop);
      window.removeEventListener("pointercancel", stop);
      this.drop(lifted, it);
    };
    window.addEventListener("pointermove", go);
    window.addEventListener("pointerup", stop);
    window.addEventListener("pointercancel", stop);
  }

  /** @param {Lifted} lifted @param {PointerEvent} event */
  go(lifted, event) {
    const x = event.clientX - lifted.x;
    const y = event.clientY - lifted.y;
    if (!lifted.isFar && Math.hypot(x, y) > FAR) {
      lifted.isFar = true;
      lifted.from.element.classList.add("lifting");
      this.lifted(lifted.from);
    }
    if (lifted.isFar && lifted.drawing) {
      lifted.drawing.classList.add("lifted");
      lifted.drawing.style.transform = `translate(${x}px, ${y}px)`;
    }
  }

  /** @param {Lifted} lifted @param {PointerEvent} event */
  drop(lifted, event) {
    lifted.from.element.classList.remove("lifting");
    if (lifted.drawing) {
      lifted.drawing.classList.remove("lifted");
      lifted.drawing.style.transform = "";
    }
    if (!lifted.isFar || event.type === "pointercancel") {
      return;
    }
    const to = place(document.elementFromPoint(event.clientX, event.clientY));
    if (to?.square && this.root.contains(to.element) && to.element !== lifted.from.element) {
      this.moved(lifted.from, to);
    }
  }
}
