"""What is looked at of a page without a mouse and without sight: the names of controls, what Tab reaches, contrasts,
and the room that is needed."""

from selenium.webdriver.common.keys import Keys

from .browser import NARROW, WIDE, Window

LEAST_CONTRAST, LEAST_OF_LARGE = 4.5, 3.0
MOST_TABS = 400

# all controls that are seen and not switched off, of a modal dialog where there is one; of a board's squares one is
# enough, since arrows reach the others
REACHABLE = """
const root = document.querySelector("dialog:modal") ?? document;
const seen = (it) => it.checkVisibility({ visibilityProperty: true }) && !it.disabled && !it.closest("[inert]");
const all = [...root.querySelectorAll("a[href], button, input, select, textarea, [tabindex='0']")].filter(seen);
window.reached = new Set();
return all.filter((it) => it.tabIndex >= 0).map((it) => it.outerHTML.slice(0, 160));
"""
UNREACHABLE = """
const seen = (it) => it.checkVisibility({ visibilityProperty: true }) && !it.disabled;
return [...document.querySelectorAll("a[href], button, input, select, textarea")]
    .filter((it) => seen(it) && it.tabIndex < 0 && !it.dataset.square).map((it) => it.outerHTML.slice(0, 160));
"""
FOCUSED = "return document.activeElement === document.body ? '' : document.activeElement.outerHTML.slice(0, 160)"

# the contrast of each text that is seen, as WCAG 2 has it, where it is too small
CONTRASTS = """
const [least, leastOfLarge] = arguments;
const canvas = new OffscreenCanvas(1, 1).getContext("2d", { willReadFrequently: true });
function rgba(colour) {
  canvas.clearRect(0, 0, 1, 1);
  canvas.fillStyle = colour;
  canvas.fillRect(0, 0, 1, 1);
  const [r, g, b, a] = canvas.getImageData(0, 0, 1, 1).data;
  return [r, g, b, a / 255];
}
const over = (top, below) => [0, 1, 2].map((n) => top[n] * top[3] + below[n] * (1 - top[3])).concat(1);
function ground(element) {
  const own = rgba(getComputedStyle(element).backgroundColor);
  const under = own[3] === 1 ? null : element.parentElement ? ground(element.parentElement) : rgba("Canvas");
  return under ? over(own, under) : own;
}
function light([r, g, b]) {
  const [x, y, z] = [r, g, b].map((it) => it / 255)
      .map((it) => it <= 0.04045 ? it / 12.92 : ((it + 0.055) / 1.055) ** 2.4);
  return 0.2126 * x + 0.7152 * y + 0.0722 * z;
}
function contrast(one, other) {
  const [a, b] = [light(one), light(other)].sort((x, y) => y - x);
  return (a + 0.05) / (b + 0.05);
}
function look(element, style, what) {
  const below = ground(element);
  const value = contrast(over(rgba(style.color), below), below);
  const size = parseFloat(style.fontSize);
  const isLarge = size >= 24 || (size >= 18.66 && Number(style.fontWeight) >= 700);
  const isEnough = value >= (isLarge ? leastOfLarge : least);
  return isEnough ? null : `${value.toFixed(2)} ${what} ${element.outerHTML.slice(0, 120)}`;
}
const bad = [];
for (const element of document.body.querySelectorAll("*")) {
  if (!element.checkVisibility({ visibilityProperty: true }) || element.closest("svg") || element.disabled) {
    continue;
  }
  const style = getComputedStyle(element);
  const isField = ["INPUT", "SELECT", "TEXTAREA"].includes(element.tagName);
  if (isField || [...element.childNodes].some((it) => it.nodeType === 3 && it.textContent.trim())) {
    bad.push(look(element, style, "text"));
  }
  if (element.placeholder) {
    bad.push(look(element, getComputedStyle(element, "::placeholder"), "placeholder"));
  }
  for (const part of ["::before", "::after"]) {
    const made = getComputedStyle(element, part);
    if (!["none", "normal", '""'].includes(made.content)) {
      bad.push(look(element, made, part));
    }
  }
}
return bad.filter(Boolean);
"""
# what the system has, what the member has chosen, and which board
DRESSED = (
    ("light", "auto", "meadow"),
    ("dark", "auto", "wood"),
    ("dark", "light", "wood"),
    ("light", "dark", "meadow"),
)
DRESSES = "Object.assign(document.documentElement.dataset, { theme: arguments[0], board: arguments[1] })"


def check_names(window: Window) -> None:
    window.front()
    assert window.browser.nameless() == []


def check_tabs(window: Window) -> None:
    """Tab goes to each control that is seen, the squares of a board aside, to which the arrows go."""
    assert window.script(UNREACHABLE) == []
    wanted = set(window.script(REACHABLE))
    window.script("document.activeElement.blur(); window.scrollTo(0, 0)")
    reached: set[str] = set()
    for _ in range(MOST_TABS):
        window.press(Keys.TAB)
        reached.add(window.script(FOCUSED))
        if wanted <= reached:
            break
    assert wanted - reached == set()


def check_contrasts(window: Window) -> None:
    """Both schemes, as the system has them and as the member chose against it; both boards."""
    for scheme, theme, board in DRESSED:
        window.front()
        window.browser.prefer_scheme(scheme)
        window.script(DRESSES, theme, board)
        assert window.script(CONTRASTS, LEAST_CONTRAST, LEAST_OF_LARGE) == [], (scheme, theme, board)
    window.script(DRESSES, "auto", "meadow")
    window.browser.prefer_scheme(None)


def check_fits(window: Window, what: object = None) -> None:
    """Nothing needs more than the narrow window that it is in."""
    assert window.script("return document.documentElement.scrollWidth") <= NARROW[0], what


def check_narrow(window: Window) -> None:
    window.resize(NARROW)
    check_fits(window)
    window.resize(WIDE)


def check_all(window: Window) -> None:
    check_names(window)
    check_contrasts(window)
    check_narrow(window)
    check_tabs(window)
