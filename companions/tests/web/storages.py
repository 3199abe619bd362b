"""What a page has written down in the browser, of which no word may be a password."""

import json
from typing import TYPE_CHECKING, Any

from ficslink import stamps

if TYPE_CHECKING:
    from .browser import Window

LEAVES = "/icon.svg"  # of the same origin, so that its storages are seen behind the page
HIDES = """if (location.origin !== arguments[0]) { return false; }
window.dispatchEvent(new PageTransitionEvent("pagehide")); return true;"""
STORAGES = """return [localStorage, sessionStorage].flatMap((it) => Object.entries(it)).flat()
  .concat(document.cookie, JSON.stringify(history.state), window.name)"""


def texts_of(it: Any) -> list[str]:
    """All texts within what was written down, also where it is JSON within JSON."""
    if isinstance(it, dict):
        return [text for pair in it.items() for part in pair for text in texts_of(part)]
    if isinstance(it, list):
        return [text for part in it for text in texts_of(part)]
    if not isinstance(it, str):
        return []
    try:
        within = json.loads(it)
    except ValueError:
        within = None
    return [it, *texts_of(within)] if within != it else [it]


def read(text: str) -> str:
    """A text, with what a stamped line says in plain words."""
    stamped = stamps.text_of(text.encode("latin-1", "replace"))
    return text if stamped is None else f"{text} {stamped.decode('latin-1')}"


def written(window: "Window") -> list[str]:
    """All that stands in the storages."""
    return [read(it) for it in texts_of(window.script(STORAGES))]


def stored(window: "Window") -> list[str]:
    """All that a page has written down, once it is left."""
    window.front()
    window.driver.get(window.origin + LEAVES)
    return written(window)


def check(window: "Window") -> None:
    """None of the passwords that were typed in a window is in the browser's storages, with what the page writes down as
    it is left."""
    if window.script(HIDES, window.origin):
        found = [(secret, it) for it in written(window) for secret in window.secrets if secret in it]
        assert not found, found
