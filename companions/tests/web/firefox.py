"""Firefox without a screen, and what only its own code does, which it runs for us: sizes, schemes, fingers, names and
complaints."""

import time
from pathlib import Path
from typing import Any

from selenium import webdriver

from tests.kit.running import wait_until

from .marionette import Marionette

TAB = "const tab = gBrowser.selectedBrowser, page = tab.browsingContext.top;"
# the page has the size that is wished for, however small the window around it may be
RESIZE = (
    TAB
    + """const [width, height] = arguments;
window.resizeTo(Math.max(width, 500), height + 150);
for (const [side, long] of [["width", width], ["height", height]]) {
  ["min-", "max-"].forEach((it) => tab.style.setProperty(it + side, `${long}px`));
}"""
)
SIZE = "return [innerWidth, innerHeight]"
RESIZES_WITHIN = 60  # seconds
PREFER_SCHEME = TAB + "page.prefersColorSchemeOverride = arguments[0];"
TO_PAGE = TAB + "tab.focus();"
HAS_FINGERS = TAB + "page.touchEventsOverride = 'enabled';"
SAVES_TO = """Services.prefs.setStringPref("browser.download.dir", arguments[0]);
Services.prefs.setIntPref("browser.download.folderList", 2);
Services.prefs.setBoolPref("browser.download.alwaysOpenPanel", false);"""
# all that a screen reader finds below the page, as [role, name, what it is]; none while it isn't built
TREE = (
    TAB
    + """const service = Cc["@mozilla.org/accessibilityService;1"].getService(Ci.nsIAccessibilityService);
const found = [];
const walk = (it) => {
  found.push([service.getStringRole(it.role), it.name ?? "", it.id ?? ""]);
  for (let n = 0; n < it.childCount; n += 1) {
    walk(it.getChildAt(n));
  }
};
const root = service.getAccessibleFor(tab);
if (root) {
  walk(root);
}
return found;"""
)
COMPLAINTS = """const all = Services.console.getMessageArray().filter((it) => it instanceof Ci.nsIScriptError);
Services.console.reset();
const isOurs = (it) => it.sourceName.startsWith("http://127.0.0.1:") && !(it.flags & Ci.nsIScriptError.warningFlag);
return all.filter(isOurs).map((it) => `${it.category}: ${it.errorMessage}, ${it.sourceName}:${it.lineNumber}`);"""
CONTROLS = {
    "pushbutton",
    "togglebutton",
    "link",
    "entry",
    "password text",
    "combobox",
    "checkbutton",
    "spinbutton",
    "listbox",
    "radiobutton",
    "slider",
    "menuitem",
}
BUILT_IN = 0.3  # seconds without a change, by which a tree counts as built: nothing else tells that it is


class Firefox:
    """The browser; its words go to the window that the driver has in front."""

    def __init__(self, size: tuple[int, int]) -> None:
        self.size = size
        self.link = Marionette()
        options = webdriver.FirefoxOptions()
        options.set_capability("unhandledPromptBehavior", "accept")
        self.driver = webdriver.Remote(command_executor=self.link, options=options)

    def inside(self, script: str, *words: object) -> Any:
        """Runs a script in the browser itself, not in the page."""
        self.driver.execute("setContext", {"value": "chrome"})
        try:
            return self.driver.execute_script(script, *words)
        finally:
            self.driver.execute("setContext", {"value": "content"})

    def open(self) -> None:
        self.driver.switch_to.new_window("window")
        self.resize(self.size)

    def resize(self, size: tuple[int, int]) -> None:
        """As for each browser; the page, which is in another process, has that size a little later."""
        self.inside(RESIZE, *size)
        if not wait_until(lambda: self.driver.execute_script(SIZE) == list(size), seconds=RESIZES_WITHIN):
            raise TimeoutError(f"the page is {self.driver.execute_script(SIZE)} wide and high, not {size}")

    def prefer_scheme(self, scheme: str | None) -> None:
        self.inside(PREFER_SCHEME, scheme or "none")

    def to_page(self) -> None:
        self.inside(TO_PAGE)

    def has_fingers(self) -> None:
        self.inside(HAS_FINGERS)

    def saves_to(self, folder: Path) -> None:
        """What pages save is put there from now on."""
        self.inside(SAVES_TO, str(folder))

    def nameless(self) -> list[Any]:
        tree, before = self.inside(TREE), None
        while not tree or tree != before:
            time.sleep(BUILT_IN)
            tree, before = self.inside(TREE), tree
        return [it for it in tree if it[0] in CONTROLS and not it[1].strip()]

    def complaints(self) -> list[str]:
        found: list[str] = self.inside(COMPLAINTS)
        return found

    def end(self) -> None:
        self.link.end()
