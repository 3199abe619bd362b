"""Windows of Chromium or Firefox without a screen, each with the page, used as a member does: by mouse and keyboard."""

from collections.abc import Callable, Iterable
from pathlib import Path
from typing import Any, Protocol, TypeVar

from selenium.webdriver.common.action_chains import ActionChains
from selenium.webdriver.common.actions.action_builder import ActionBuilder
from selenium.webdriver.common.by import By
from selenium.webdriver.common.keys import Keys
from selenium.webdriver.remote.webdriver import WebDriver
from selenium.webdriver.remote.webelement import WebElement

from tests.kit import paths
from tests.kit.go_between import GoBetween
from tests.kit.running import Server, wait_until

from . import storages
from .chromium import Chromium
from .firefox import Firefox
from .plain import Plain

Size = tuple[int, int]
T = TypeVar("T")

PATIENCE = 120  # seconds
WIDE, NARROW = (1280, 900), (390, 844)


class Browser(Protocol):
    """What shows the page; its words go to the window that the driver has in front."""

    driver: WebDriver

    def open(self) -> None:
        """A new window."""

    def resize(self, size: Size) -> None:
        """Makes the window as wide and high as a screen."""

    def prefer_scheme(self, scheme: str | None) -> None:
        """Light or dark, as if the system had it; None for what it has."""

    def to_page(self) -> None:
        """Brings the keyboard back to the page, where Tab has led it to what the browser has around that."""

    def has_fingers(self) -> None:
        """From now on there are fingers."""

    def nameless(self) -> list[Any]:
        """The controls, and what else is named, of which a screen reader has no name."""

    def complaints(self) -> list[str]:
        """What pages have complained of since this was asked last."""

    def end(self) -> None:
        """Ends it with all windows."""


class Served(Protocol):
    """Where the page is served."""

    def address(self, path: str = "/") -> str:
        """The address of a path."""


def started(size: Size) -> Browser:
    """A browser of the kind that `--browser` names."""
    return Firefox(size) if paths.browser == "firefox" else Chromium(size)


# the first such element that is seen; what a field offers is seen with the field
SEEN = """return [...document.querySelectorAll(arguments[0])].find((it) => {
  const shown = it.closest("select") ?? it;
  const { width, height } = shown.getBoundingClientRect();
  return width && height && shown.checkVisibility({ opacityProperty: true, visibilityProperty: true });
}) ?? null;"""

# what is told of a page where something isn't seen
STATE = """const text = (id) => document.getElementById(id)?.textContent;
return { address: location.href, began: performance.getEntriesByType("navigation").map((it) => it.type),
  view: document.body.dataset.view, name: document.getElementById("login-name")?.value, notice: text("notice"),
  bar: text("way-back"), status: text("status"), calls: text("calls"),
  files: performance.getEntriesByType("resource").length };"""


class Window:
    """One window with the page, in which a member is, or is about to be."""

    in_front: str | None = None  # the handle of the one to which the driver's words go, where that is known

    def __init__(self, browser: Browser, address: str, name: str) -> None:
        self.browser, self.name = browser, name
        self.secrets: set[str] = set()  # the passwords that were typed in it
        self.driver = self.browser.driver
        self.origin = "/".join(address.split("/")[:3])
        Window.in_front = None
        self.browser.open()
        self.handle = Window.in_front = self.driver.current_window_handle
        self.driver.get(address)

    def enter(self, password: str | None = None) -> None:
        """Comes in under the name."""
        self.write("login-name", self.name)
        if password:
            self.write("login-password", password)
        self.click("#enter")
        self.until(lambda: self.text("#me") == self.name, "is in")

    # ---- what is there ----

    def front(self) -> None:
        if Window.in_front != self.handle:
            self.driver.switch_to.window(self.handle)
            Window.in_front = self.handle

    def script(self, text: str, *words: object) -> Any:
        self.front()
        return self.driver.execute_script(text, *words)

    def all(self, css: str) -> list[WebElement]:
        self.front()
        return self.driver.find_elements(By.CSS_SELECTOR, css)

    def text(self, css: str) -> Any:
        """The text of the first such element, whether it is seen or not; none where there is no such element."""
        return self.script("return document.querySelector(arguments[0])?.textContent", css)

    def texts(self, css: str) -> list[str]:
        return self.script("return [...document.querySelectorAll(arguments[0])].map((it) => it.textContent)", css)

    def seen(self, css: str) -> WebElement | None:
        """The first such element that is seen now, or None."""
        return self.script(SEEN, css)

    def is_seen(self, css: str) -> bool:
        return self.seen(css) is not None

    def man(self, square: str, board: str = "main") -> str:
        """The man on a square, as `wN`; an empty text where there is none."""
        return self.script(
            "return document.querySelector(arguments[0])?.dataset.man ?? ''",
            f'[data-board="{board}"] [data-square="{square}"]',
        )

    def men(self, board: str = "main") -> dict[str, str]:
        """All men of a board by their squares."""
        return self.script(
            """return Object.fromEntries([...document.querySelectorAll(arguments[0])]
            .map((it) => [it.dataset.square, it.dataset.man]))""",
            f'[data-board="{board}"] [data-man]',
        )

    def hand(self, colour: str, table: str = "main-table") -> str:
        """The letters in a hand."""
        return self.script(
            """return [...document.querySelectorAll(arguments[0])]
            .map((it) => it.dataset.drop.repeat(Number(it.dataset.count))).join('')""",
            f'#{table} [data-hand="{colour}"] [data-drop]',
        )

    def until(self, holds: Callable[[], T], what: str) -> T:
        """Waits until that holds, and gives what it gave."""
        found: list[T] = []

        def is_found() -> bool:
            found[:] = [holds()]
            return bool(found[0])

        if not wait_until(is_found, seconds=PATIENCE):
            state = self.script(STATE)
            raise AssertionError(f"{self.name}: not seen: {what}; {state}, {self.browser.complaints()}")
        return found[0]

    def sees_man(self, man: str, square: str, board: str = "main") -> None:
        self.until(lambda: self.man(square, board) == man, f"{man or 'nothing'} on {square}")

    def sees(self, words: str, css: str) -> None:
        """Waits until an element has these words."""
        self.until(lambda: any(words in it for it in self.texts(css)), f"{words!r} in {css}")

    # ---- what is done ----

    def element(self, css: str) -> WebElement:
        """The first such element that is seen, once there is one."""
        return self.until(lambda: self.seen(css), css)

    def click(self, css: str) -> None:
        self.element(css).click()

    def write(self, field: str, text: str) -> None:
        if field.endswith("password"):
            self.secrets.add(text)
        element = self.element(f"#{field}")
        element.clear()
        element.send_keys(text)

    def choose(self, field: str, value: str) -> None:
        self.click(f'#{field} option[value="{value}"]')

    def square(self, name: str) -> WebElement:
        return self.element(f'[data-board="main"] [data-square="{name}"]')

    def move(self, start: str, end: str) -> None:
        """A move by two clicks."""
        self.square(start).click()
        self.square(end).click()

    def drag(self, start: str, end: str) -> None:
        """A move by a drag."""
        self.drag_to(self.square(start), end)

    def drag_to(self, man: WebElement, square: str) -> None:
        acts = ActionChains(self.driver).move_to_element(man).click_and_hold().move_by_offset(4, 4)
        acts.move_to_element(self.square(square)).release().perform()

    def leave_alone(self) -> None:
        """The mouse is upon nothing that shows it."""
        self.front()
        acts = ActionBuilder(self.driver)
        acts.pointer_action.move_to_location(0, 0)
        acts.perform()

    def press(self, *keys: str) -> None:
        """Keys, as they are pressed where the focus is; all but Tab are for the page."""
        self.front()
        if Keys.TAB not in keys:
            self.browser.to_page()
        ActionChains(self.driver).send_keys(*keys).perform()

    def drop(self, colour: str, kind: str, square: str) -> None:
        """A man from the hand, by a drag."""
        self.drag_to(self.element(f'#main-table [data-hand="{colour}"] [data-drop="{kind}"]'), square)

    def type(self, word: str) -> None:
        """A move by its word."""
        self.write("move", word)
        self.click("#move-send")

    def view(self, name: str) -> None:
        """Goes to the lobby, the board or the talk; where there is room for the talk it is seen beside them."""
        if self.is_seen(f'#ways [data-view="{name}"]'):
            self.click(f'#ways [data-view="{name}"]')

    def open(self, box: str, key: str) -> None:
        """Opens a box by its key, where it isn't open."""
        if not self.is_seen(f"#{box}"):
            self.click(key)

    def shut(self, box: str) -> None:
        """Closes a box that is open."""
        self.click(f'#{box} [data-closes="{box}"]')

    def prefer(self, name: str) -> None:
        """Changes what is preferred at the board."""
        self.open("settings", "#settings-open")
        self.click(f'#preferences [data-prefer="{name}"]')
        self.shut("settings")

    def say(self, text: str, room: str | None = None) -> None:
        """Says something, in the room behind that tab."""
        self.view("talk")
        if room:
            self.click(f'#rooms [data-room="{room}"]')
        self.write("talk-text", text)
        self.click("#talk-send")

    def command(self, line: str) -> None:
        """Any line, in the box of commands, which is closed behind it."""
        if line.startswith("register "):
            self.secrets.add(line.partition(" ")[2])
        self.open("commands", "#commands-open")
        self.write("command", line)
        self.click("#command-send")
        self.click("#commands-close")

    def terms(self) -> None:
        """Opens the box of own terms."""
        if not self.is_seen("#terms"):
            self.view("lobby")
            self.click("#own-terms")

    def challenge(
        self, other: str, variant: str = "chess", minutes: int = 5, increment: int = 0, colour: str = "white"
    ) -> None:
        """Challenges somebody by the box of own terms."""
        self.terms()
        self.write("minutes", str(minutes))
        self.write("increment", str(increment))
        self.choose("variant", variant)
        self.choose("colour", colour)
        self.write("match-name", other)
        self.click("#match")

    def complaints(self) -> list[str]:
        """What the page has complained of in the browser's log; pages of other go-betweens have done so too."""
        self.front()
        return [it for it in self.browser.complaints() if self.origin in it or "http://" not in it]

    def resize(self, size: Size) -> None:
        """Makes the window as wide and high as a screen."""
        self.front()
        self.browser.resize(size)

    def picture(self, path: Path) -> None:
        self.front()
        self.driver.save_screenshot(str(path))

    def close(self) -> None:
        """Closes the window, as one does with a tab, without a word to the page."""
        self.front()
        Window.in_front = None
        self.driver.close()
        self.driver.switch_to.window(self.driver.window_handles[0])


class Evening:
    """A server that plays, a go-between before it, windows with the page, and players without one."""

    def __init__(self, browser: Browser, server: Server, go_between: GoBetween) -> None:
        self.browser, self.server, self.go_between = browser, server, go_between
        self.windows: list[Window] = []
        self.plains: dict[str, Plain] = {}

    def end(self) -> None:
        for window in self.windows:
            if window.handle in window.driver.window_handles:
                try:
                    if window.secrets:
                        storages.check(window)
                finally:
                    window.close()
        for link in self.plains.values():
            link.close()

    def window(
        self, name: str, password: str | None = None, enters: bool = True, path: str = "/", at: Served | None = None
    ) -> Window:
        """A window with the page, of the go-between where it isn't served elsewhere."""
        window = Window(self.browser, (at or self.go_between).address(path), name)
        self.windows.append(window)
        if enters:
            window.enter(password)
        return window

    def plain(self, name: str) -> Plain:
        """A player without a page."""
        if name not in self.plains:
            self.plains[name] = Plain(self.server.port, name)
        return self.plains[name]

    def game(self, variant: str = "chess", **terms: Any) -> tuple[Window, Window]:
        """Windows of Ann, who has White, and Ben, who are in a game."""
        ann, ben = self.window("Ann"), self.window("Ben")
        self.begin(ann, ben, variant, **terms)
        return ann, ben

    @staticmethod
    def begin(white: Window, black: Window, variant: str = "chess", **terms: Any) -> None:
        """Begins a game by the form and by the button of the challenge."""
        white.challenge(black.name, variant, **terms)
        black.click(f'#calls [data-command="accept {white.name}"]')
        for it in (black, white):  # who has answered tells more where there is no game
            it.until(lambda: len(it.men()) == 32 and it.is_seen("#board"), "the board")

    @staticmethod
    def play(white: Window, black: Window, words: Iterable[str]) -> None:
        """Half-moves by two clicks, in turn, as `e2e4`; each is waited for at the other board."""
        for n, word in enumerate(words):
            mover, other = (white, black) if n % 2 == 0 else (black, white)
            start, end = word[:2], word[2:4]
            man = mover.until(lambda: mover.man(start), f"a man on {start}")
            mover.move(start, end)
            other.sees_man(man, end)
            other.sees_man("", start)

    @staticmethod
    def settle(window: Window, other: Window) -> None:
        """Waits until all that a window has sent was dealt with, and what came of it was told to another one: what it
        says then comes behind that."""
        window.command(f"tell {other.name} all of it")
        other.sees(f"{window.name}: all of it", "#said")
