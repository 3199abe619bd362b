"""Pictures of the page, for whoever looks at them: where `--pictures` names a folder they are put there, at five sizes,
light and dark. Of those that docs/WEB.md shows a sheet has all ten, light above dark."""

import base64
from pathlib import Path

from tests.kit import paths

from .browser import NARROW, WIDE, Size, Window

LOW = (844, 390)
WIDTHS = (NARROW, LOW, (820, 1180), WIDE, (1920, 1080))
SCHEMES = {"": "light", "-dark": "dark"}  # by how the names end
SHEET = """<title>{name}</title><style>
body {{ margin: 0; padding: {gap}px; display: inline-flex; flex-direction: column; gap: {gap}px; background: #808080; }}
div {{ display: flex; gap: {gap}px; }}
img {{ height: {height}px; }}
</style>{rows}"""
GAP, HEIGHT = 8, 320
DOCUMENTED = {"web": (1180, 720), "lobby": (1180, 900), "archive": (1180, 720)}


def take(folder: Path, window: Window, name: str, sizes: tuple[Size, ...] = WIDTHS) -> None:
    """Pictures of those sizes, with the mouse on nothing. For eyes alone are the dark ones, and the wait until no
    notice is on them."""
    window.leave_alone()
    if paths.pictures:
        window.until(lambda: not window.is_seen("#notice"), "without a notice")
    for ending, scheme in SCHEMES.items() if paths.pictures else [("", "light")]:
        window.front()
        window.browser.prefer_scheme(scheme)
        for size in sizes:
            take_one(folder, window, f"{name}-{size[0]}{ending}", size)
    window.browser.prefer_scheme(None)
    window.resize(WIDE)


def take_one(folder: Path, window: Window, name: str, size: Size) -> None:
    window.resize(size)
    path = folder / f"{name}.png"
    window.picture(path)
    assert path.stat().st_size > 5000


def document(folder: Path, window: Window, name: str) -> None:
    """A picture of docs/, of a size of its own, with the mouse on nothing."""
    window.leave_alone()
    take_one(folder, window, name, DOCUMENTED[name])
    window.resize(WIDE)


def take_sheet(folder: Path, window: Window, name: str) -> None:
    """Pictures of all sizes, and in `looks` the sheet of them; Chromium alone writes it."""
    take(folder, window, name)
    if paths.pictures and paths.browser == "chromium":
        rows = [[folder / f"{name}-{width}{ending}.png" for width, _ in WIDTHS] for ending in SCHEMES]
        looks = folder / "looks"
        looks.mkdir(exist_ok=True)
        page = looks / f"{name}.html"
        page.write_text(sheet_of(name, rows), encoding="utf-8")
        looks.joinpath(f"{name}.webp").write_bytes(drawn(window, page))
        page.unlink()


def sheet_of(name: str, rows: list[list[Path]]) -> str:
    made = "".join(f"<div>{''.join(f'<img src={it.as_uri()}>' for it in row)}</div>" for row in rows)
    return SHEET.format(name=name, rows=made, gap=GAP, height=HEIGHT)


def drawn(window: Window, page: Path) -> bytes:
    """A file of HTML as a picture, drawn in a window of its own."""
    window.front()
    driver = window.driver
    driver.switch_to.new_window("tab")
    try:
        driver.get(page.as_uri())
        width, height = driver.execute_script(
            "const { width, height } = document.body.getBoundingClientRect(); return [width, height];"
        )
        clip = {"x": 0, "y": 0, "width": width, "height": height, "scale": 1}
        words = {"format": "webp", "quality": 80, "clip": clip, "captureBeyondViewport": True}
        return base64.b64decode(driver.execute_cdp_cmd("Page.captureScreenshot", words)["data"])
    finally:
        driver.close()
        driver.switch_to.window(window.handle)
