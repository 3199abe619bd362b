"""Chromium without a screen, and what only its own protocol does: sizes, schemes, fingers, names and complaints."""

from pathlib import Path
from typing import Any

from selenium import webdriver
from selenium.webdriver.chrome.service import Service

# the one without any window of its own takes a tenth of the other's time to start
PROGRAMS = ("/usr/lib/chromium/chromium-headless-shell", "/usr/bin/chromium")
DRIVER = "/usr/bin/chromedriver"
# a window behind another one goes on as it would in front
SWITCHES = (
    "--headless",
    "--no-sandbox",
    "--disable-dev-shm-usage",
    "--disable-gpu",
    "--in-process-gpu",
    "--disable-background-timer-throttling",
    "--disable-backgrounding-occluded-windows",
    "--disable-renderer-backgrounding",
)
# of controls, and of what a screen reader tells by a name: dialogs, the rooms of the talk, and drawings
NAMED = {
    "button",
    "link",
    "textbox",
    "combobox",
    "checkbox",
    "spinbutton",
    "listbox",
    "radio",
    "slider",
    "menuitem",
    "dialog",
    "alertdialog",
    "tab",
    "log",
    "img",
    "image",
}


class Chromium:
    """The browser; its words go to the window that the driver has in front."""

    def __init__(self, size: tuple[int, int]) -> None:
        options = webdriver.ChromeOptions()
        options.binary_location = next(it for it in PROGRAMS if Path(it).exists())
        for it in (*SWITCHES, f"--window-size={size[0]},{size[1]}"):
            options.add_argument(it)
        options.set_capability("unhandledPromptBehavior", "accept")
        options.set_capability("goog:loggingPrefs", {"browser": "ALL"})
        self.driver = webdriver.Chrome(options=options, service=Service(DRIVER))

    def open(self) -> None:
        """A new window, of the size of the first one."""
        self.driver.switch_to.new_window("window")

    def resize(self, size: tuple[int, int]) -> None:
        self.driver.execute_cdp_cmd(
            "Emulation.setDeviceMetricsOverride",
            {"width": size[0], "height": size[1], "deviceScaleFactor": 1, "mobile": size[0] < 500},
        )

    def prefer_scheme(self, scheme: str | None) -> None:
        """Light or dark, as if the system had it; None for what it has."""
        features = [{"name": "prefers-color-scheme", "value": scheme}] if scheme else []
        self.driver.execute_cdp_cmd("Emulation.setEmulatedMedia", {"features": features})

    def to_page(self) -> None:
        """Nothing is to be done: without a screen it has nothing around the page."""

    def has_fingers(self) -> None:
        self.driver.execute_cdp_cmd("Emulation.setTouchEmulationEnabled", {"enabled": True})

    def nameless(self) -> list[Any]:
        """The controls, and what else is named, of which a screen reader has no name."""
        nodes = self.driver.execute_cdp_cmd("Accessibility.getFullAXTree", {})["nodes"]
        return [
            it
            for it in nodes
            if not it["ignored"] and it["role"]["value"] in NAMED and not it.get("name", {}).get("value", "").strip()
        ]

    def complaints(self) -> list[str]:
        """What pages have complained of since this was asked last."""
        return [it["message"] for it in self.driver.get_log("browser") if it["level"] == "SEVERE"]

    def end(self) -> None:
        self.driver.quit()
