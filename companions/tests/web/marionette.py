"""Firefox as Selenium drives it, without a program between the two, which Debian doesn't have: Firefox answers by
Marionette, its own protocol, over TCP. Of it as much as the tests need."""

import json
import shutil
import socket
import subprocess
import tempfile
from pathlib import Path
from typing import Any

from tests.kit.ports import free_port
from tests.kit.running import wait_until

# the last word but one lets us run scripts in the browser itself
COMMAND = ("/usr/bin/firefox-esr", "--headless", "--marionette", "--remote-allow-system-access", "--profile")
STARTS_WITHIN = 120  # seconds
# Selenium's names of commands, and Marionette's
NAMES = {
    "newSession": "WebDriver:NewSession",
    "setTimeouts": "WebDriver:SetTimeouts",
    "get": "WebDriver:Navigate",
    "goBack": "WebDriver:Back",
    "refresh": "WebDriver:Refresh",
    "getCurrentUrl": "WebDriver:GetCurrentURL",
    "getTitle": "WebDriver:GetTitle",
    "newWindow": "WebDriver:NewWindow",
    "switchToWindow": "WebDriver:SwitchToWindow",
    "close": "WebDriver:CloseWindow",
    "w3cGetCurrentWindowHandle": "WebDriver:GetWindowHandle",
    "w3cGetWindowHandles": "WebDriver:GetWindowHandles",
    "findElement": "WebDriver:FindElement",
    "findElements": "WebDriver:FindElements",
    "clickElement": "WebDriver:ElementClick",
    "clearElement": "WebDriver:ElementClear",
    "sendKeysToElement": "WebDriver:ElementSendKeys",
    "getElementText": "WebDriver:GetElementText",
    "getElementRect": "WebDriver:GetElementRect",
    "getElementAttribute": "WebDriver:GetElementAttribute",
    "w3cExecuteScript": "WebDriver:ExecuteScript",
    "actions": "WebDriver:PerformActions",
    "clearActionState": "WebDriver:ReleaseActions",
    "screenshot": "WebDriver:TakeScreenshot",
    "setContext": "Marionette:SetContext",
}


class Marionette:
    """The connection to a Firefox of its own, by which Selenium's commands are executed."""

    def __init__(self) -> None:
        self.folder = tempfile.mkdtemp(prefix="firefox.")
        port = free_port()
        Path(self.folder, "user.js").write_text(f'user_pref("marionette.port", {port});\n')
        self.process = subprocess.Popen([*COMMAND, self.folder], stdout=subprocess.DEVNULL, stderr=subprocess.DEVNULL)
        if not wait_until(lambda: self.connects(port), seconds=STARTS_WITHIN):
            raise TimeoutError("Firefox doesn't start")
        self.last = 0
        self.read()  # its greeting

    def connects(self, port: int) -> bool:
        try:
            self.file = socket.create_connection(("127.0.0.1", port)).makefile("rwb")
        except OSError:
            return False
        return True

    def read(self) -> Any:
        """One message: its length, a colon, and JSON."""
        size = b""
        while not size.endswith(b":"):
            if not (byte := self.file.read(1)):
                raise ConnectionError("Firefox has ended")
            size += byte
        return json.loads(self.file.read(int(size[:-1])))

    def ask(self, name: str, fields: dict[str, Any]) -> tuple[Any, Any]:
        """The error of a command, or None, and its result."""
        self.last += 1
        text = json.dumps([0, self.last, name, fields]).encode()
        self.file.write(b"%d:%s" % (len(text), text))
        self.file.flush()
        _, number, error, result = self.read()
        assert number == self.last, f"the answer {number} to the question {self.last}"
        return error, result

    def execute(self, command: str, fields: dict[str, Any] | None) -> dict[str, Any]:
        """What Selenium calls."""
        fields = {key: value for key, value in (fields or {}).items() if key != "sessionId"}
        if command == "newSession":
            fields = fields["capabilities"]["alwaysMatch"]
        error, result = self.ask(NAMES[command], fields)
        if error:
            return {"status": error["error"], "value": error["message"]}
        is_wrapped = isinstance(result, dict) and set(result) == {"value"}
        return {"value": result["value"] if is_wrapped else result}

    def end(self) -> None:
        self.process.kill()
        self.process.wait()
        shutil.rmtree(self.folder, ignore_errors=True)
