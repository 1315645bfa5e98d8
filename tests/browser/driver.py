"""A real browser, by WebDriver: the few calls that the tests need, over Python's own library."""

import base64
import json
import subprocess
import urllib.error
import urllib.request
from pathlib import Path

ELEMENT = "element-6066-11e4-a52e-4f735466cecf"  # the name that the standard gives to an element
OPTIONS = {"browserName": "chrome", "goog:loggingPrefs": {"browser": "ALL"},
           "goog:chromeOptions": {"args": ["--headless=new", "--no-sandbox", "--disable-dev-shm-usage", "--hide-scrollbars"]}}
SECONDS = 60


class Browser:
    """A browser that is started and ended as a context."""

    def __enter__(self):
        self.driver = subprocess.Popen(["chromedriver", "--port=0"], stdout=subprocess.PIPE, text=True)
        try:
            self.address = f"http://127.0.0.1:{self._port()}"
            answer = self._call("POST", "/session", {"capabilities": {"alwaysMatch": OPTIONS}})
        except BaseException:
            self._end()
            raise
        self.address += f"/session/{answer['sessionId']}"
        return self

    def __exit__(self, *_):
        try:
            self._call("DELETE", "")
        finally:
            self._end()

    def _end(self):
        self.driver.terminate()
        self.driver.communicate()

    def _port(self) -> int:
        """The port that the driver says it has taken."""
        for line in self.driver.stdout:
            if "on port" in line and "successfully" in line:
                return int(line.rstrip(".\n").split()[-1])
        raise OSError("the driver did not start")

    def _call(self, method: str, path: str, body=None):
        data = None if body is None else json.dumps(body).encode()
        request = urllib.request.Request(self.address + path, data, {"Content-Type": "application/json"}, method=method)
        try:
            with urllib.request.urlopen(request, timeout=SECONDS) as answer:
                return json.load(answer)["value"]
        except urllib.error.HTTPError as error:
            raise AssertionError(json.load(error)["value"]["message"]) from None

    def _command(self, name: str, **values):
        """A command of the browser's own protocol."""
        return self._call("POST", "/goog/cdp/execute", {"cmd": name, "params": values})

    def open(self, path: Path) -> None:
        self._call("POST", "/url", {"url": path.resolve().as_uri()})

    def run(self, script: str, *values):
        """What a script returns."""
        return self._call("POST", "/execute/sync", {"script": script, "args": list(values)})

    def click(self, selector: str) -> None:
        """A click where a person would click: it fails where something else is in the way."""
        found = self._call("POST", "/element", {"using": "css selector", "value": selector})
        self._call("POST", f"/element/{found[ELEMENT]}/click", {})

    def size(self, width: int, height: int, phone: bool = False) -> None:
        self._command("Emulation.setDeviceMetricsOverride", width=width, height=height,
                      deviceScaleFactor=1, mobile=phone)

    def media(self, name: str) -> None:
        """The page as for "screen" or for "print"."""
        self._command("Emulation.setEmulatedMedia", media=name)

    def script(self, on: bool) -> None:
        """Whether pages that are opened from now on may run their scripts."""
        self._command("Emulation.setScriptExecutionDisabled", value=not on)

    def errors(self) -> list:
        """What stands in the console as an error or a warning, since it was last asked."""
        return [entry["message"] for entry in self._call("POST", "/se/log", {"type": "browser"})
                if entry["level"] in ("SEVERE", "WARNING")]

    def picture(self) -> bytes:
        return base64.b64decode(self._call("GET", "/screenshot"))

    def paper(self) -> bytes:
        """The page as a PDF."""
        return base64.b64decode(self._call("POST", "/print", {"background": False}))
