"""Real browsers, and the actions of a test in the page."""

from __future__ import annotations

import base64
import json
import os
import socket
import subprocess
import tempfile
import time
import urllib.request
from abc import ABC, abstractmethod
from pathlib import Path
from typing import Any

from selenium import webdriver
from selenium.webdriver.chrome.service import Service

SECONDS = 60
SCRIPT_SECONDS = 300


class Browser(ABC):
    """A browser without a window, with one page open."""

    @abstractmethod
    def run(self, script: str, *arguments: Any) -> Any:
        """Return the value of a script."""

    @abstractmethod
    def run_async(self, script: str, *arguments: Any) -> Any:
        """Return the value that a script passes to its last argument, a function."""

    @abstractmethod
    def go(self, url: str) -> None:
        """Open a page."""

    @abstractmethod
    def picture(self, path: Path) -> None:
        """Take a picture of the page."""

    @abstractmethod
    def close(self) -> None:
        """Close the browser."""

    def until(self, script: str, *arguments: Any) -> Any:
        """Wait until the value of a script is true, and return it."""
        end = time.monotonic() + SECONDS
        while not (value := self.run(script, *arguments)):
            if time.monotonic() > end:
                raise TimeoutError(script)
            time.sleep(0.02)
        return value

    def open(self, url: str) -> None:
        """Open the page, and wait for its first answer."""
        self.go(url)
        self.until("return document.body.dataset.rounds")

    def change(self, script: str, *arguments: Any) -> dict[str, Any]:
        """Run a script that changes the page, wait for the next answer, and return the content."""
        rounds = self.run("return document.body.dataset.rounds")
        self.run(script, *arguments)
        self.until("return document.body.dataset.rounds !== arguments[0]", rounds)
        return self.shown()

    def show(self, mode: str, example: int) -> dict[str, Any]:
        """Choose a mode and an example, as a user does."""
        if self.run("return document.body.dataset.mode") != mode:
            self.change("document.querySelector('input[value=' + arguments[0] + ']').click()", mode)
        return self.change(
            "const it = document.getElementById('example'); it.selectedIndex = arguments[0];"
            "it.dispatchEvent(new Event('change'))",
            example,
        )

    def put(self, texts: dict[str, str]) -> dict[str, Any]:
        """Put texts into fields, as a paste does."""
        return self.change(
            "for (const [id, text] of Object.entries(arguments[0])) {"
            " const it = document.getElementById(id); it.value = text;"
            " it.dispatchEvent(new Event('input')); }",
            texts,
        )

    def shown(self) -> dict[str, Any]:
        """Return the verdict, the faults and the visible content of the page."""
        value: dict[str, Any] = self.run(
            """const text = id => document.getElementById(id).textContent; return { kind:
            document.getElementById('told').className.split(' ').pop(), verdict: text('verdict'),
            checked: text('checked'), remedy: text('remedy'), faults:
            [...document.querySelectorAll('[aria-invalid=true]')].map(it => it.id), fault:
            [...document.querySelectorAll('.fault')].map(it => it.textContent).join(''), nodes:
            document.querySelectorAll('#picture .node').length, marked:
            document.querySelectorAll('#picture .ring').length, rows:
            document.querySelectorAll('#steps:not([hidden]) tbody tr').length, text:
            text('text'), case: document.getElementById('case').value, shall:
            [...document.querySelectorAll('#steps:not([hidden]) td.shall')].map(it =>
            it.textContent) };"""
        )
        return value

    def calls(self, questions: list[tuple[str, list[bytes]]]) -> list[tuple[int, bytes]]:
        """Return the replies of the module in the page to calls."""
        encoded = []
        for call, texts in questions:
            spans, start = [], 0
            for text in texts[1:]:
                spans.append([start, start + len(text)])
                start += len(text)
            if call == "audit_all":
                texts = [texts[0], b"".join(texts[1:])]
            encoded.append(
                [
                    call,
                    [base64.b64encode(text).decode() for text in texts],
                    spans if call == "audit_all" else None,
                ]
            )
        value = self.run_async(
            """const [calls, done] = arguments; (async () => { const replies = []; for (const
            [name, texts, spans] of calls) replies.push(await window.sagas.call(name, texts,
            spans)); return replies; })() .then(done, error => done(String(error)));""",
            encoded,
        )
        assert isinstance(value, list), value
        return [
            (status, base64.b64decode(text) if not error else error.encode())
            for status, text, error in value
        ]


class Selenium(Browser):
    """A browser that Selenium controls."""

    driver: Any

    def run(self, script: str, *arguments: Any) -> Any:
        return self.driver.execute_script(script, *arguments)

    def run_async(self, script: str, *arguments: Any) -> Any:
        return self.driver.execute_async_script(script, *arguments)

    def go(self, url: str) -> None:
        self.driver.get(url)

    def picture(self, path: Path) -> None:
        path.write_bytes(base64.b64decode(self.driver.get_screenshot_as_base64()))

    def close(self) -> None:
        self.driver.quit()


class Chromium(Selenium):
    """Chromium, with its log, its window size and its color scheme."""

    def __init__(self) -> None:
        options = webdriver.ChromeOptions()
        for word in (
            "--headless=new",
            "--no-sandbox",
            "--disable-gpu",
            "--disable-dev-shm-usage",
            "--window-size=1280,1000",
        ):
            options.add_argument(word)
        options.binary_location = "/usr/bin/chromium"
        options.set_capability("goog:loggingPrefs", {"browser": "ALL"})
        self.driver = webdriver.Chrome(service=Service("/usr/bin/chromedriver"), options=options)
        self.driver.set_script_timeout(SCRIPT_SECONDS)

    def command(self, command: str, **arguments: Any) -> Any:
        """Execute a command of the browser's own protocol."""
        return self.driver.execute_cdp_cmd(command, arguments)

    def new_log(self) -> list[Any]:
        """Return the entries of the browser's log since the last call."""
        return list(self.driver.get_log("browser"))

    def look(self, width: int, is_dark: bool) -> None:
        """Set the width of the window, and light or dark."""
        self.command(
            "Emulation.setDeviceMetricsOverride",
            width=width,
            height=900,
            deviceScaleFactor=1,
            mobile=width < 500,
        )
        self.command(
            "Emulation.setEmulatedMedia",
            features=[{"name": "prefers-color-scheme", "value": "dark" if is_dark else "light"}],
        )

    def picture(self, path: Path) -> None:
        """Take a picture of the whole page."""
        width, height = self.run("return [innerWidth, document.documentElement.scrollHeight]")
        made = self.command(
            "Page.captureScreenshot",
            captureBeyondViewport=True,
            clip={"x": 0, "y": 0, "width": width, "height": height, "scale": 1},
        )
        path.write_bytes(base64.b64decode(made["data"]))


class WebKit(Browser):
    """WebKit, with the driver and the small browser of WebKitGTK, on a screen of Xvfb.

    The driver speaks WebDriver: JSON over HTTP.
    """

    def __init__(self) -> None:
        quiet = {
            "stdin": subprocess.DEVNULL,
            "stdout": subprocess.DEVNULL,
            "stderr": subprocess.DEVNULL,
        }
        reading_end, number = os.pipe()
        self.screen = subprocess.Popen(
            ["Xvfb", "-displayfd", str(number), "-screen", "0", "1280x1000x24", "-nolisten", "tcp"],
            pass_fds=[number],
            **quiet,
        )
        os.close(number)
        with open(reading_end, "rb") as file:
            display = file.readline().decode().strip()
        # WebKit cannot isolate its processes if this process is root, or isolated itself.
        environment = {
            **os.environ,
            "DISPLAY": f":{display}",
            "WEBKIT_DISABLE_COMPOSITING_MODE": "1",
            "WEBKIT_DISABLE_SANDBOX_THIS_IS_DANGEROUS": "1",
        }
        with socket.create_server(("127.0.0.1", 0)) as server:
            port = server.getsockname()[1]
        self.driver = subprocess.Popen(
            ["WebKitWebDriver", f"--port={port}"], env=environment, **quiet
        )
        self.at = f"http://127.0.0.1:{port}/session"
        self._listens(port)
        binary = str(sorted(Path("/usr/lib").glob("*/webkit2gtk-4.*/MiniBrowser"))[-1])
        capabilities = {"webkitgtk:browserOptions": {"binary": binary, "args": ["--automation"]}}
        self.at += f"/{self._ask('', capabilities={'alwaysMatch': capabilities})['sessionId']}"
        self._ask("/timeouts", script=SCRIPT_SECONDS * 1000)
        self._ask("/window/rect", width=1280, height=1000)

    def _listens(self, port: int) -> None:
        """Wait until the driver listens."""
        end = time.monotonic() + SECONDS
        while True:
            try:
                return socket.create_connection(("127.0.0.1", port)).close()
            except ConnectionRefusedError:
                if time.monotonic() > end:
                    raise
                time.sleep(0.05)

    def _ask(self, command: str, method: str = "POST", **parameters: Any) -> Any:
        """Execute a command, and return its value."""
        data = json.dumps(parameters).encode() if method == "POST" else None
        request = urllib.request.Request(
            self.at + command, data, {"Content-Type": "application/json"}, method=method
        )
        with urllib.request.urlopen(request, timeout=SCRIPT_SECONDS) as reply:
            return json.load(reply)["value"]

    def run(self, script: str, *arguments: Any) -> Any:
        return self._ask("/execute/sync", script=script, args=list(arguments))

    def run_async(self, script: str, *arguments: Any) -> Any:
        return self._ask("/execute/async", script=script, args=list(arguments))

    def go(self, url: str) -> None:
        self._ask("/url", url=url)

    def picture(self, path: Path) -> None:
        path.write_bytes(base64.b64decode(self._ask("/screenshot", method="GET")))

    def close(self) -> None:
        self._ask("", method="DELETE")
        for process in (self.driver, self.screen):
            process.terminate()
            process.wait(SECONDS)


class Firefox(Browser):
    """Firefox with its own protocol, Marionette, since Debian has no geckodriver.

    A command and its answer are JSON after its length.
    """

    def __init__(self) -> None:
        self.folder = tempfile.TemporaryDirectory(prefix="firefox-", ignore_cleanup_errors=True)
        profile = Path(self.folder.name)
        (profile / "user.js").write_text(
            'user_pref("marionette.port", 0);\n'
            'user_pref("datareporting.policy.dataSubmissionEnabled", false);\n'
        )
        command = [
            "firefox-esr",
            "--marionette",
            "--headless",
            "--no-remote",
            "--profile",
            str(profile),
            "--width",
            "1280",
            "--height",
            "1000",
        ]
        environment = {
            **os.environ,
            "HOME": str(profile),
            "MOZ_HEADLESS_WIDTH": "1280",
            "MOZ_HEADLESS_HEIGHT": "1000",
        }
        self.process = subprocess.Popen(
            command, env=environment, stdout=subprocess.DEVNULL, stderr=subprocess.DEVNULL
        )
        self.stream = self._connected(profile / "MarionetteActivePort")
        self.count = 0
        self._read()
        self._ask(
            "WebDriver:NewSession",
            capabilities={"alwaysMatch": {"timeouts": {"script": SCRIPT_SECONDS * 1000}}},
        )

    def _connected(self, port_file: Path) -> Any:
        """Return the connection, once the browser has written its port."""
        end = time.monotonic() + SECONDS
        while not (port_file.exists() and port_file.read_text().strip()):
            if time.monotonic() > end or self.process.poll() is not None:
                raise TimeoutError("firefox does not write its port")
            time.sleep(0.05)
        self.socket = socket.create_connection(("127.0.0.1", int(port_file.read_text())))
        return self.socket.makefile("rwb")

    def _read(self) -> Any:
        """Return the next answer."""
        length = b""
        while (byte := self.stream.read(1)) != b":":
            if not byte:
                raise ConnectionError("firefox has ended")
            length += byte
        return json.loads(self.stream.read(int(length)))

    def _ask(self, command: str, **parameters: Any) -> Any:
        """Execute a command, and return its value."""
        self.count += 1
        message = json.dumps([0, self.count, command, parameters]).encode()
        self.stream.write(b"%d:%b" % (len(message), message))
        self.stream.flush()
        _, _, error, result = self._read()
        if error:
            raise RuntimeError(f"{command}: {error}")
        return result["value"] if set(result) == {"value"} else result

    def run(self, script: str, *arguments: Any) -> Any:
        return self._ask(
            "WebDriver:ExecuteScript", script=script, args=list(arguments), sandbox=None
        )

    def run_async(self, script: str, *arguments: Any) -> Any:
        return self._ask(
            "WebDriver:ExecuteAsyncScript", script=script, args=list(arguments), sandbox=None
        )

    def go(self, url: str) -> None:
        self._ask("WebDriver:Navigate", url=url)

    def picture(self, path: Path) -> None:
        path.write_bytes(base64.b64decode(self._ask("WebDriver:TakeScreenshot", full=True)))

    def close(self) -> None:
        self._ask("Marionette:Quit", flags=["eForceQuit"])
        self.socket.close()
        self.process.wait(SECONDS)
        self.folder.cleanup()
