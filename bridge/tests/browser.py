"""Debian's chromium without a screen, over its DevTools protocol, for tests that look at a page."""
import asyncio
import base64
import itertools
import os
import shutil
import subprocess
import tempfile
import time
from pathlib import Path
from typing import Any

import aiohttp

CHROMIUM = shutil.which("chromium")
WITHIN = 60.0


class Browser:
    """One browser with one page. All waits are bounded. What went wrong on the page stands in `faults`.

    What it asked in dialogs stands in `questions`. They are answered yes, unless `says_yes` is false.
    """

    def __init__(self) -> None:
        self.faults: list[str] = []
        self.questions: list[str] = []
        self.says_yes = True
        self._numbers = itertools.count(1)
        self._answers: dict[int, asyncio.Future[dict[str, Any]]] = {}

    async def start(self) -> None:
        """Starts it, with a profile of its own."""
        assert CHROMIUM is not None
        self._profile = tempfile.TemporaryDirectory(prefix="chromium-", ignore_cleanup_errors=True)
        self._process = subprocess.Popen(
            [CHROMIUM, "--headless=new", "--no-sandbox", "--disable-gpu", "--disable-dev-shm-usage", "--lang=en-GB",
             "--no-first-run", "--remote-debugging-port=0", f"--user-data-dir={self._profile.name}", "about:blank"],
            stdin=subprocess.DEVNULL, stdout=subprocess.DEVNULL, stderr=subprocess.DEVNULL, start_new_session=True,
            env={**os.environ, "LANGUAGE": "en_GB", "TZ": "UTC"})
        port = await self._port()
        self._session = aiohttp.ClientSession()
        async with self._session.get(f"http://127.0.0.1:{port}/json/list") as response:
            page = [target for target in await response.json() if target["type"] == "page"][0]
        self._socket = await self._session.ws_connect(page["webSocketDebuggerUrl"], max_msg_size=1 << 26)
        self._reader = asyncio.create_task(self._read())
        for domain in ("Page", "Runtime", "Log"):
            await self.call(f"{domain}.enable")

    async def _port(self) -> str:
        """The port of the protocol, which the browser writes to a file of its profile."""
        path, end = Path(self._profile.name) / "DevToolsActivePort", time.monotonic() + WITHIN
        while not path.exists() or "\n" not in path.read_text():
            if self._process.poll() is not None or time.monotonic() > end:
                raise AssertionError(f"chromium does not start, status {self._process.poll()}")
            await asyncio.sleep(0.05)
        return path.read_text().split()[0]

    async def _read(self) -> None:
        async for message in self._socket:
            told = message.json()
            if "id" in told:
                self._answers.pop(told["id"]).set_result(told)
            elif told["method"] == "Page.javascriptDialogOpening":
                self.questions.append(told["params"]["message"])
                asyncio.ensure_future(self.call("Page.handleJavaScriptDialog", accept=self.says_yes))
            elif told["method"] == "Runtime.exceptionThrown" or (
                    told["method"] == "Log.entryAdded" and told["params"]["entry"]["level"] == "error"):
                self.faults.append(str(told["params"]))

    async def call(self, method: str, **params: object) -> dict[str, Any]:
        """Calls a method of the protocol."""
        number = next(self._numbers)
        answer = self._answers[number] = asyncio.get_running_loop().create_future()
        await self._socket.send_json({"id": number, "method": method, "params": params})
        told = await asyncio.wait_for(answer, WITHIN)
        if "error" in told:
            raise AssertionError(f"{method}: {told['error']}")
        result: dict[str, Any] = told["result"]
        return result

    async def evaluate(self, expression: str) -> Any:
        """The value of an expression on the page."""
        result = await self.call("Runtime.evaluate", expression=expression, returnByValue=True)
        if "exceptionDetails" in result:
            raise AssertionError(f"{expression}: {result['exceptionDetails']}")
        return result["result"].get("value")

    async def until(self, expression: str) -> Any:
        """Waits until an expression on the page is true of it."""
        end = time.monotonic() + WITHIN
        while True:
            if value := await self.evaluate(expression):
                return value
            if time.monotonic() > end:
                text = await self.evaluate("document.body.innerText")
                raise AssertionError(f"not within {WITHIN:.0f} s: {expression}; the page has: {text}")
            await asyncio.sleep(0.1)

    async def open(self, url: str) -> None:
        await self.call("Page.navigate", url=url)
        await self.until(f"location.href === '{url}' && document.readyState === 'complete'")

    async def picture(self, width: int, height: int, scheme: str = "light") -> bytes:
        """A picture of the page (PNG), in a window of so many pixels."""
        await self.call("Emulation.setDeviceMetricsOverride", width=width, height=height, deviceScaleFactor=1,
                        mobile=False)
        await self.call("Emulation.setEmulatedMedia", features=[{"name": "prefers-color-scheme", "value": scheme}])
        return base64.b64decode((await self.call("Page.captureScreenshot", format="png"))["data"])

    async def stop(self) -> None:
        self._reader.cancel()
        await self._socket.close()
        await self._session.close()
        self._process.kill()
        self._process.wait(WITHIN)
        self._profile.cleanup()
