"""Chromium without a window, driven by its own protocol: pages are opened, looked at, clicked and typed into, and pictures taken. It needs aiohttp of the system's Python."""
import asyncio
import base64
import contextlib
import json
import shutil
import subprocess
import tempfile
import threading
from pathlib import Path

import aiohttp

WORDS = ("--headless=new", "--no-sandbox", "--disable-gpu", "--no-first-run", "--disable-extensions", "--disable-background-networking", "--disable-component-update", "--hide-scrollbars",
         "--force-device-scale-factor=1", "--remote-debugging-port=0", "about:blank")
PATIENCE = 60.0  # seconds that anything may take


class Failed(Exception):
    """The page doesn't do what it should; what."""


class Tab:
    """A tab, and what its page has told: faults of scripts, and what its policy has refused."""

    def __init__(self, browser, session):
        self.browser, self.session = browser, session
        self.faults = []

    def does(self, method, **words):
        return self.browser.does(method, self.session, **words)

    def opens(self, address, until=None):
        self.does("Page.navigate", url=address)
        if until:
            self.waits(until)

    def evaluates(self, script):
        """The value of an expression of the page."""
        said = self.does("Runtime.evaluate", expression=script, returnByValue=True, awaitPromise=True, userGesture=True)
        if "exceptionDetails" in said:
            raise Failed(f"{script}: {said['exceptionDetails'].get('exception', {}).get('description', said['exceptionDetails']['text'])}")
        return said["result"].get("value")

    def waits(self, script, seconds=PATIENCE, what=None):
        """Waits until an expression of the page is true. Its value."""
        end = self.browser.now() + seconds
        while self.browser.now() < end:
            with contextlib.suppress(Failed):
                value = self.evaluates(script)
                if value:
                    return value
            self.browser.rests(0.1)
        raise Failed(f"it hasn't come within {seconds:.0f} s: {what or script}")

    def clicks(self, selector):
        """Clicks in the middle of an element, as a person does: it must be there, be seen and not be disabled."""
        place = self.waits(f"""(() => {{
          const element = document.querySelector({json.dumps(selector)});
          if (!element || element.disabled) {{ return null; }}
          element.scrollIntoView({{ block: "center", inline: "center", behavior: "instant" }});
          const box = element.getBoundingClientRect();
          const x = (box.left + box.right) / 2, y = (box.top + box.bottom) / 2;
          const front = document.elementFromPoint(x, y);
          return box.width && box.height && front && (front === element || element.contains(front)) ? [x, y] : null;
        }})()""", what=f"{selector} can be clicked")
        for kind in ("mousePressed", "mouseReleased"):
            self.does("Input.dispatchMouseEvent", type=kind, x=place[0], y=place[1], button="left", clickCount=1)

    def fills(self, selector, value):
        """Sets a field or a choice, as its person would."""
        self.evaluates(f"""(() => {{ const field = document.querySelector({json.dumps(selector)}); field.focus(); field.value = {json.dumps(str(value))};
          field.dispatchEvent(new Event("input", {{ bubbles: true }})); field.dispatchEvent(new Event("change", {{ bubbles: true }})); }})()""")

    def presses(self, key):
        for kind in ("rawKeyDown", "keyUp"):
            self.does("Input.dispatchKeyEvent", type=kind, key=key, code=key, windowsVirtualKeyCode={"ArrowRight": 39, "ArrowLeft": 37, "Tab": 9, "Enter": 13}.get(key, 0))

    def text(self, selector):
        return self.evaluates(f"(document.querySelector({json.dumps(selector)}) || {{ innerText: '' }}).innerText")

    def sized(self, width, height=900, dark=False):
        self.does("Emulation.setDeviceMetricsOverride", width=width, height=height, deviceScaleFactor=1, mobile=False)
        self.does("Emulation.setEmulatedMedia", features=[{"name": "prefers-color-scheme", "value": "dark" if dark else "light"}])

    def picture(self, path, whole=True):
        data = self.does("Page.captureScreenshot", format="png", captureBeyondViewport=whole)["data"]
        Path(path).write_bytes(base64.b64decode(data))

    def close(self):
        with contextlib.suppress(Failed):
            self.browser.does("Target.closeTarget", None, targetId=self.target)


class Browser:
    """The browser. Its protocol is spoken by a thread of its own."""

    def __init__(self):
        self.folder = tempfile.mkdtemp()
        self.process = subprocess.Popen(["chromium", *WORDS[:-1], f"--user-data-dir={self.folder}", WORDS[-1]], stdout=subprocess.DEVNULL, stderr=subprocess.DEVNULL)
        self.loop, self.answers, self.tabs, self.number = asyncio.new_event_loop(), {}, {}, 0
        threading.Thread(target=self.loop.run_forever, daemon=True).start()
        self.waits_for(self.begins())

    def waits_for(self, work):
        return asyncio.run_coroutine_threadsafe(work, self.loop).result(PATIENCE * 2)

    def now(self):
        return self.loop.time()

    def rests(self, seconds):
        self.waits_for(asyncio.sleep(seconds))

    async def begins(self):
        kept = Path(self.folder) / "DevToolsActivePort"
        for _ in range(int(PATIENCE * 10)):
            lines = kept.read_text().splitlines() if kept.exists() else []
            if len(lines) > 1:
                break
            await asyncio.sleep(0.1)
        self.client = aiohttp.ClientSession()
        self.socket = await self.client.ws_connect(f"ws://127.0.0.1:{lines[0]}{lines[1]}", max_msg_size=1 << 28)
        self.reading = asyncio.ensure_future(self.reads())

    async def reads(self):
        async for message in self.socket:
            said = json.loads(message.data)
            if "id" in said:
                self.answers.pop(said["id"]).set_result(said)
            else:
                self.heard(said)

    def heard(self, said):
        tab, method, words = self.tabs.get(said.get("sessionId")), said["method"], said.get("params", {})
        if tab is None:
            return
        if method == "Runtime.exceptionThrown":
            tab.faults.append(words["exceptionDetails"].get("exception", {}).get("description", words["exceptionDetails"]["text"]))
        elif method == "Log.entryAdded" and words["entry"]["level"] == "error":
            tab.faults.append(f"{words['entry']['text']} {words['entry'].get('url', '')}")
        elif method == "Page.javascriptDialogOpening":
            tab.faults.append(f"a script of the line has run: {words['message']}")

    async def asks(self, method, session, words):
        self.number += 1
        self.answers[self.number] = answer = self.loop.create_future()
        await self.socket.send_json({"id": self.number, "method": method, "params": words, **({"sessionId": session} if session else {})})
        return await asyncio.wait_for(answer, PATIENCE)

    def does(self, method, session=None, **words):
        said = self.waits_for(self.asks(method, session, words))
        if "error" in said:
            raise Failed(f"{method}: {said['error']['message']}")
        return said["result"]

    def tab(self, width=1400, height=900, folder=None):
        """A new tab of its own: it shares nothing with the others."""
        context = self.does("Target.createBrowserContext")["browserContextId"]
        target = self.does("Target.createTarget", url="about:blank", browserContextId=context)["targetId"]
        session = self.does("Target.attachToTarget", targetId=target, flatten=True)["sessionId"]
        made = self.tabs[session] = Tab(self, session)
        made.target = target
        for each in ("Page.enable", "Runtime.enable", "Log.enable"):
            made.does(each)
        made.sized(width, height)
        if folder:
            self.does("Browser.setDownloadBehavior", behavior="allow", browserContextId=context, downloadPath=str(folder))
        return made

    def ends(self):
        with contextlib.suppress(Exception):
            self.does("Browser.close")
        with contextlib.suppress(Exception):
            self.waits_for(self.client.close())
        self.process.kill()
        self.process.wait()
        self.loop.call_soon_threadsafe(self.loop.stop)
        shutil.rmtree(self.folder, ignore_errors=True)
