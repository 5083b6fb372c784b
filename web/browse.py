#!/usr/bin/env python3
"""Opens the page in a headless browser: `web/browse.py BROWSER PAGE [--size WxH] [--dark] [--picture FILE] LINE ..`.

BROWSER is `chromium` (over its DevTools protocol) or `firefox` (over WebDriver BiDi). The lines are typed one after another, and their texts
are printed as a list in JSON. A picture of the page is left in the file. tests/page opens its pages in the same way, many in one `Browser`."""
import argparse
import base64
import json
import os
import re
import shutil
import socket
import struct
import subprocess
import tempfile
import threading

# How long the browser may take for one message, and how often it is started if it ends before it listens.
SECONDS = 600
STARTS = 3

# How long a page may take for one thing that is waited for, by its own clock; and the loop that waits for it and names what did not come.
WAITS = """
globalThis.LONGEST_WAIT = 60000;
globalThis.pause = (ms = 4) => new Promise((next) => setTimeout(next, ms));
globalThis.until = async (test, what = String(test)) => {
  for (const end = performance.now() + LONGEST_WAIT; performance.now() < end; await pause()) if (test()) return true;
  throw new Error(`${what.slice(0, 200)} did not come within ${LONGEST_WAIT / 1000} s`);
};
"""

# Waits for the module, types each line, waits for its answer, and gives the texts.
TYPES = """(async () => {
  await until(() => isReady, "the module");
  const texts = [];
  for (const line of %s) {
    const count = numberOfAnswer;
    document.getElementById("line").value = line;
    document.getElementById("run").click();
    await until(() => numberOfAnswer > count, `the answer to ${line}`);
    texts.push(document.querySelector("article").querySelector("pre, .unclear, .said").textContent);
  }
  return JSON.stringify(texts);
})()"""


class Amiss(Exception):
    """What a page did not do, in words."""

# The keys with a name, by the code that Chromium is given and the character that stands for them in WebDriver.
KEYS = {"Enter": (13, "\ue007"), "Tab": (9, "\ue004"), "Escape": (27, "\ue00c"), "ArrowUp": (38, "\ue013"), "ArrowDown": (40, "\ue015")}

# What Chromium is told: a page that is not in front has the processor as one that is. A page of which no picture is taken is laid out and not
# drawn, which takes most of the time on a machine without a graphics processor.
FOR_CHROMIUM = """--no-sandbox --disable-gpu --hide-scrollbars --disable-renderer-backgrounding --disable-backgrounding-occluded-windows
--disable-background-timer-throttling --disable-dev-shm-usage --no-first-run --disable-component-update --disable-background-networking""".split()
NOT_DRAWN = "--in-process-gpu --disable-threaded-compositing".split()

# What Firefox is told in its profile; Chromium is told the same over its protocol.
PREFERENCES = 'user_pref("layout.css.prefers-color-scheme.content-override", {scheme});\nuser_pref("ui.prefersReducedMotion", {still});\n'


class Channel:
    """Messages in JSON over a WebSocket (RFC 6455): one answer for each, and events, which are kept."""

    def __init__(self, url):
        host, port, path = re.fullmatch(r"ws://([^:/]+):(\d+)(/.*)?", url).groups()
        self.socket = socket.create_connection((host, int(port)), SECONDS)
        # (small messages that follow one another do not wait for each other)
        self.socket.setsockopt(socket.IPPROTO_TCP, socket.TCP_NODELAY, 1)
        key = base64.b64encode(os.urandom(16)).decode()
        self.socket.sendall(
            f"GET {path or '/session'} HTTP/1.1\r\nHost: {host}:{port}\r\nUpgrade: websocket\r\nConnection: Upgrade\r\n"
            f"Sec-WebSocket-Key: {key}\r\nSec-WebSocket-Version: 13\r\n\r\n".encode()
        )
        self.file, self.number, self.events = self.socket.makefile("rb"), 0, []
        if b" 101 " not in self.file.readline():
            raise SystemExit("the browser refuses the connection")
        while self.file.readline().strip():
            pass

    def close(self):
        self.file.close()
        self.socket.close()

    def ask(self, method, **params):
        """Sends a message and gives its result."""
        self.number += 1
        text = json.dumps({"id": self.number, "method": method, "params": params}).encode()
        long = struct.pack("!BQ", 255, len(text)) if len(text) > 65535 else struct.pack("!BH", 254, len(text))
        size = b"\x81" + (long if len(text) > 125 else bytes([128 + len(text)]))
        mask = os.urandom(4)
        masks = (mask * (len(text) // 4 + 1))[: len(text)]
        masked = int.from_bytes(text, "big") ^ int.from_bytes(masks, "big")
        self.socket.sendall(size + mask + masked.to_bytes(len(text), "big"))
        while True:
            answer = json.loads(self.message())
            if answer.get("id") == self.number:
                if "error" in answer:
                    raise SystemExit(f"{method}: {answer['error']} {answer.get('message', '')}")
                return answer["result"]
            self.events.append(answer)

    def message(self):
        text, is_last = b"", False
        while not is_last:
            head = self.file.read(2)
            if len(head) < 2:
                raise EOFError("the browser has closed the connection")
            first, second = head
            size = second & 127
            if size > 125:
                size = struct.unpack("!H" if size == 126 else "!Q", self.file.read(2 if size == 126 else 8))[0]
            piece = self.file.read(size)
            if first & 15 < 3:
                text, is_last = text + piece, bool(first & 128)
        return text


class HasEnded(SystemExit):
    """A browser has ended before it named the address at which it listens."""


class Browser:
    """A headless browser, in light or dark colours, with motion or reduced motion, with pictures or without. Each of its pages has a storage of
    its own.

        with Browser("chromium", dark=True) as browser, browser.page("build/calc.html", 390, 844) as page:
            page.run("document.title")
    """

    def __init__(self, name, dark=False, still=False, pictures=True):
        self.name, self.dark, self.still, self.pictures = name, dark, still, pictures

    def __enter__(self):
        """Starts the browser, with a profile of its own; again, if it ends before it listens."""
        said = ""
        for _ in range(STARTS):
            self.profile, self.said = tempfile.mkdtemp(), []
            try:
                self.start()
                return self
            except BaseException as error:
                self.__exit__()
                if not isinstance(error, (EOFError, OSError)):
                    raise
                said = f"{error}: {''.join(self.said[-5:])[-600:]}"
        raise HasEnded(f"{self.name} was started {STARTS} times and has ended: {said}")

    def start(self):
        if self.name == "chromium":
            words, mark = [*FOR_CHROMIUM, *([] if self.pictures else NOT_DRAWN), f"--user-data-dir={self.profile}"], "DevTools listening on "
        else:
            words, mark = ["--profile", self.profile], "WebDriver BiDi listening on "
            with open(f"{self.profile}/user.js", "w", encoding="utf-8") as file:
                file.write(PREFERENCES.format(scheme=0 if self.dark else 1, still=int(self.still)))
        words = [self.name, "--headless", "--remote-debugging-port=0", *words, "about:blank"]
        self.started = subprocess.Popen(words, stdout=subprocess.DEVNULL, stderr=subprocess.PIPE, text=True)
        self.address = self.listening(mark)
        self.channel = Channel(self.address if self.name == "chromium" else f"{self.address}/session")
        if self.name == "firefox":
            self.channel.ask("session.new", capabilities={})
            self.channel.ask("session.subscribe", events=["network.beforeRequestSent"])

    def __exit__(self, *_):
        self.started.kill()
        self.started.wait()
        shutil.rmtree(self.profile, ignore_errors=True)

    def listening(self, mark):
        """The address that the browser names on standard error, of which the rest is read and left."""
        for line in self.started.stderr:
            if mark in line:
                threading.Thread(target=self.started.stderr.read, daemon=True).start()
                return line.split(mark)[1].strip()
            self.said.append(line)
        raise EOFError(f"it has ended with status {self.started.wait()}")

    def page(self, path, width=1280, height=900, fragment=""):
        """A page of this file or address, at a size."""
        url = path if "://" in path else f"file://{os.path.abspath(path)}"
        return {"chromium": ChromiumPage, "firefox": FirefoxPage}[self.name](self, path, url + fragment, width, height)


class Page:
    """A page in a browser: what both kinds have in common. `open`, `close`, `load` again, `evaluated`, `press`, `requests` and `picture` are their own."""

    def __init__(self, browser, path, url, width, height):
        self.browser, self.path, self.url, self.width, self.height = browser, path, url, width, height

    def __enter__(self):
        self.open()
        return self

    def __exit__(self, *_):
        self.close()

    def run(self, script):
        """The value of an expression in the page: a text, a number, a truth value, or what a promise of one comes to."""
        done = self.evaluated(script)
        if "exceptionDetails" in done:
            raise Amiss(f"{self.browser.name}: {json.dumps(done['exceptionDetails'])[:600]}")
        return done["result"].get("value")

    def type(self, lines):
        """The texts of these lines, typed one after another."""
        self.run(WAITS)
        return json.loads(self.run(TYPES % json.dumps(lines)))

    def save(self, data, path):
        with open(path, "wb") as file:
            file.write(base64.b64decode(data))


class ChromiumPage(Page):
    """A page of Chromium, over a channel of its own."""

    def open(self):
        ask = self.browser.channel.ask
        self.storage = ask("Target.createBrowserContext")["browserContextId"]
        target = ask("Target.createTarget", url="about:blank", browserContextId=self.storage)["targetId"]
        self.channel = Channel(re.sub(r"/devtools/.*", f"/devtools/page/{target}", self.browser.address))
        ask = self.channel.ask
        for what in ("Page.enable", "Network.enable"):
            ask(what)
        size = {"width": self.width, "height": self.height, "deviceScaleFactor": 1, "mobile": self.width < 600}
        ask("Emulation.setDeviceMetricsOverride", **size)
        scheme, motion = "dark" if self.browser.dark else "light", "reduce" if self.browser.still else "no-preference"
        wanted = {"prefers-color-scheme": scheme, "prefers-reduced-motion": motion}
        ask("Emulation.setEmulatedMedia", features=[{"name": name, "value": value} for name, value in wanted.items()])
        ask("Emulation.setFocusEmulationEnabled", enabled=True)
        self.load("Page.navigate", url=self.url)

    def close(self):
        self.channel.close()
        self.browser.channel.ask("Target.disposeBrowserContext", browserContextId=self.storage)

    def load(self, how="Page.reload", **given):
        """Loads the page, or loads it again, and waits until it is there."""
        self.channel.events.clear()
        self.channel.ask(how, **given)
        is_loaded = False
        while not is_loaded:
            self.channel.events.append(json.loads(self.channel.message()))
            # (the empty page before it has an event, too)
            is_loaded = self.channel.events[-1].get("method") == "Page.loadEventFired" and self.run("document.URL") != "about:blank"

    def evaluated(self, script):
        return self.channel.ask("Runtime.evaluate", expression=script, awaitPromise=True)

    def press(self, *keys):
        """Presses keys one after another, each a character or a name."""
        for key in keys:
            words = {"key": key, "code": key, "windowsVirtualKeyCode": KEYS[key][0]} if key in KEYS else {"key": key}
            text = {"text": "\r"} if key == "Enter" else {} if key in KEYS else {"text": key}
            self.channel.ask("Input.dispatchKeyEvent", type="keyDown", **words, **text)
            self.channel.ask("Input.dispatchKeyEvent", type="keyUp", **words)

    def requests(self):
        """The addresses that the page has asked for since it was loaded."""
        self.run("0")
        return [it["params"]["request"]["url"] for it in self.channel.events if it.get("method") == "Network.requestWillBeSent"]

    def picture(self, path, whole=False):
        """Leaves a picture of what is seen of the page, or of all of it."""
        self.save(self.channel.ask("Page.captureScreenshot", captureBeyondViewport=whole)["data"], path)


class FirefoxPage(Page):
    """A page of Firefox, over the channel of the browser."""

    def ask(self, method, **given):
        return self.browser.channel.ask(method, context=self.context, **given)

    def open(self):
        ask = self.browser.channel.ask
        self.storage = ask("browser.createUserContext")["userContext"]
        self.context = ask("browsingContext.create", type="tab", userContext=self.storage)["context"]
        # (a tab in front has the focus, and its clocks go at their pace)
        self.ask("browsingContext.activate")
        self.ask("browsingContext.setViewport", viewport={"width": self.width, "height": self.height})
        self.ask("browsingContext.navigate", url=self.url, wait="complete")

    def close(self):
        self.browser.channel.ask("browser.removeUserContext", userContext=self.storage)

    def load(self):
        """Loads the page again, and waits until it is there."""
        self.ask("browsingContext.reload", wait="complete")

    def evaluated(self, script):
        return self.browser.channel.ask("script.evaluate", expression=script, target={"context": self.context}, awaitPromise=True)

    def press(self, *keys):
        """Presses keys one after another, each a character or a name."""
        values = [KEYS[key][1] if key in KEYS else key for key in keys]
        pressed = [{"type": way, "value": value} for value in values for way in ("keyDown", "keyUp")]
        self.ask("input.performActions", actions=[{"type": "key", "id": "keys", "actions": pressed}])

    def requests(self):
        """The addresses that the page has asked for."""
        self.run("0")
        asked = [it["params"] for it in self.browser.channel.events if it.get("method") == "network.beforeRequestSent"]
        return [it["request"]["url"] for it in asked if it["context"] == self.context]

    def picture(self, path, whole=False):
        """Leaves a picture of what is seen of the page, or of all of it."""
        self.save(self.ask("browsingContext.captureScreenshot", origin="document" if whole else "viewport")["data"], path)


def main():
    words = argparse.ArgumentParser(description=__doc__.splitlines()[0])
    words.add_argument("browser", choices=["chromium", "firefox"])
    words.add_argument("page")
    words.add_argument("lines", nargs="*")
    words.add_argument("--size", default="1280x900")
    words.add_argument("--dark", action="store_true")
    words.add_argument("--picture")
    given = words.parse_intermixed_args()
    width, height = map(int, given.size.split("x"))
    with Browser(given.browser, given.dark) as browser, browser.page(given.page, width, height) as page:
        print(json.dumps(page.type(given.lines)))
        if given.picture:
            page.picture(given.picture)


if __name__ == "__main__":
    main()
