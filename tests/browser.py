"""Chromium without a window, by its protocol for tools: messages in JSON over two pipes, each ended by a byte of zero."""

import base64
import json
import os
import select
import shutil
import subprocess
import tempfile
import time

WORDS = ["--headless=new", "--disable-gpu", "--no-first-run", "--disable-extensions", "--disable-sync", "--disable-background-networking",
         "--disable-component-update", "--disable-default-apps", "--hide-scrollbars", "--disable-dev-shm-usage", "--remote-debugging-pipe"]


class Browser:
    def __init__(self, program="chromium"):
        self.room = tempfile.mkdtemp()
        to_browser, self.to = os.pipe()
        self.of, of_browser = os.pipe()
        # As root it runs without its sandbox alone.
        words = WORDS + ["--no-sandbox"] * (os.geteuid() == 0) + [f"--user-data-dir={self.room}/profile", "about:blank"]
        command = f'exec "$0" "$@" 3<&{to_browser} 4>&{of_browser}'
        self.process = subprocess.Popen(["sh", "-c", command, program, *words], pass_fds=(to_browser, of_browser), stdin=subprocess.DEVNULL,
                                        stdout=subprocess.DEVNULL, stderr=subprocess.DEVNULL, env={**os.environ, "HOME": self.room})
        os.close(to_browser)
        os.close(of_browser)
        self.left = b""
        self.number = 0
        self.events = []

    def close(self):
        try:
            self.call("Browser.close")
            self.process.wait(10)
        except (OSError, subprocess.TimeoutExpired, TimeoutError):
            self.process.kill()
            self.process.wait()
        shutil.rmtree(self.room, ignore_errors=True)

    def receive(self, until):
        """The next message of the browser."""
        while b"\0" not in self.left:
            if not select.select([self.of], [], [], max(until - time.monotonic(), 0))[0]:
                raise TimeoutError("the browser says nothing")
            part = os.read(self.of, 1 << 20)
            if not part:
                raise TimeoutError("the browser has ended")
            self.left += part
        message, self.left = self.left.split(b"\0", 1)
        return json.loads(message)

    def call(self, method, session=None, seconds=60, **given):
        self.number += 1
        message = {"id": self.number, "method": method, "params": given, **({"sessionId": session} if session else {})}
        whole = json.dumps(message).encode() + b"\0"
        while whole:
            whole = whole[os.write(self.to, whole):]
        until = time.monotonic() + seconds
        while True:
            answer = self.receive(until)
            if answer.get("id") != self.number:
                self.events.append(answer)
            elif "error" in answer:
                raise RuntimeError(f"{method}: {answer['error']['message']}")
            else:
                return answer["result"]


class Tab:
    """A page in the browser, with a size and a scheme of colors of its own."""

    def __init__(self, browser, address, width=1360, height=860, scheme="light"):
        self.browser = browser
        self.target = browser.call("Target.createTarget", url="about:blank")["targetId"]
        self.session = browser.call("Target.attachToTarget", targetId=self.target, flatten=True)["sessionId"]
        for domain in ("Page", "Runtime", "Network"):
            self.call(f"{domain}.enable")
        is_phone = width < 600
        self.call("Emulation.setDeviceMetricsOverride", width=width, height=height, deviceScaleFactor=2 if is_phone else 1, mobile=is_phone)
        self.call("Emulation.setEmulatedMedia", features=[{"name": "prefers-color-scheme", "value": scheme}])
        self.call("Page.navigate", url=address)

    def call(self, method, **given):
        return self.browser.call(method, self.session, **given)

    def close(self):
        self.browser.call("Target.closeTarget", targetId=self.target)

    def js(self, code):
        """The value of an expression, waited for where it is a promise."""
        found = self.call("Runtime.evaluate", expression=code, awaitPromise=True, returnByValue=True)
        if "exceptionDetails" in found:
            said = found["exceptionDetails"]
            raise RuntimeError(said.get("exception", {}).get("description") or said["text"])
        return found["result"].get("value")

    def wait(self, code, seconds=30):
        """Waits until an expression is true, and says whether it was."""
        until = time.monotonic() + seconds
        while time.monotonic() < until:
            try:
                if self.js(code):
                    return True
            except RuntimeError:
                pass
            time.sleep(0.03)
        return False

    def key(self, name, letters="", modifiers=0):
        """Presses a key, as Tab or ArrowLeft, or one with a letter."""
        codes = {"Tab": 9, "Enter": 13, " ": 32, "End": 35, "Home": 36, "ArrowLeft": 37, "ArrowUp": 38, "ArrowRight": 39, "ArrowDown": 40}
        given = {"key": name, "code": {" ": "Space"}.get(name, name), "windowsVirtualKeyCode": codes.get(name, 0), "modifiers": modifiers}
        self.call("Input.dispatchKeyEvent", type="keyDown", **({"text": letters} if letters else {}), **given)
        self.call("Input.dispatchKeyEvent", type="keyUp", **given)

    def type(self, text):
        self.call("Input.insertText", text=text)

    def requests(self):
        """The addresses that pages have asked for until now."""
        asked = [it["params"]["request"]["url"] for it in self.browser.events if it.get("method") == "Network.requestWillBeSent"]
        return sorted(set(asked))

    def picture(self, file):
        with open(file, "wb") as it:
            it.write(base64.b64decode(self.call("Page.captureScreenshot", format="png")["data"]))
