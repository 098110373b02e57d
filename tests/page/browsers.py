"""Real browsers that are driven from here, without a screen: Chromium and WebKit by their drivers, Firefox by the protocol that it speaks
itself (Marionette). All know the commands of WebDriver; only how they are brought there differs."""
import base64
import glob
import json
import os
import shutil
import socket
import subprocess
import time
import urllib.error
import urllib.request

ELEMENT = "element-6066-11e4-a52e-4f735466cecf"
PATIENCE = 60
MINIBROWSERS = "/usr/lib/*/webkit2gtk-4.*/MiniBrowser"


class Failed(Exception):
    """What a browser said of a command that failed."""


def free_port():
    with socket.socket() as it:
        it.bind(("127.0.0.1", 0))
        return it.getsockname()[1]


def until(ask, what):
    """What a question answers once it answers something; the system is asked again and again."""
    end = time.monotonic() + PATIENCE
    while time.monotonic() < end:
        found = ask()
        if found:
            return found
        time.sleep(0.02)
    raise Failed(f"waited for {what}")


class ByDriver:
    """A browser behind a driver that speaks HTTP."""

    PLACES = {
        "WebDriver:Navigate": ("POST", "/url"), "WebDriver:ExecuteAsyncScript": ("POST", "/execute/async"),
        "WebDriver:FindElement": ("POST", "/element"), "WebDriver:TakeScreenshot": ("GET", "/screenshot"),
        "WebDriver:SetWindowRect": ("POST", "/window/rect"), "WebDriver:SetTimeouts": ("POST", "/timeouts"),
    }

    def __init__(self, words, capabilities, screen=None):
        self.port, self.screen = free_port(), screen
        environment = {**os.environ, "DISPLAY": screen.name} if screen else None
        self.process = subprocess.Popen([*words, f"--port={self.port}"], env=environment, stdout=subprocess.DEVNULL,
            stderr=subprocess.DEVNULL)
        until(self.listens, words[0])
        made = self.ask("POST", "/session", {"capabilities": {"alwaysMatch": capabilities}})
        self.session = f"/session/{made['sessionId']}"

    def listens(self):
        try:
            return self.ask("GET", "/status") is not None
        except OSError:
            return False

    def ask(self, method, place, more=None):
        body = json.dumps(more or {}).encode() if method == "POST" else None
        wanted = urllib.request.Request(f"http://127.0.0.1:{self.port}{place}", body, {"Content-Type": "application/json"}, method=method)
        try:
            with urllib.request.urlopen(wanted, timeout=4 * PATIENCE) as it:
                return json.load(it)["value"]
        except urllib.error.HTTPError as why:
            raise Failed(why.read().decode(errors="replace")[:600]) from None

    def call(self, name, more=None):
        if name in ("WebDriver:ElementClick", "WebDriver:ElementSendKeys", "WebDriver:ElementClear"):
            end = {"Click": "click", "SendKeys": "value", "Clear": "clear"}[name.removeprefix("WebDriver:Element")]
            return self.ask("POST", f"{self.session}/element/{more['id']}/{end}", {"text": more.get("text", "")})
        method, place = self.PLACES[name]
        return self.ask(method, self.session + place, more)

    def close(self):
        try:
            self.ask("DELETE", self.session)
        except (Failed, OSError):
            pass
        self.process.terminate()
        self.process.wait()
        if self.screen:
            self.screen.close()


class Screen:
    """One that nobody sees, for a browser that needs one."""

    def __init__(self):
        words = ["Xvfb", "-displayfd", "1", "-screen", "0", "1280x1024x24", "-nolisten", "tcp"]
        self.process = subprocess.Popen(words, stdout=subprocess.PIPE, stderr=subprocess.DEVNULL)
        self.name = f":{int(self.process.stdout.readline())}"

    def close(self):
        self.process.terminate()
        self.process.communicate()


class ByMarionette:
    """Firefox, which is spoken to directly: each message is its length, a colon, and JSON."""

    def __init__(self, words, folder):
        self.port, self.count, self.profile = free_port(), 0, os.path.join(folder, "firefox")
        os.makedirs(self.profile, exist_ok=True)
        with open(f"{self.profile}/user.js", "w", encoding="ascii") as it:
            it.write(f'user_pref("marionette.port", {self.port});\nuser_pref("datareporting.policy.dataSubmissionEnabled", false);\n')
        self.process = subprocess.Popen([*words, "--marionette", "--headless", "--no-remote", "-profile", self.profile],
            stdout=subprocess.DEVNULL,
                                        stderr=subprocess.DEVNULL, env={**os.environ, "HOME": folder})
        self.wire = until(self.connected, "firefox")
        self.wire.settimeout(4 * PATIENCE)
        self.message()
        self.call("WebDriver:NewSession", {})

    def connected(self):
        try:
            return socket.create_connection(("127.0.0.1", self.port))
        except OSError:
            return None

    def message(self):
        head = b""
        while not head.endswith(b":"):
            head += self.wire.recv(1)
        left, content = int(head[:-1]), b""
        while len(content) < left:
            content += self.wire.recv(left - len(content))
        return json.loads(content)

    def call(self, name, more=None):
        self.count += 1
        said = json.dumps([0, self.count, name, more or {}]).encode()
        self.wire.sendall(str(len(said)).encode() + b":" + said)
        _, _, fault, answer = self.message()
        if fault:
            raise Failed(str(fault)[:600])
        return answer["value"] if isinstance(answer, dict) and set(answer) == {"value"} else answer

    def close(self):
        self.wire.close()
        self.process.terminate()
        self.process.wait()


class Browser:
    """What a person does: goes somewhere, clicks, types, chooses a file, looks."""

    def __init__(self, name, way):
        self.name, self.way = name, way
        self.way.call("WebDriver:SetTimeouts", {"script": 2000 * PATIENCE, "pageLoad": 2000 * PATIENCE})

    def go(self, address):
        self.way.call("WebDriver:Navigate", {"url": address})

    def run(self, body, *words):
        """What an asynchronous body returns in the page."""
        wrapped = ("const done = arguments[arguments.length - 1]; const given = [...arguments].slice(0, -1);"
                   f"(async () => {{ {body} }})().then((it) => done({{ it }}), (why) => done({{ why: String(why) }}));")
        found = self.way.call("WebDriver:ExecuteAsyncScript", {"script": wrapped, "args": list(words)})
        if "why" in found:
            raise Failed(found["why"])
        return found.get("it")

    def waits(self, expression, *words):
        """Waits until an expression of the page is true, and tells it; of an element only that it is there, since it may be drawn anew."""
        return self.run("for (const end = Date.now() + 60000; Date.now() < end; ) {"
                        f"const found = {expression}; if (found) return found instanceof Node || found;"
                        "await new Promise((it) => setTimeout(it, 10)); }"
                        f"throw new Error('waited for ' + {json.dumps(expression)});", *words)

    def element(self, selector):
        return self.way.call("WebDriver:FindElement", {"using": "css selector", "value": selector})[ELEMENT]

    def click(self, selector):
        """Clicks on an element; one that was drawn anew between looking and clicking is looked for again."""

        def clicked():
            try:
                self.way.call("WebDriver:ElementClick", {"id": self.element(selector)})
                return True
            except Failed as why:
                if "stale element" not in str(why):
                    raise
                return False

        until(clicked, selector)

    def type(self, selector, text):
        self.way.call("WebDriver:ElementSendKeys", {"id": self.element(selector), "text": text})

    def clear(self, selector):
        self.way.call("WebDriver:ElementClear", {"id": self.element(selector)})

    def resize(self, width, height):
        self.way.call("WebDriver:SetWindowRect", {"width": width, "height": height})

    def dark(self, is_dark):
        """Lets the page be dark, in Chromium."""
        feature = {"name": "prefers-color-scheme", "value": "dark" if is_dark else "light"}
        self.way.ask("POST", f"{self.way.session}/goog/cdp/execute",
            {"cmd": "Emulation.setEmulatedMedia", "params": {"features": [feature]}})

    def looks(self, file):
        with open(file, "wb") as it:
            it.write(base64.b64decode(self.way.call("WebDriver:TakeScreenshot")))

    def close(self):
        self.way.close()


# ---- Which there are ----


def chromium(_, more=()):
    words = ["--headless=new", "--no-sandbox", "--disable-gpu", "--window-size=1280,860", *more]
    return Browser("chromium", ByDriver(["chromedriver"], {"goog:chromeOptions": {"args": words}}))


def firefox(folder):
    return Browser("firefox", ByMarionette(["firefox-esr"], folder))


def webkit(_):
    options = {"binary": glob.glob(MINIBROWSERS)[0], "args": ["--automation"]}
    screen = None if os.environ.get("DISPLAY") else Screen()
    return Browser("webkit", ByDriver(["WebKitWebDriver"], {"webkitgtk:browserOptions": options}, screen))


def missing(*programs):
    return next((it for it in programs if not shutil.which(it)), None)


# Each browser: what opens it, and what lacks for it.
ALL = {
    "chromium": (chromium, lambda: missing("chromium", "chromedriver")),
    "firefox": (firefox, lambda: missing("firefox-esr")),
    "webkit": (webkit, lambda: missing("WebKitWebDriver", "Xvfb") or (None if glob.glob(MINIBROWSERS) else "MiniBrowser")),
}
