"""Headless Chromium and Firefox by the W3C's WebDriver, over the standard library: Debian's chromium-driver, and Firefox's own Marionette and WebDriver BiDi
(Debian has no geckodriver)."""

import base64
import http.client
import json
import os
import signal
import socket
import struct
import subprocess
import time

from realm import free_port

ELEMENT = "element-6066-11e4-a52e-4f735466cecf"
WAIT = 60  # seconds for an answer
KEYS = {"Tab": "\ue004", "Enter": "\ue007", "Shift": "\ue008", "Control": "\ue009", "Escape": "\ue00c", "Home": "\ue011", "End": "\ue010", "Space": " "}
KEYS.update({"ArrowLeft": "\ue012", "ArrowUp": "\ue013", "ArrowRight": "\ue014", "ArrowDown": "\ue015", "PageUp": "\ue00e", "PageDown": "\ue00f"})


class Failed(Exception):
    """A command failed."""


def environment_of(home, zone):
    """An environment with a home of its own, a time zone and no proxy."""
    environment = dict(os.environ, HOME=home, TZ=zone, LANG="en_US.UTF-8", TMPDIR=home)
    return {name: value for name, value in environment.items() if not name.lower().endswith("_proxy")}


class Browser:
    """What both can do. `ask` sends a command of WebDriver, by its path in Chromium and its name in Firefox."""

    name = ""
    others = ()  # addresses of further servers of pages, to which its requests may go

    def go(self, url):
        self.ask("POST", "/url", "WebDriver:Navigate", {"url": url})

    def find(self, selector):
        return self.ask("POST", "/element", "WebDriver:FindElement", {"using": "css selector", "value": selector})[ELEMENT]

    def click(self, selector):
        found = self.find(selector)
        self.ask("POST", "/element/%s/click" % found, "WebDriver:ElementClick", {"id": found})

    def write(self, selector, text):
        """What a keyboard writes into a field, or the path of a file."""
        found = self.find(selector)
        self.ask("POST", "/element/%s/value" % found, "WebDriver:ElementSendKeys", {"id": found, "text": text})

    def press(self, *keys):
        """Keys, one after another; "Control+v" is two at once."""
        actions = []
        for key in keys:
            pressed = [KEYS.get(each, each) for each in key.split("+")] if len(key) > 1 else [key]
            actions += [{"type": "keyDown", "value": each} for each in pressed]
            actions += [{"type": "keyUp", "value": each} for each in reversed(pressed)]
        self.ask("POST", "/actions", "WebDriver:PerformActions", {"actions": [{"type": "key", "id": "keyboard", "actions": actions}]})

    def point(self, x, y):
        """Moves the mouse there."""
        move = {"type": "pointerMove", "duration": 0, "x": int(x), "y": int(y)}
        pointer = {"type": "pointer", "id": "mouse", "parameters": {"pointerType": "mouse"}, "actions": [move]}
        self.ask("POST", "/actions", "WebDriver:PerformActions", {"actions": [pointer]})

    def picture(self, path):
        with open(path, "wb") as file:
            file.write(base64.b64decode(self.ask("GET", "/screenshot", "WebDriver:TakeScreenshot", {"full": False, "hash": False})))

    def named(self, selector):
        """The role and the name that a screen reader is told of an element (WAI-ARIA; WebDriver 2, 12.4.9 and 12.4.10)."""
        found = self.find(selector)
        return tuple(
            self.ask("GET", "/element/%s/%s" % (found, path), name, {"id": found})
            for path, name in (("computedrole", "WebDriver:GetComputedRole"), ("computedlabel", "WebDriver:GetComputedLabel"))
        )

    def _ended(self, process):
        try:
            os.killpg(process.pid, signal.SIGTERM)
            process.wait(20)
        except (OSError, subprocess.TimeoutExpired):
            pass


class Chromium(Browser):
    """A session of Chromium with a profile of its own in a folder, and a time zone."""

    name = "Chromium"

    def __init__(self, folder, zone="UTC"):
        home = os.path.join(folder, "chromium-home")
        os.makedirs(home, exist_ok=True)
        self.port = free_port()
        environment = environment_of(home, zone)
        command = ["chromedriver", "--port=%d" % self.port, "--silent"]
        self.process = subprocess.Popen(command, env=environment, stdout=subprocess.DEVNULL, stderr=subprocess.DEVNULL, start_new_session=True)
        end = time.monotonic() + WAIT
        while True:
            try:
                self._asked("GET", "/status")
                break
            except OSError:
                if time.monotonic() > end:
                    raise
                time.sleep(0.1)
        words = ["--headless=new", "--no-sandbox", "--disable-gpu", "--disable-dev-shm-usage", "--no-first-run", "--disable-background-networking", "--no-proxy-server"]
        words += ["--disable-component-update", "--disable-sync", "--lang=en-US", "--host-resolver-rules=MAP rebound.test 127.0.0.1", "--user-data-dir=" + os.path.join(home, "profile")]
        options = {"args": words, "perfLoggingPrefs": {"enableNetwork": True, "enablePage": False}}
        asked = {"browserName": "chrome", "goog:chromeOptions": options, "goog:loggingPrefs": {"performance": "ALL", "browser": "ALL"}}
        made = self._asked("POST", "/session", {"capabilities": {"alwaysMatch": asked}})
        self.session = "/session/" + made["sessionId"]
        self.version = made["capabilities"]["browserVersion"]
        self.ask("POST", "/timeouts", None, {"script": WAIT * 1000})

    def _asked(self, method, path, body=None):
        link = http.client.HTTPConnection("127.0.0.1", self.port, timeout=WAIT * 2)
        try:
            link.request(method, path, None if body is None else json.dumps(body), {"Content-Type": "application/json"})
            answer = link.getresponse()
            value = json.loads(answer.read())["value"]
        finally:
            link.close()
        if answer.status != 200:
            raise Failed("%s: %s" % (value["error"], value.get("message", "")[:300]))
        return value

    def ask(self, method, path, name=None, body=None):
        return self._asked(method, self.session + path, (body or {}) if method == "POST" else None)

    def run(self, script, *words):
        """What a function's body returns, or what its promise gives."""
        return self.ask("POST", "/execute/sync", None, {"script": script, "args": list(words)})

    def tool(self, command, **words):
        """A command of Chromium's own protocol."""
        return self.ask("POST", "/goog/cdp/execute", None, {"cmd": command, "params": words})

    def size(self, width=None, height=None):
        """How large the page is; without numbers as at first."""
        if width is None:
            self.tool("Emulation.clearDeviceMetricsOverride")
        else:
            self.tool("Emulation.setDeviceMetricsOverride", width=width, height=height, deviceScaleFactor=1, mobile=width < 500)

    def scheme(self, name=None):
        """Whether the page is to be dark or light."""
        self.tool("Emulation.setEmulatedMedia", features=[{"name": "prefers-color-scheme", "value": name}] if name else [])

    def urls(self):
        """Where the requests went of all pages since this was asked for last."""
        asked = [json.loads(each["message"])["message"] for each in self._log("performance")]
        asked = [each["params"] for each in asked if each["method"] == "Network.requestWillBeSent"]
        return [each["request"]["url"] for each in asked if not each["documentURL"].startswith("chrome")]  # but for the browser's own first page

    def complaints(self):
        """What it says of the pages since this was asked for last: errors of scripts, and what a policy refuses."""
        return [each["message"] for each in self._log("browser")]

    def _log(self, kind):
        return self.ask("POST", "/se/log", None, {"type": kind})

    def end(self):
        try:
            self._asked("DELETE", self.session)
        except (OSError, Failed):
            pass
        self._ended(self.process)


PREFERENCES = {
    "network.dns.disableIPv6": True,
    "network.proxy.type": 0,
    "network.captive-portal-service.enabled": False,
    "network.connectivity-service.enabled": False,
    "network.dns.localDomains": "rebound.test",
    "browser.shell.checkDefaultBrowser": False,
    "browser.startup.page": 0,
    "browser.newtabpage.enabled": False,
    "datareporting.policy.dataSubmissionEnabled": False,
    "toolkit.telemetry.enabled": False,
    "app.normandy.enabled": False,
    "app.update.enabled": False,
    "extensions.update.enabled": False,
    "intl.accept_languages": "en-US",
    "remote.active-protocols": 3,
}


class _Socket:
    """A connection of WebSockets to this machine (RFC 6455), with messages of text alone."""

    def __init__(self, port, path):
        self.link = socket.create_connection(("127.0.0.1", port), WAIT)
        key = base64.b64encode(os.urandom(16)).decode()
        lines = ["GET %s HTTP/1.1" % path, "Host: 127.0.0.1:%d" % port, "Upgrade: websocket", "Connection: Upgrade", "Sec-WebSocket-Version: 13", "Sec-WebSocket-Key: " + key]
        self.link.sendall("\r\n".join(lines + ["", ""]).encode())
        self.file = self.link.makefile("rb")
        first = self.file.readline()
        while self.file.readline().strip():
            pass
        if b" 101 " not in first:
            raise Failed("Firefox: %r" % first)

    def send(self, text):
        octets, mask = text.encode(), os.urandom(4)
        size = len(octets)
        head = struct.pack(">BB", 0x81, 0x80 | size) if size < 126 else struct.pack(">BBH", 0x81, 0x80 | 126, size) if size < 65536 else struct.pack(">BBQ", 0x81, 0x80 | 127, size)
        whole = int.from_bytes((mask * (size // 4 + 1))[:size], "big") ^ int.from_bytes(octets, "big")
        self.link.sendall(head + mask + whole.to_bytes(size, "big"))

    def take(self):
        """The next message."""
        text = b""
        while True:
            first, size = self.file.read(2)
            size &= 127
            size = int.from_bytes(self.file.read(2 if size == 126 else 8), "big") if size > 125 else size
            piece = self.file.read(size)
            if first & 15 in (0, 1):
                text += piece
                if first & 128:
                    return text.decode()
            elif first & 15 == 8:
                raise Failed("Firefox has ended")


class Firefox(Browser):
    """A session of Firefox with a profile of its own in a folder, and a time zone."""

    name = "Firefox"

    def __init__(self, folder, zone="UTC"):
        home = os.path.join(folder, "firefox-home")
        os.makedirs(os.path.join(home, "profile"), exist_ok=True)
        port, other, self.count = free_port(), free_port(), 0
        with open(os.path.join(home, "profile", "user.js"), "w", encoding="ascii") as file:
            file.writelines('user_pref("%s", %s);\n' % (name, json.dumps(each)) for name, each in dict(PREFERENCES, **{"marionette.port": port}).items())
        command = ["firefox-esr", "--headless", "--marionette", "--remote-debugging-port", str(other), "--remote-allow-system-access", "--no-remote"]
        command += ["--width", "1200", "--height", "1000", "--profile", os.path.join(home, "profile"), "about:blank"]
        environment = environment_of(home, zone)
        self.process = subprocess.Popen(command, env=environment, stdout=subprocess.DEVNULL, stderr=subprocess.DEVNULL, start_new_session=True)
        end = time.monotonic() + WAIT
        while True:
            try:
                self.link = socket.create_connection(("127.0.0.1", port), WAIT * 2)
                break
            except OSError:
                if time.monotonic() > end:
                    raise
                time.sleep(0.2)
        self.file = self.link.makefile("rb")
        self._message()
        made = self._asked("WebDriver:NewSession", {"webSocketUrl": True})
        self.version = made["capabilities"]["browserVersion"]
        self._asked("WebDriver:SetTimeouts", {"script": WAIT * 1000})
        self.socket, self.sent, self.events = _Socket(other, "/session/" + made["sessionId"]), 0, []
        self.context = self._bidi("browsingContext.getTree")["contexts"][0]["context"]
        self._bidi("session.subscribe", events=["log.entryAdded", "network.beforeRequestSent"])
        self._asked("WebDriver:SetWindowRect", {"width": 1200, "height": 1000})

    def _message(self):
        size = b""
        while not size.endswith(b":"):
            octet = self.file.read(1)
            if not octet:
                raise Failed("Firefox has ended")
            size += octet
        return json.loads(self.file.read(int(size[:-1])))

    def _asked(self, name, words):
        """What a command of Marionette answers."""
        self.count += 1
        body = json.dumps([0, self.count, name, words]).encode()
        self.link.sendall(b"%d:" % len(body) + body)
        _, _, error, answer = self._message()
        if error is not None:
            raise Failed("%s: %s" % (error["error"], error.get("message", "")[:300]))
        return answer

    def ask(self, method, path, name=None, body=None):
        answer = self._asked(name, body or {})
        return answer["value"] if isinstance(answer, dict) and set(answer) == {"value"} else answer

    def _bidi(self, method, **words):
        """What a command of WebDriver BiDi answers."""
        self.sent += 1
        self.socket.send(json.dumps({"id": self.sent, "method": method, "params": words}))
        while True:
            told = json.loads(self.socket.take())
            if told.get("type") == "event":
                self.events.append(told)
            elif told.get("id") == self.sent:
                if told["type"] == "error":
                    raise Failed("%s: %s" % (told["error"], told["message"][:300]))
                return told["result"]

    def run(self, script, *words):
        """What a function's body returns, or what its promise gives; it sees what the page's own scripts see."""
        function = "async (words) => JSON.stringify(await (function () { %s\n }).apply(null, JSON.parse(words)))" % script
        given = [{"type": "string", "value": json.dumps(words)}]
        target = {"context": self.context}
        told = self._bidi("script.callFunction", functionDeclaration=function, arguments=given, target=target, awaitPromise=True, userActivation=True)
        if told["type"] == "exception":
            raise Failed("javascript error: %s" % told["exceptionDetails"]["text"][:300])
        return json.loads(told["result"]["value"]) if told["result"]["type"] == "string" else None

    def size(self, width=None, height=None):
        """How large the page is; without numbers as at first."""
        self._bidi("browsingContext.setViewport", context=self.context, viewport={"width": width, "height": height} if width else None)

    def scheme(self, name=None):
        """Whether the page is to be dark or light."""
        script = 'Services.prefs.setIntPref("layout.css.prefers-color-scheme.content-override", %d)' % {"dark": 0, "light": 1, None: 2}[name]
        self._asked("Marionette:SetContext", {"value": "chrome"})
        try:
            self._asked("WebDriver:ExecuteScript", {"script": script, "args": []})
        finally:
            self._asked("Marionette:SetContext", {"value": "content"})
        self.run("return new Promise((done) => setTimeout(done, 200))")

    def _told(self, method):
        """The events of this kind since they were asked for last."""
        self._bidi("session.status")
        found = [each["params"] for each in self.events if each["method"] == method]
        self.events = [each for each in self.events if each["method"] != method]
        return found

    def urls(self):
        return [each["request"]["url"] for each in self._told("network.beforeRequestSent") if not each["request"]["url"].startswith(("about:", "blob:", "data:"))]  # which go nowhere

    def complaints(self):
        return [each["text"] for each in self._told("log.entryAdded") if each["level"] in ("error", "warn")]

    def end(self):
        try:
            self._asked("Marionette:Quit", {"flags": ["eForceQuit"]})
        except (OSError, Failed, ValueError):
            pass
        self.link.close()
        self._ended(self.process)
