"""Browsers that are driven as a person would: Chromium by its driver, over plain HTTP, and Firefox, for which Debian has no driver, by the
port that it opens for one. page/test uses it."""
import base64
import json
import os
import pathlib
import shutil
import signal
import socket
import subprocess
import tempfile
import time
import urllib.error
import urllib.request

WAIT = 30               # seconds after which a browser that does not answer is given up


class Failed(Exception):
    """What went wrong with a browser, in words."""


def free_port():
    with socket.socket() as there:
        there.bind(("127.0.0.1", 0))
        return there.getsockname()[1]


def need(*tools):
    """Failed where a program is not there, with its Debian package."""
    missing = [f"{tool} (Debian package {package})" for tool, package in tools if not shutil.which(tool)]
    if missing:
        raise Failed(f"not there: {', '.join(missing)}")


def end_all(process):
    """Ends a process, and all that it started, which are a group of their own; at last those too that do not listen."""
    for sent in (signal.SIGTERM, signal.SIGKILL):
        try:
            os.killpg(process.pid, sent)
        except ProcessLookupError:
            break
        until = time.monotonic() + 5
        while time.monotonic() < until and in_group(process):
            time.sleep(0.1)
    process.wait()


def in_group(process):
    """Whether anything of a process's group is still there."""
    process.poll()
    try:
        os.killpg(process.pid, 0)
    except ProcessLookupError:
        return False
    return True


class Browser:
    """What a person does with a browser, by the words of a driver: pointers, keys and the wheel."""

    def pointer(self, kind, points, name="one", pause=0, button=0):
        """What a finger, a pen or a mouse does along some points: down at the first, up at the last."""
        steps = [move(*points[0]), {"type": "pointerDown", "button": button}]
        for point in points[1:]:
            steps += [move(*point, pause)]
        return {"type": "pointer", "id": f"{kind} {name}", "parameters": {"pointerType": kind},
                "actions": [*steps, {"type": "pointerUp", "button": button}]}

    def drag(self, kind, *points, pause=0, button=0):
        self.actions(self.pointer(kind, points, pause=pause, button=button))

    def tap(self, kind, point):
        self.drag(kind, point)

    def keys(self, *keys):
        """Keys pressed one after the other; a key with + is pressed while those before it are held."""
        steps = []
        for key in keys:
            held = key.split("+") if len(key) > 1 else [key]
            codes = [CODES.get(part, part) for part in held]
            steps += [{"type": "keyDown", "value": code} for code in codes] + [{"type": "keyUp", "value": code} for code in reversed(codes)]
        self.actions({"type": "key", "id": "keyboard", "actions": steps})

    def wheel(self, point, pixels):
        self.actions({"type": "wheel", "id": "wheel", "actions": [
            {"type": "scroll", "x": round(point[0]), "y": round(point[1]), "deltaX": 0, "deltaY": pixels, "duration": 0}]})


class Chromium(Browser):
    """Chromium without a window, and its driver; both end with the `with`."""

    name = "Chromium"

    def __enter__(self):
        need(("chromium", "chromium"), ("chromedriver", "chromium-driver"))
        self.folder = tempfile.TemporaryDirectory(ignore_cleanup_errors=True)
        port = free_port()
        words = ["chromedriver", f"--port={port}"]
        self.driver = subprocess.Popen(words, stdout=subprocess.DEVNULL, stderr=subprocess.DEVNULL, start_new_session=True)
        self.root, self.session = f"http://127.0.0.1:{port}", None
        try:
            self.start()
        except BaseException:
            self.__exit__()
            raise
        return self

    def start(self):
        until = time.monotonic() + WAIT
        while True:
            try:
                self.ask("GET", "/status")
                break
            except (OSError, Failed):
                if time.monotonic() > until:
                    raise Failed(f"chromedriver does not answer after {WAIT} seconds") from None
                time.sleep(0.1)
        words = ["--headless", "--no-sandbox", "--disable-gpu", "--hide-scrollbars", f"--user-data-dir={self.folder.name}/user"]
        wanted = {"browserName": "chrome", "goog:chromeOptions": {"args": words}, "goog:loggingPrefs": {"browser": "ALL"}}
        answer = self.ask("POST", "/session", {"capabilities": {"alwaysMatch": wanted}})
        self.session = f"/session/{answer['sessionId']}"
        self.version = answer["capabilities"]["browserVersion"]

    def __exit__(self, *_):
        try:
            if self.session:
                self.ask("DELETE", self.session)
        except (OSError, Failed):
            pass
        end_all(self.driver)
        self.folder.cleanup()

    def ask(self, method, path, body=None):
        """One request to the driver, and its value."""
        data = None if method != "POST" else json.dumps(body or {}).encode()
        request = urllib.request.Request(self.root + path, data, {"Content-Type": "application/json"}, method=method)
        try:
            with urllib.request.urlopen(request, timeout=WAIT) as answer:
                return json.load(answer)["value"]
        except urllib.error.HTTPError as e:
            said = json.loads(e.read() or b"{}").get("value", {})
            raise Failed(f"{path.rsplit('/', 1)[-1]}: {said.get('message', e).splitlines()[0][:300]}") from e

    def post(self, path, **body):
        return self.ask("POST", self.session + path, body)

    def cdp(self, command, **words):
        """A command of the browser's own, beyond the driver's standard."""
        return self.post("/goog/cdp/execute", cmd=command, params=words)

    def open(self, file):
        self.post("/url", url=pathlib.Path(file).resolve().as_uri())

    def script(self, text, *words):
        return self.post("/execute/sync", script=text, args=list(words))

    def later(self, text, *words):
        """A script that hands its answer to the last of its arguments."""
        return self.post("/execute/async", script=text, args=list(words))

    def size(self, width, height, dense=1):
        """The size of the page, and how many of the screen's pixels one of its own has."""
        self.cdp("Emulation.setDeviceMetricsOverride", width=width, height=height, deviceScaleFactor=dense, mobile=False)

    def actions(self, *sources):
        self.post("/actions", actions=list(sources))

    def picture(self):
        return base64.b64decode(self.ask("GET", self.session + "/screenshot"))

    def log(self):
        """What the browser's console says, worst first: errors alone."""
        return [entry["message"] for entry in self.post("/se/log", type="browser") if entry["level"] == "SEVERE"]


class Firefox(Browser):
    """Firefox without a window. It takes a driver's commands by a port of its own: a length, a colon, and a list as JSON."""

    name = "Firefox"

    def __enter__(self):
        need(("firefox-esr", "firefox-esr"))
        self.folder, self.count = tempfile.TemporaryDirectory(ignore_cleanup_errors=True), 0
        port = free_port()
        # A page that is opened from a disk may keep what it has drawn; nothing is looked up on the way.
        prefs = {"marionette.port": port, "datareporting.policy.dataSubmissionEnabled": False, "app.update.enabled": False,
                 "browser.shell.checkDefaultBrowser": False, "browser.startup.homepage": "about:blank"}
        lines = [f"user_pref({json.dumps(name)}, {json.dumps(value)});\n" for name, value in prefs.items()]
        (pathlib.Path(self.folder.name) / "user.js").write_text("".join(lines))
        words = ["firefox-esr", "--marionette", "--headless", "--no-remote", "--profile", self.folder.name]
        there = {**os.environ, "HOME": self.folder.name, "MOZ_HEADLESS_WIDTH": "1920", "MOZ_HEADLESS_HEIGHT": "1200"}
        self.process = subprocess.Popen(words, stdout=subprocess.DEVNULL, stderr=subprocess.DEVNULL, env=there, start_new_session=True)
        self.socket = None
        try:
            self.start(port)
        except BaseException:
            self.__exit__()
            raise
        return self

    def start(self, port):
        until = time.monotonic() + 4 * WAIT
        while self.socket is None:
            try:
                self.socket = socket.create_connection(("127.0.0.1", port), timeout=4 * WAIT)
            except OSError:
                if time.monotonic() > until or self.process.poll() is not None:
                    raise Failed("Firefox does not answer") from None
                time.sleep(0.2)
        self.take()
        answer = self.ask("WebDriver:NewSession")
        self.version = answer["capabilities"]["browserVersion"]
        window = self.ask("WebDriver:NewWindow", type="tab")
        self.ask("WebDriver:SwitchToWindow", handle=window["handle"])

    def __exit__(self, *_):
        if self.socket:
            self.socket.close()
        end_all(self.process)
        self.folder.cleanup()

    def take(self):
        """One message."""
        length = b""
        while not length.endswith(b":"):
            length += self.exactly(1)
        return json.loads(self.exactly(int(length[:-1])))

    def exactly(self, count):
        taken = b""
        while len(taken) < count:
            part = self.socket.recv(count - len(taken))
            if not part:
                raise Failed("Firefox ended")
            taken += part
        return taken

    def ask(self, command, **words):
        self.count += 1
        data = json.dumps([0, self.count, command, words])
        self.socket.sendall(f"{len(data.encode())}:{data}".encode())
        _, _, error, value = self.take()
        if error:
            raise Failed(f"{command}: {error.get('message', error)[:300]}")
        return value

    def open(self, file):
        self.ask("WebDriver:Navigate", url=pathlib.Path(file).resolve().as_uri())

    def script(self, text, *words):
        return self.ask("WebDriver:ExecuteScript", script=text, args=list(words))["value"]

    def later(self, text, *words):
        return self.ask("WebDriver:ExecuteAsyncScript", script=text, args=list(words))["value"]

    def actions(self, *sources):
        self.ask("WebDriver:PerformActions", actions=list(sources))

    def size(self, width, height, _dense=1):
        """The page's size; the window is as much larger as its frame is."""
        self.ask("WebDriver:SetWindowRect", width=width, height=height)
        wide, high = self.script("return [innerWidth, innerHeight]")
        self.ask("WebDriver:SetWindowRect", width=width + width - wide, height=height + height - high)
        found = self.script("return [innerWidth, innerHeight]")
        if found != [width, height]:
            raise Failed(f"Firefox's page is {found[0]} by {found[1]} pixels, and not {width} by {height}")

    def picture(self):
        return base64.b64decode(self.ask("WebDriver:TakeScreenshot", full=False)["value"])

    def log(self):
        return []


CODES = {"Ctrl": "\ue009", "Shift": "\ue008", "Enter": "\ue007", "Escape": "\ue00c", "Tab": "\ue004", "Left": "\ue012", "Up": "\ue013",
         "Right": "\ue014", "Down": "\ue015", "Space": " ", "Backspace": "\ue003"}


def move(x, y, duration=0):
    return {"type": "pointerMove", "duration": duration, "x": round(x), "y": round(y), "origin": "viewport"}
