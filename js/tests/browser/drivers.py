"""
Browsers, driven by WebDriver: Chromium by selenium, Firefox by its own BiDi, since Debian has no geckodriver. Chromium has no window. Firefox has one,
on a screen without a monitor: by its protocol nothing can be dragged there, and so the X server moves what is.
"""
import json
import os
import re
import shutil
import subprocess
import tempfile
import threading
import time

import websocket
from selenium import webdriver
from selenium.webdriver.chrome.service import Service
from selenium.webdriver.common.actions.action_builder import ActionBuilder
from selenium.webdriver.common.keys import Keys

KEYS = {"Left": Keys.ARROW_LEFT, "Right": Keys.ARROW_RIGHT, "Up": Keys.ARROW_UP, "Down": Keys.ARROW_DOWN, "Shift": Keys.SHIFT, "Ctrl": Keys.CONTROL}
WORDS = ("--headless=new", "--disable-features=BackForwardCache", "--no-sandbox", "--disable-gpu", "--disable-dev-shm-usage", "--hide-scrollbars", "--window-size=900,760", "--lang=en")



def key_of(name):
    """The character that WebDriver has for a key: `Home`, `Left`, or a character itself."""
    return KEYS.get(name) or getattr(Keys, name.upper(), name)


class Chromium:
    """A Chromium with its driver."""

    name = "chromium"

    def __init__(self):
        options = webdriver.ChromeOptions()
        options.binary_location = shutil.which("chromium")
        for word in WORDS:
            options.add_argument(word)
        self.driver = webdriver.Chrome(service=Service(shutil.which("chromedriver")), options=options)
        self.driver.set_script_timeout(300)

    def open(self, address):
        self.driver.get(address)

    def evaluate(self, expression):
        """The value of an expression there, or what its promise becomes."""
        return json.loads(self.driver.execute_script(f"return (async () => JSON.stringify((await ({expression})) ?? null))()"))

    def press(self, *chords):
        """Presses keys one after another, each with those that are held meanwhile before it: `[["a"], ["Ctrl", "z"]]`."""
        actions = ActionBuilder(self.driver, duration=0)
        for chord in chords:
            *held, key = map(key_of, chord)
            for it in held:
                actions.key_action.key_down(it)
            actions.key_action.key_down(key).key_up(key)
            for it in reversed(held):
                actions.key_action.key_up(it)
        actions.perform()

    def click(self, x, y):
        """Clicks at a place of the window."""
        actions = ActionBuilder(self.driver, duration=0)
        actions.pointer_action.move_to_location(round(x), round(y)).click()
        actions.perform()

    def drag(self, start, end):
        """Moves what is selected at one place to another one."""
        actions = ActionBuilder(self.driver, duration=50)
        actions.pointer_action.move_to_location(*map(round, start)).pointer_down().move_to_location(*map(round, end)).pointer_up()
        actions.perform()

    def send(self, method, **parameters):
        """A command of the DevTools protocol."""
        return self.driver.execute_cdp_cmd(method, parameters)

    def close(self):
        self.driver.quit()
# The last event of each kind of a drag that the page is told of.
WATCHED = """(globalThis.seen = {}, ["mousedown", "dragover", "dragend"].forEach((it) => addEventListener(it, (event) => { seen[it] = event; }, true)))"""


class Screen:
    """A screen without a monitor, by the X server Xvfb; its mouse is moved by xdotool."""

    def __init__(self):
        words = [shutil.which("Xvfb"), "-displayfd", "1", "-screen", "0", "1280x1024x24", "-nolisten", "tcp"]
        self.process = subprocess.Popen(words, stdout=subprocess.PIPE, stderr=subprocess.DEVNULL, text=True)
        self.environment = {**os.environ, "DISPLAY": f":{self.process.stdout.readline().strip()}", "MOZ_ENABLE_WAYLAND": "0"}

    def point(self, *words):
        """What the mouse does, in words of xdotool."""
        subprocess.run(["xdotool", *map(str, words)], check=True, env=self.environment)

    def close(self):
        self.process.terminate()
        self.process.wait()
        self.process.stdout.close()


class Firefox:
    """A Firefox, by its WebDriver BiDi."""

    name = "firefox"

    def __init__(self):
        self.screen = Screen()
        self.profile = tempfile.TemporaryDirectory(prefix="try js ", ignore_cleanup_errors=True)
        words = ["--no-remote", "--remote-debugging-port=0", "--profile", self.profile.name]
        self.process = subprocess.Popen([shutil.which("firefox-esr") or shutil.which("firefox"), *words], stderr=subprocess.PIPE, stdout=subprocess.DEVNULL, text=True, env=self.screen.environment)
        address = next(filter(None, (re.search(r"BiDi listening on (ws://\S+)", line) for line in self.process.stderr)))[1]
        self.reader = threading.Thread(target=self.process.stderr.read, daemon=True)  # else Firefox would wait once the pipe is full
        self.reader.start()
        self.socket = websocket.create_connection(f"{address}/session", suppress_origin=True, timeout=600)
        self.count = 0
        self.send("session.new", capabilities={})
        self.context = self.send("browsingContext.create", type="tab", background=False)["context"]  # the first one never has the focus

    def send(self, method, **parameters):
        """A command of the protocol, and its result."""
        self.count += 1
        self.socket.send(json.dumps({"id": self.count, "method": method, "params": parameters}))
        while True:
            answer = json.loads(self.socket.recv())
            if answer.get("id") == self.count:
                if answer["type"] == "error":
                    raise RuntimeError(f"{method}: {answer['message']}")
                return answer["result"]

    def open(self, address):
        self.send("browsingContext.navigate", context=self.context, url=address, wait="complete")

    def evaluate(self, expression):
        """The value of an expression there, or what its promise becomes."""
        text = f"(async () => JSON.stringify((await ({expression})) ?? null))()"
        told = self.send("script.evaluate", expression=text, target={"context": self.context}, awaitPromise=True, userActivation=True)
        if told["type"] == "exception":
            raise RuntimeError(told["exceptionDetails"]["text"])
        return json.loads(told["result"]["value"])

    def press(self, *chords):
        """As Chromium.press."""
        steps = []
        for chord in chords:
            keys = list(map(key_of, chord))
            steps += [{"type": "keyDown", "value": it} for it in keys] + [{"type": "keyUp", "value": it} for it in reversed(keys)]
        self.send("input.performActions", context=self.context, actions=[{"type": "key", "id": "keys", "actions": steps}])

    def _point(self, *steps):
        self.send("input.performActions", context=self.context, actions=[{"type": "pointer", "id": "mouse", "actions": list(steps)}])

    def click(self, x, y):
        """Clicks at a place of the window."""
        self._point({"type": "pointerMove", "x": round(x), "y": round(y)}, {"type": "pointerDown", "button": 0}, {"type": "pointerUp", "button": 0})

    def drag(self, start, end):
        """As Chromium.drag, in small steps. It ends once the page is told that it has."""
        left, top = self.evaluate("[window.mozInnerScreenX, window.mozInnerScreenY]")
        places = [[round(left + a + (b - a) * step / 10) for left, a, b in zip((left, top), start, end)] for step in range(11)]
        self.evaluate(WATCHED)
        self.screen.point("mousemove", *places[0], "sleep", 0.1, "mousedown", 1)
        self.until("seen.mousedown")
        for place in places[1:]:
            self.screen.point("sleep", 0.05, "mousemove", *place)
        for step in range(100):  # a browser that is slow may begin to drag only after the last step
            if self.evaluate("Boolean(seen.dragover)"):
                break
            self.screen.point("mousemove", places[-1][0] + step % 2, places[-1][1], "sleep", 0.05)
        self.screen.point("mousemove", places[-1][0] + 1, places[-1][1], "sleep", 0.1, "mousemove", *places[-1], "sleep", 0.1, "mouseup", 1)
        self.until("seen.dragend")

    def until(self, expression):
        """Waits until an expression holds, five seconds at the most."""
        for _ in range(250):
            if self.evaluate(f"Boolean({expression})"):
                return
            time.sleep(0.02)

    def close(self):
        try:
            self.send("browser.close")
            self.process.wait(20)
        except (OSError, RuntimeError, websocket.WebSocketException, subprocess.TimeoutExpired):
            self.process.kill()
            self.process.wait()
        self.reader.join()
        self.process.stderr.close()
        self.profile.cleanup()
        self.screen.close()


BROWSERS = {it.name: it for it in (Chromium, Firefox)}
