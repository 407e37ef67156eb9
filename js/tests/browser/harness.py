"""What the tests in a browser share. BROWSER names it, and PACKAGE is the folder of the package."""
import atexit
import functools
import json
import os
import pathlib
import time
import unittest

from drivers import BROWSERS
from server import Server

HERE = pathlib.Path(__file__).resolve().parent
OWN = {f"/{it}": (HERE / it).read_text(encoding="utf-8") for it in ("trial.html", "trial.js", "wander.js")}


@functools.cache
def browser():
    """The browser: it is started once, and ends with the program."""
    it = BROWSERS[os.environ["BROWSER"]]()
    atexit.register(it.close)
    return it


class BrowserCase(unittest.TestCase):
    """Tests over one browser and a server of the package."""

    @classmethod
    def setUpClass(cls):
        cls.server = Server(os.environ["PACKAGE"], instead=OWN)
        cls.addClassCleanup(cls.server.close)
        cls.browser = browser()

    def look(self, expression):
        """The value of an expression of the page."""
        return self.browser.evaluate(expression)

    def until(self, expression):
        """Waits until an expression holds."""
        end = time.monotonic() + 300
        while not self.look(expression):
            self.assertLess(time.monotonic(), end, f"{expression} never holds")
            time.sleep(0.02)

    def open(self, path, ready="customElements.get('number-field') !== undefined"):
        """Opens a page of the server."""
        self.browser.open(f"{self.server.address}/{path}")
        self.until(ready)

    def begin(self, attributes=""):
        """Puts a field into the page `trial.html`."""
        pairs = [it.partition("=")[::2] for it in attributes.split()]
        self.look(f"begin({json.dumps(pairs)})")

    def type(self, text):
        """Presses the keys of a text."""
        self.browser.press(*text)
