"""Each row of keys, pressed in a browser."""
import json
import unittest

from harness import BrowserCase
from rows import ROWS

CHROMIUM_ONLY = ("{menu ", "{layout ", "{compose ", "{commit ", "{drop ")


def tokens_of(keys):
    """The keys one by one: characters, and what is in braces."""
    found, depth = [], 0
    for char in keys:
        if depth == 0:
            found.append("")
        depth += (char == "{") - (char == "}")
        found[-1] += char
    return found


def chords_of(token):
    """The chords of a key: those of `{Ctrl+z*2}`."""
    if len(token) == 1:
        return [[token]]
    name, _, count = token[1:-1].partition("*")
    return [["Tab"] if name == "leave" else name.split("+")] * int(count or 1)


class Keys(BrowserCase):
    """Keys in a field."""

    def setUp(self):
        self.open("trial.html", "typeof begin === 'function'")

    def do_click(self, side):
        place = self.look("place()")
        self.browser.click(place[side], place["middle"])

    def copy(self, text):
        """Puts a text into the clipboard."""
        self.look(f"(aside.value = {json.dumps(text)}, aside.select(), aside.focus())")
        self.browser.press(["Ctrl", "c"])

    def do_paste(self, _text):
        self.browser.press(["Ctrl", "v"])

    def do_at(self, place):
        self.look(f"field.setSelectionRange({place}, {place})")

    def do_do(self, code):
        self.look(f"(() => {{ {code} }})()")

    def do_menu(self, command):
        for kind in ("rawKeyDown", "keyUp"):
            self.browser.send("Input.dispatchKeyEvent", type=kind, key="F20", commands=[command] if kind == "rawKeyDown" else [])

    def do_layout(self, words):
        key, code = words.split()
        number = ord((key if key.isascii() else code[-1]).upper())
        for kind in ("rawKeyDown", "keyUp"):
            self.browser.send("Input.dispatchKeyEvent", type=kind, key=key, code=code, modifiers=2, windowsVirtualKeyCode=number)

    def do_compose(self, text):
        self.browser.send("Input.imeSetComposition", text=text, selectionStart=len(text), selectionEnd=len(text))

    def do_commit(self, text):
        self.browser.send("Input.insertText", text=text)

    def do_drop(self, text):
        place = self.look("place()")
        data = {"items": [{"mimeType": "text/plain", "data": text}], "dragOperationsMask": 1}
        for kind in ("dragEnter", "dragOver", "drop"):
            self.browser.send("Input.dispatchDragEvent", type=kind, x=place["right"], y=place["middle"], data=data)

    def do_drag(self, places):
        start, end, to = map(int, places.split())
        self.look(f"field.setSelectionRange({start}, {end})")
        place = self.look("place()")
        self.browser.drag(*((place["first"] + place["width"] * it, place["middle"]) for it in (start + 0.4 * (end - start), to)))

    def press(self, keys):
        """Does what the keys of a row say. Those that follow each other are pressed together."""
        chords = []
        for token in tokens_of(keys):
            word, _, rest = token[1:-1].partition(" ")
            act = getattr(self, f"do_{word}", None)
            if act is None:
                chords += chords_of(token)
                continue
            self.flush(chords)
            act(rest)
        self.flush(chords)

    def flush(self, chords):
        """Presses the keys that wait."""
        if chords:
            self.browser.press(*chords)
            chords.clear()

    def test_rows(self):
        """Each row."""
        left_out = 0
        for attributes, keys, shown, sent, wrong in ROWS:
            if self.browser.name != "chromium" and any(it in keys for it in CHROMIUM_ONLY):
                left_out += 1
                continue
            with self.subTest(field=attributes, keys=keys):
                for token in tokens_of(keys):
                    if token.startswith("{paste "):
                        self.copy(token[len("{paste ") : -1])
                self.begin(attributes)
                self.press(keys)
                state = self.look("state()")
                found = state["caret"] if "|" in shown else state["text"]
                self.assertEqual((found, state["sent"], state["wrong"]), (shown, sent, wrong))
                self.assertEqual(state["disagreements"], [])
        print(f"{self.browser.name}: {len(ROWS) - left_out} rows of keys, {left_out} left out", flush=True)


if __name__ == "__main__":
    unittest.main()
