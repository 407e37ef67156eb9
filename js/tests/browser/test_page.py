"""The page js/page, and pages of one's own with a field, as people and programs use them."""
import json
import os
import subprocess
import unittest

from harness import BrowserCase
from server import Server

PACKAGE, SCREENSHOTS = os.environ["PACKAGE"], os.environ.get("SCREENSHOTS")
READY = "document.documentElement?.dataset.ready !== undefined"
OWN = """<!doctype html><html lang="hi"><meta charset="utf-8"><script type="module" src="number-field.js"></script>
<form><label>Price <number-field name="price" locale="de" value="1234.50"></number-field></label><number-field id="bare" aria-label="Bare"></number-field>
<fieldset disabled><number-field id="off" name="off" value="5"></number-field></fieldset><button></button></form>"""
PRICE = "document.querySelector('[name=price]')"
INPUT = "number.shadowRoot.querySelector('input')"
STATE = f"(() => {{ const it = {INPUT}, at = it.selectionStart; return [it.value.slice(0, at) + '|' + it.value.slice(at), number.value]; }})()"
CHROMIUM = unittest.skipUnless(os.environ["BROWSER"] == "chromium", "only by Chromium's own protocol")


class Page(BrowserCase):
    """The page js/page."""

    def setUp(self):
        self.open("page/index.html", READY)

    def fresh(self, locale):
        """Chooses a locale, empties the field by its keys, and leaves it with the focus."""
        self.look(f"(() => {{ const it = document.getElementById('locale'); it.value = {locale!r}; it.dispatchEvent(new Event('change')); number.focus(); number.select(); }})()")
        self.browser.press(["Backspace"])

    def texts(self, *names):
        """The texts of some places of the page."""
        return self.look(f"{json.dumps(names)}.map((id) => document.getElementById(id).textContent)")

    def test_locales(self):
        """The page has all locales, and each opens."""
        found = self.look("""(() => {
            const chooser = document.getElementById("locale"), bad = [];
            for (const { value } of chooser.options) {
              chooser.value = value;
              chooser.dispatchEvent(new Event("change"));
              const it = number.formatter;
              if (it.resolvedOptions().locale !== value || it.readLenient(number.text) !== "-1234567.5" || document.getElementById("long").textContent === "") bad.push(value);
            }
            return [chooser.options.length, bad];
        })()""")
        self.assertEqual(found[1], [])
        self.assertGreater(found[0], 900)
        self.assertEqual(self.texts("fault"), [""])

    def test_form(self):
        """The form gets the number by Enter, and is told of what is none."""
        self.fresh("de")
        self.browser.press(*"1234,5", ["Enter"])
        self.assertEqual(self.texts("sent"), ["locale=de&number=1234.5"])
        self.fresh("de")
        self.browser.press(*"1.5", ["Enter"])
        self.assertEqual(self.look(f"[{INPUT}.getAttribute('aria-invalid'), number.validity.badInput]"), ["true", True])
        self.assertIn("1.234,5", self.look("number.shadowRoot.getElementById('message').textContent"))
        self.assertEqual(self.texts("sent"), [""])
        self.fresh("de")
        self.assertEqual(self.look("number.validity.valueMissing"), True)
        self.look("form.reset()")
        self.until("number.text === '-1,234,567.5'")

    def test_parts(self):
        """The direction, the parts, and what Intl writes."""
        for locale, direction in (("ar-EG", "rtl"), ("he", "rtl"), ("fa", "rtl"), ("ur", "rtl"), ("de", "ltr"), ("az-Cyrl", "ltr")):
            self.fresh(locale)
            self.type("5")
            self.assertEqual(self.look(f"[{INPUT}.dir, parts.dir]"), [direction, direction], locale)
        self.fresh("de")
        self.type("-1234567,5")
        parts = self.look("[...parts.children].map((it) => it.className + ' ' + it.textContent)")
        self.assertEqual(parts, ["minusSign -", "integer 1", "group .", "integer 234", "group .", "integer 567", "decimal ,", "fraction 5"])
        self.assertEqual(self.texts("value", "short", "shown", "long", "intl"), ["-1234567.5", "-1,2\u00a0Mio.", "-1.2c6", "-1,2 Millionen", "-1.234.567,5"])

    @CHROMIUM
    def test_told(self):
        """Labels, and what a screen reader is told."""
        self.fresh("hi")
        self.type("1234567.5")
        ((name, value, said),) = self.told("textbox")
        self.assertEqual((name, value), ("Number", "12,34,567.5"))
        self.assertTrue(said["focused"] and said["required"] and said.get("invalid") != "true", said)
        self.assertEqual([it[0] for it in self.told("combobox")], ["Locale"])
        for is_required in (False, True):
            self.look(f"(number.required = {json.dumps(is_required)}, 1)")
            self.assertEqual(self.told("textbox")[0][2].get("required", False), is_required)
        self.look("(document.activeElement.blur(), document.querySelector('label[for=number]').click())")
        self.assertEqual(self.look("[document.activeElement.id, number.shadowRoot.activeElement.id]"), ["number", "input"])

    @CHROMIUM
    def test_narrow(self):
        """A page of 360 pixels does not scroll sideways."""
        self.browser.send("Emulation.setDeviceMetricsOverride", width=360, height=740, deviceScaleFactor=1, mobile=False)
        try:
            self.fresh("de")
            self.type("1234567890123456789012345678901234567890")
            self.assertLessEqual(self.look("document.documentElement.scrollWidth"), 360)
        finally:
            self.browser.send("Emulation.clearDeviceMetricsOverride")

    @CHROMIUM
    @unittest.skipUnless(SCREENSHOTS, "no folder for pictures")
    def test_pictures(self):
        for locale, keys in (("de", "-1234567,891"), ("hi", "-1234567.891"), ("ar-EG", "-1234567٫891")):
            self.fresh(locale)
            self.type(keys)
            self.browser.driver.save_screenshot(f"{SCREENSHOTS}/{locale}.png")

    def told(self, role):
        """Each node of a role, with its name, its value and its properties."""
        nodes = self.browser.send("Accessibility.getFullAXTree")["nodes"]
        found = [it for it in nodes if it.get("role", {}).get("value") == role]
        return [(it["name"]["value"], it.get("value", {}).get("value"), {one["name"]: one["value"].get("value") for one in it.get("properties", [])}) for it in found]


class Own(BrowserCase):
    """A page of one's own takes the field in a line."""

    def setUp(self):
        self.server.instead["/own.html"] = OWN
        self.open("own.html")

    def test_takes(self):
        self.assertEqual(self.look(f"[{PRICE}.text, {PRICE}.value, {PRICE}.form === document.forms[0], [...new FormData(document.forms[0])]]"), ["1.234,50", "1234.50", True, [["price", "1234.50"]]])
        self.assertEqual(self.look("[bare.locale, bare.name]"), ["hi", None])
        self.look("(off.setAttribute('inputmode', 'text'), bare.name = 'bare')")
        self.assertEqual(self.look("[bare, off].map((it) => it.shadowRoot.querySelector('input')).map((it) => [it.inputMode, it.disabled])"), [["decimal", False], ["text", True]])
        self.assertEqual(self.look("[...new FormData(document.forms[0])]"), [["price", "1234.50"], ["bare", ""]])
        self.look(f"({PRICE}.disabled = true, 1)")
        self.assertEqual(self.look("[...new FormData(document.forms[0])]"), [["bare", ""]])

    def test_back(self):
        """Where the browser goes back the number is the same, also where the page is in another language then."""
        script = "<script>document.querySelector('[name=price]').setAttribute('locale', sessionStorage.locale)</script>"
        unload = "<script>addEventListener('unload', () => {})</script>"  # so that a browser makes the page again
        self.server.instead["/own.html"] = OWN + script + unload
        for keys, wanted in (("1234", ["1234", "1,234", False]), ("1,2345", ["1.2345", "1.2345", False]), ("12x", ["", "12x", True])):
            self.look("sessionStorage.locale = 'de'")
            self.open("own.html")
            self.look(f"({PRICE}.focus(), {PRICE}.select())")
            self.type(keys)
            self.look("sessionStorage.locale = 'en'")
            self.open("page/page.css", "customElements.get('number-field') === undefined")
            self.look("history.back()")
            self.until("customElements.get('number-field') !== undefined")
            self.until(f"{PRICE}.text !== '1,234.50'")
            self.assertEqual(self.look(f"[{PRICE}.value, {PRICE}.text, {PRICE}.validity.badInput]"), wanted, keys)

    def test_language(self):
        """The page's language changes: a field without a locale of its own follows, and so do messages."""
        self.look("(bare.required = true, bare.value = '1234567.5')")
        self.assertEqual(self.look("bare.text"), "12,34,567.5")
        self.look("(document.documentElement.lang = 'de', 1)")
        self.until("bare.text === '1.234.567,5'")
        self.look(f"(bare.value = '', {PRICE}.value = 'x')")
        self.assertEqual(self.look(f"[bare, {PRICE}].map((it) => it.validationMessage)"), ["Geben Sie eine Zahl ein.", "Geben Sie eine Zahl ein, zum Beispiel 1.234,5."])
        self.look("(document.documentElement.lang = 'sw', 1)")
        self.until("bare.validationMessage === 'Enter a number.'")

    def test_messages(self):
        """Messages of the page's own, by attributes and by setCustomValidity; and each kind."""
        rows = (
            ("value = 'x'", "Enter a number such as 1.234,5."),
            ("value = '', it.required = true", "Enter a number."),
            ("value = '1', it.min = '1234.5'", "Enter a number that is at least 1.234,5."),
            ("value = '1235', it.max = '1234.5'", "Enter a number that is at most 1.234,5."),
            ("value = '7.5', it.step = '5'", "The nearest numbers that can be entered are 5,0 and 10,0."),
            ("locale = '!!'", "Numbers can't be read here: "),
            ("setCustomValidity('No.')", "No."),
            ("value = 'x', it.setAttribute('bad-message', 'As {example}!')", "As 1.234,5!"),
        )
        self.look("(document.documentElement.lang = 'en', 1)")
        for code, wanted in rows:
            told = self.look(f"(() => {{ const it = {PRICE}.cloneNode(); document.forms[0].append(it); it.{code}; const told = it.validationMessage; it.remove(); return told; }})()")
            self.assertTrue(told.startswith(wanted), (code, told))

    def test_said(self):
        """A blocked submission is told below the field, whose message is of the tree that is read aloud; an edit takes it back."""
        self.look("(bare.required = true, document.forms[0].requestSubmit())")
        said = "[bare.shadowRoot.querySelector('input').getAttribute('aria-invalid'), bare.shadowRoot.getElementById('message').textContent, getComputedStyle(bare.shadowRoot.getElementById('message')).display]"
        self.assertEqual(self.look(said), ["true", "कोई संख्या लिखें।", "block"])
        self.look("bare.focus()")
        self.type("5")
        self.assertEqual(self.look(said), ["false", "", "block"])

    def test_names(self):
        """Names and descriptions: labels, `aria-label`, `aria-labelledby`, `aria-describedby`."""
        name = "document.querySelector('[name=price]').shadowRoot.querySelector('input').ariaLabel"
        self.assertEqual(self.look(f"[{name}, bare.shadowRoot.querySelector('input').ariaLabel]"), ["Price", "Bare"])
        self.look(f"(document.querySelector('label').firstChild.textContent = 'Cost ', {PRICE}.focus())")
        self.assertEqual(self.look(name), "Cost")
        self.look("document.body.insertAdjacentHTML('beforeend', '<p id=one>First</p><p id=two>second</p>')")
        self.look(f"({PRICE}.setAttribute('aria-labelledby', 'one two none'), {PRICE}.setAttribute('aria-describedby', 'two'))")
        self.assertEqual(self.look(name), "First second")
        self.assertEqual(self.look(f"{PRICE}.shadowRoot.querySelector('input').ariaDescribedByElements.map((it) => it.id)"), ["message", "two"])

    def test_program(self):
        """What programs use of an input."""
        self.look(f"(globalThis.it = {PRICE}, it.focus(), it.select())")
        self.assertEqual(self.look("[it.selectionStart, it.selectionEnd, it.labels.length, it.labels[0].tagName, it.defaultValue, it.type]"), [0, 8, 1, "LABEL", "1234.50", "number-field"])
        self.look("(it.setSelectionRange(1, 3), it.selectionEnd = 4, it.placeholder = '0', it.readOnly = true)")
        self.assertEqual(self.look("[it.selectionStart, it.selectionEnd, it.shadowRoot.querySelector('input').placeholder, it.shadowRoot.querySelector('input').readOnly]"), [1, 4, "0", True])
        self.look("(it.value = '77', globalThis.copy = it.cloneNode(true))")
        self.assertEqual(self.look("[copy.value, copy.text, copy.defaultValue, copy.isConnected]"), ["77", "77", "1234.50", False])
        self.look("document.forms[0].append(copy)")
        self.assertEqual(self.look("[copy.value, copy.text, new FormData(document.forms[0]).getAll('price')]"), ["77", "77", ["77", "77"]])
        self.look("(it.defaultValue = '5', document.forms[0].reset())")
        self.assertEqual(self.look("[it.value, copy.value]"), ["5", "1234.50"])
        self.assertEqual(self.look("(() => { const made = document.createElement('number-field'); made.value = '1234.5'; return [made.value, made.text]; })()"), ["1234.5", "1,234.5"])

    def test_events(self):
        """An edit is told by `input`, and what is left or sent by `change`, once."""
        self.look(f"(globalThis.told = [], ['input', 'change', 'submit'].forEach((it) => document.addEventListener(it, (event) => {{ event.preventDefault(); told.push(`${{it}} ${{event.target.value ?? ''}}`); }})), {PRICE}.focus(), {PRICE}.select())")
        self.browser.press(*"12", ["Enter"], "3", ["Up"], ["Tab"])
        self.assertEqual(self.look("told"), ["input 1", "input 12", "change 12", "submit ", "input 123", "input 124", "change 124"])


class Around(BrowserCase):
    """What stands around a field."""

    def page(self, body, **how):
        """Opens a page with this body."""
        self.server.instead["/around.html"] = f'<!doctype html><html lang="en"><meta charset="utf-8"><script type="module" src="number-field.js"></script>{body}'
        self.open("around.html", **how)

    def test_enter(self):
        """Enter submits as it does in an input: by the first button that submits, unless that is disabled or the page prevents it."""
        self.server.instead["/sent.html"] = "sent"
        rows = (
            ("", "?a=5"),
            ("<button name=b value=1></button><button name=b value=2></button>", "?a=5&b=1"),
            ("<button type=button name=b value=1></button><input type=hidden name=c>", "?a=5&c="),
            ("<input name=c>", None),
            ("<button disabled></button>", None),
            ("<script>addEventListener('keydown', (event) => event.preventDefault())</script>", None),
        )
        for more, wanted in rows:
            self.page(f"<form action=sent.html><number-field id=number name=a></number-field>{more}</form>")
            self.look("number.focus()")
            if wanted is None:
                self.look("(addEventListener('submit', (event) => { event.preventDefault(); document.title = 'submitted'; }), 1)")
            self.look("(number.value = '5', 1)")
            self.browser.press(["Enter"])
            if wanted is None:
                self.assertEqual(self.look("document.title"), "", more)
            else:
                self.until("location.pathname === '/sent.html'")
                self.assertEqual(self.look("location.search"), wanted, more)

    def test_focus(self):
        """`autofocus` and `focus` leave the focus in the field."""
        self.page("<number-field id=number autofocus value=12></number-field>")
        self.until("document.activeElement.id === 'number'")
        self.browser.press(["End"], ["Backspace"])
        self.assertEqual(self.look("number.value"), "1")

    def test_before(self):
        """An input inside stands there until the module does; what was typed into it is read as it was typed."""
        field = "<form><number-field id=number locale=de><input id=early name=a value=1234.5 required aria-label=Amount></number-field></form>"
        late = "<script>globalThis.late = () => import('./number-field.js').then(() => 1)</script>"
        self.server.instead["/before.html"] = f'<!doctype html><html lang="en"><meta charset="utf-8">{field}{late}'
        for keys, wanted in (("", ["1.234,5", "1234.5", ""]), ("7,5", ["7,5", "7.5", ""]), ("1.5", ["1.5", "", "badInput"])):
            self.open("before.html", "typeof late === 'function'")
            self.assertEqual(self.look("[...new FormData(document.forms[0])]"), [["a", "1234.5"]])
            if keys:
                self.look("(early.focus(), early.select())")
                self.type(keys)
            self.look("late()")
            self.assertEqual(self.look("[number.text, number.value, number.validity.badInput ? 'badInput' : '']"), wanted)
            self.assertEqual(self.look("[document.querySelectorAll('input').length, [...new FormData(document.forms[0])], number.required, document.activeElement === number]"), [0, [["a", wanted[1]]], True, keys != ""])

    def test_module_of_page(self):
        """A field takes the module of a page that was loaded before it, and no other file."""
        self.server.instead["/mine.wasm"] = subprocess.run(["node", f"{PACKAGE}/make-page.js", "de"], check=True, stdout=subprocess.PIPE).stdout
        script = "import { load } from './page.js'; await load(fetch('mine.wasm')); await import('./number-field.js');"
        field = f"<script type=module>{script}</script><form><number-field id=number name=a locale=de-AT currency=EUR value=1234.5></number-field></form>"
        self.server.instead["/mine.html"] = f'<!doctype html><html lang="en"><meta charset="utf-8">{field}'
        self.open("mine.html")
        self.look("number.focus()")
        self.type("७")
        self.assertEqual(self.look("[number.text.replaceAll('\u00a0', ' '), [...new FormData(document.forms[0])]]"), ["€ 1.234,57", [["a", "1234.57"]]])
        names = self.look("performance.getEntriesByType('resource').map(({ name }) => name.split('/').at(-1)).filter((it) => /wasm|json/.test(it))")
        self.assertEqual(names, ["mine.wasm"])

    def test_worker(self):
        """A module worker writes too."""
        self.server.instead["/worker.js"] = 'import { DecimalFormatter } from "./index.js"; postMessage(new DecimalFormatter("hi").format("123456789.5"));'
        self.page("")
        text = self.look("new Promise((well, ill) => { const it = new Worker('/worker.js', { type: 'module' }); it.onmessage = ({ data }) => well(data); it.onerror = () => ill(new Error('worker')); })")
        self.assertEqual(text, "12,34,56,789.5")


class Faults(BrowserCase):
    """What does not load."""

    POLICY = {"content-security-policy": "script-src 'self'"}
    ROWS = (
        ((), {"/legumeyet.wasm": None}, r"^legumeyet\.wasm: 404"),
        ((), {"/world.json": None}, r"^world\.json: 404"),
        ((), {"/legumeyet.wasm": "no module"}, r"^legumeyet\.wasm: .*no module"),
        (POLICY, {}, r"^legumeyet\.wasm: .*wasm-unsafe-eval"),
        ((), {"/world.json": "["}, r"^101: "),
    )

    def at(self, headers, instead):
        """A server of the package with these."""
        server = Server(PACKAGE, headers, instead)
        self.addCleanup(server.close)
        return server.address

    def test_page(self):
        """The page says which file it is, and why."""
        for headers, instead, wanted in self.ROWS:
            self.browser.open(f"{self.at(headers, instead)}/page/index.html")
            self.until("Boolean(document.getElementById('fault')?.textContent)")
            self.assertRegex(self.look("document.getElementById('fault').textContent"), wanted)

    def test_field(self):
        """A field can be typed into, is invalid, and says the same."""
        field = '<!doctype html><html lang="en"><meta charset="utf-8"><script type="module" src="number-field.js"></script><form id="form"><number-field id="number" name="a" value="7.5"></number-field></form>'
        for headers, instead, wanted in self.ROWS:
            self.browser.open(f"{self.at(headers, {**instead, '/field.html': field})}/field.html")
            self.until("customElements.get('number-field') !== undefined")
            self.look("(number.focus(), number.select())")
            self.type("12")
            self.assertEqual(self.look("[number.text, number.value, number.validity.badInput, new FormData(form).get('a'), form.checkValidity()]"), ["12", "", True, "", False])
            self.assertRegex(self.look("number.validationMessage"), "^Numbers can't be read here: " + wanted[1:])

    def test_style(self):
        """A policy of styles leaves the field its own."""
        address = self.at({"content-security-policy": "script-src 'self' 'wasm-unsafe-eval'; style-src 'self'"}, {})
        self.browser.open(f"{address}/page/index.html")
        self.until(READY)
        self.assertEqual(self.look(f"getComputedStyle({INPUT}).boxSizing"), "border-box")


if __name__ == "__main__":
    unittest.main()
