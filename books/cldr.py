"""CLDR's data on numbers as its XML files have it: values, aliases, parents, systems, plural rules.

A value has a path of steps. A step is an element with those attributes that tell it from its
sisters: `symbols[arab]`, `decimalFormatLength[short]`, `pattern[1000,one]`.
"""
import collections
import functools
import os
import re
import typing
from xml.etree import ElementTree

from conditions import is_condition

BELOW_CONTRIBUTED = ("unconfirmed", "provisional")
PARTS = ("defaultNumberingSystem", "otherNumberingSystems", "minimumGroupingDigits", "symbols", "decimalFormats")
UNIT_FORMATS = ("percentFormats", "currencyFormats")
UNIT_PARTS = (*UNIT_FORMATS, "currencies")
SIGN_PARTS = ("miscPatterns",)
WORD_PARTS = ("currencyFormats", "currencies", "unitLength")
OF_SYSTEMS = ("symbols", "decimalFormats", *UNIT_FORMATS, *SIGN_PARTS)
BESIDE_LETTER = "alphaNextToNumber"
CATEGORIES = ("zero", "one", "two", "few", "many", "other")
INHERITED = "↑↑↑"
NO_OLD_NAMES = ("overlong", "bibliographic")
UNLIKELY_SCRIPT = "nonlikelyScript"
SCRIPT = re.compile("[A-Z][a-z]{3}")
SYSTEM = re.compile("[a-z0-9]{3,8}")
LAYOUT = re.compile(r"\A[ \t]*[\r\n][ \t\r\n]*|[ \t]*[\r\n][ \t\r\n]*\Z")
ALIAS_WORD = re.compile(r"\w+(?:\[@\w+='[^']*'\])*")
COMPONENTS = ("main", "plurals")
DEEPEST = 20  # steps of a path: a value of the element numbers has at most six
DATA_LOCALE = re.compile(r"[a-z]{2,3}(-[A-Z][a-z]{3})?(-([A-Z]{2}|[0-9]{3}))?(-([a-z0-9]{5,8}|[0-9][a-z0-9]{3}))?")


class Fault(Exception):
    """What is wrong with a word, a file or the data, in one line."""


def parse(path):
    """The outer element of an XML file."""
    try:
        if os.path.exists(path) and not os.path.isfile(path):
            raise Fault(f"{path} is no file")
        return ElementTree.parse(path).getroot()
    except FileNotFoundError:
        raise Fault(f"{path} is missing") from None
    except OSError as fault:
        raise Fault(f"{path} can't be read: {fault.strerror}") from None
    except (ElementTree.ParseError, LookupError, ValueError) as fault:
        raise Fault(f"{path} is damaged: {fault}") from None


def step(element):
    """The step of an element: its name with the attributes that tell it from its sisters."""
    told = [element.get(name) for name in ("numberSystem", "type", "count", "alt") if element.get(name) is not None]
    return f"{element.tag}[{','.join(told)}]" if told else element.tag


def target(path, alias):
    """The path that an alias at this path names: ../symbols[@numberSystem='latn']."""
    words, source = alias.get("path", ""), alias.get("source", "locale")
    if source != "locale":
        raise Fault(f"an alias has the source {source!r}, and not locale")
    up = len(re.match(r"(?:\.\./)*", words)[0]) // 3
    down = words[3 * up :].split("/")
    if not all(ALIAS_WORD.fullmatch(word) for word in down) or up > len(path):
        raise Fault(f"an alias has the path {words!r}")
    path = list(path[: len(path) - up])
    for word in down:
        told = re.findall(r"='([^']*)'", word)
        path.append(word.partition("[")[0] + (f"[{','.join(told)}]" if told else ""))
    return tuple(path)


def is_of_currencies(path):
    """Whether a path is in the formats of currencies."""
    return path[:1] != () and path[0].startswith("currencyFormats")


def value_of(element):
    """The text of an element without the line feeds that lay it out; None where it is empty or its parent's."""
    text = LAYOUT.sub("", element.text or "")
    return None if text in ("", INHERITED) else text


def tag_of(name):
    """The locale tag of a file's name: en_US_POSIX is en-US-posix, root is und."""
    if name == "root":
        return "und"
    return "-".join(it.lower() if len(it) > 4 else it for it in name.split("_"))


class Parents(typing.NamedTuple):
    """Which locale is the parent of which: those that are listed by name, and that of every language with a script
    that is not its usual one, empty where there is no rule for it."""

    listed: dict
    of_unlikely_script: str = ""


def parents_of(path):
    """The parents of each component that the file names, or of `main`, those of all without parents of their own."""
    found = {"main": Parents({})}
    for group in parse(path).iter("parentLocales"):
        for component in group.get("component", "main").split():
            listed, rule = found.get(component, Parents({}))
            for it in group.iter("parentLocale") if component in COMPONENTS else ():
                parent = it.get("parent")
                if not parent:
                    raise Fault(f"{path}: a parentLocale has no parent")
                for word in it.get("localeRules", "").split():
                    if word != UNLIKELY_SCRIPT:
                        raise Fault(f"{path}: the localeRules {word!r} are not known")
                    rule = parent
                listed.update((child, parent) for child in it.get("locales", "").split())
            found[component] = Parents(listed, rule)
    return found


def rules_of(path, wanted="cardinal"):
    """The plural rules of a type of each locale that the file names, each a category and a condition."""
    found = {}
    for kind in parse(path).iter("plurals"):
        for it in kind.iter("pluralRules") if kind.get("type", wanted) == wanted else ():
            rules = []
            for rule in it.iter("pluralRule"):
                category = rule.get("count")
                condition = re.sub("[ \t\r\n]+", " ", (rule.text or "").partition("@")[0]).strip(" ")
                if category not in CATEGORIES or not (is_condition(condition) if category != "other" else not condition):
                    raise Fault(f"{path}: the category {category!r} has the condition {condition!r}")
                rules.append((category, condition))
            found.update((name, rules) for name in it.get("locales", "").split())
    return found


def ranges_of(path):
    """The categories of ranges of each locale that the file names: each those of the two ends, and that of the range."""
    found = {}
    for it in parse(path).iter("pluralRanges"):
        ranges = [tuple(map(one.get, ("start", "end", "result"))) for one in it.iter("pluralRange")]
        if not all(category in CATEGORIES for one in ranges for category in one) or len({one[:2] for one in ranges}) < len(ranges):
            raise Fault(f"{path}: the ranges of {it.get('locales')} are {ranges!r}")
        found.update((name, ranges) for name in it.get("locales", "").split())
    return found


def digits_of_currencies(path):
    """The digits, the increment, the cash digits and the cash increment of each currency that the file names, and of
    `DEFAULT`."""
    found = {}
    for it in parse(path).iterfind("currencyData/fractions/info"):
        code, digits, rounding = it.get("iso4217", ""), it.get("digits", ""), it.get("rounding", "")
        numbers = digits, rounding, it.get("cashDigits", digits), it.get("cashRounding", rounding)
        if not all(re.fullmatch("[0-9]{1,3}", number) for number in numbers):
            raise Fault(f"{path}: the digits of {code} are {' '.join(numbers)!r}")
        digits, increment, cash_digits, cash_increment = map(int, numbers)
        found[code] = [digits, increment or 1, cash_digits, cash_increment or 1]
    if "DEFAULT" not in found:
        raise Fault(f"{path} has no digits of currencies")
    return found


class Cldr:
    """A folder `common` of CLDR. Files of locales are read when they are first asked for: of their numbers, and of these further
    parts of them."""

    def __init__(self, folder, further=()):
        self.folder, self.parts = folder, {*PARTS, *further}
        self.left_out = collections.Counter()
        try:
            names = [it[:-4] for it in os.listdir(f"{folder}/main") if it.endswith(".xml")]
        except OSError as fault:
            raise Fault(f"{folder}/main can't be read: {fault.strerror}") from None
        self.names = {tag_of(it): it for it in sorted(names)}
        if "und" not in self.names:
            raise Fault(f"{folder}/main/root.xml is missing")
        self._read, self._tables = {}, {}
        self._systems(f"{folder}/supplemental/numberingSystems.xml")
        self.parents = parents_of(f"{folder}/supplemental/supplementalData.xml")
        self.rules = rules_of(f"{folder}/supplemental/plurals.xml")

    def _systems(self, path):
        """Reads the numbering systems: those with ten digits, and the others."""
        self.digits, self.algorithmic = {}, []
        for it in parse(path).iter("numberingSystem"):
            name, digits = it.get("id", ""), it.get("digits", "")
            if not SYSTEM.fullmatch(name):
                raise Fault(f"{path}: {name!r} is no name of a numbering system")
            if it.get("type") == "numeric" and len(digits) == 10 and not set(digits) & set("\t\n"):
                self.digits[name] = digits
            else:
                self.algorithmic.append(name)

    def aliases(self, tag):
        """The old codes of languages or regions, each with its code of now, without those that have become several."""
        for it in parse(f"{self.folder}/supplemental/supplementalMetadata.xml").iter(tag):
            now = it.get("replacement", "").split()
            if len(now) == 1 and it.get("type") and it.get("reason") not in NO_OLD_NAMES:
                yield it.get("type"), now[0]

    @functools.cached_property
    def likely(self):
        """What a name without all of its parts most likely means, with all of them."""
        path = f"{self.folder}/supplemental/likelySubtags.xml"
        return {it.get("from", ""): it.get("to", "") for it in parse(path).iter("likelySubtag")}

    def likely_parts(self, language, region=""):
        """The script and the region that a language most likely has, in a region or anywhere; empty where CLDR does
        not say."""
        found = self.likely.get(f"{language}_{region}") or self.likely.get(language, "")
        pieces = [*found.split("_"), "", ""]
        return (pieces[1], region or pieces[2]) if SCRIPT.fullmatch(pieces[1]) else ("", region)

    def named_parent(self, name, component="main"):
        """The parent of a locale that is listed or that a rule gives; None where it is the locale without its last
        part."""
        listed, of_unlikely_script = self.parents.get(component) or self.parents["main"]
        language, _, script = name.partition("_")
        if name in listed:
            return listed[name]
        if of_unlikely_script and SCRIPT.fullmatch(script) and script != self.likely_parts(language)[0]:
            return of_unlikely_script
        return None

    def chain(self, name, component="main"):
        """The locale, its parent, and so on to root."""
        found = [name]
        while found[-1] != "root":
            child = found[-1]
            parent = self.named_parent(child, component) or child.rpartition("_")[0] or "root"
            if parent in found:
                raise Fault(f"{self.folder}/supplemental/supplementalData.xml: the parents of {name} return to {parent}")
            found.append(parent)
        return found

    def plural_rules(self, name):
        """The cardinal rules of a locale."""
        return self.of_language(name, self.rules)

    def of_language(self, name, table):
        """What a table of plurals has for the locale, for its parents in its language, for what is left when it is cut, or
        for root."""
        pieces = name.split("_")
        names = [it for it in self.chain(name, "plurals") if it.split("_")[0] == pieces[0]]
        names += ["_".join(pieces[:count]) for count in range(len(pieces), 0, -1)]
        return next((table[it] for it in [*names, "root"] if it in table), [])

    @functools.cached_property
    def ordinals(self):
        """The ordinal rules of each locale that the data names."""
        return rules_of(f"{self.folder}/supplemental/ordinals.xml", "ordinal")

    @functools.cached_property
    def ranges(self):
        """The categories of ranges of each locale that the data names."""
        return ranges_of(f"{self.folder}/supplemental/pluralRanges.xml")

    def _of(self, name):
        """The tables and the aliases of a locale's own file: none where it has no file."""
        if name not in self._read:
            tables, aliases = collections.defaultdict(dict), {}
            if tag_of(name) in self.names or name == "root":
                path = f"{self.folder}/main/{name}.xml"
                try:
                    whole = parse(path)
                    for part in (*whole.iterfind("numbers/*"), *whole.iterfind("units/*")):
                        if part.tag in self.parts:
                            self._walk(part, (), None, tables, aliases)
                except Fault as fault:
                    raise Fault(str(fault) if str(fault).startswith(path) else f"{path}: {fault}") from None
            if name == "root":
                # A system that root doesn't know either has the symbols and the patterns of latn.
                known = {path[0] for path in [*tables, *aliases] if path}
                for part in OF_SYSTEMS:
                    for system in self.digits:
                        # Data without percents and currencies has none of latn either.
                        is_missing = part not in PARTS and system == "latn"
                        if f"{part}[{system}]" not in known and not is_missing:
                            aliases[(f"{part}[{system}]",)] = (f"{part}[latn]",)
            for path, values in tables.items():
                # A locale that gives only the pattern has no pattern beside a letter, whatever its parents have.
                if "pattern" in values and is_of_currencies(path):
                    values.setdefault(f"pattern[{BESIDE_LETTER}]", "")
            self._read[name] = tables, aliases
        return self._read[name]

    def _walk(self, element, path, draft, tables, aliases):
        """Takes the values and the aliases of an element and of all below it."""
        draft = element.get("draft", draft)
        if len(path) > DEEPEST:
            raise Fault("its elements are nested too deep")
        alt = element.get("alt")
        if element.get("case") or element.get("gender"):
            return
        if alt is not None and not (alt == BESIDE_LETTER and is_of_currencies(path)):
            self.left_out["alt"] += 1
        elif element.tag == "alias":
            aliases[path] = target(path, element)
        elif len(element):
            for child in element:
                self._walk(child, (*path, step(element)), draft, tables, aliases)
        elif draft in BELOW_CONTRIBUTED:
            self.left_out["draft"] += 1
        elif value_of(element) is not None:
            tables[path][step(element)] = value_of(element)

    def table(self, chain, path):
        """The values right below a path: what a child says before what its parents say, and where there is an alias,
        what the same chain has where it points. The same table is one and the same value."""
        key = chain[0], path
        if key not in self._tables:
            self._tables[key] = None
            self._tables[key] = self._merged(chain, path)
        return self._tables[key]

    def _merged(self, chain, path):
        """The table of a path, made once for each locale that is asked for."""
        found = {}
        for name in chain:
            tables, aliases = self._of(name)
            for key, text in tables.get(path, {}).items():
                found.setdefault(key, text)
            for count in range(len(path), 0, -1):
                if path[:count] in aliases:
                    further = self._through(chain, name, aliases[path[:count]] + path[count:])
                    return {**further, **found} if found else further
        return found

    def steps(self, name, first):
        """The second steps of the paths below a first one in a locale's own file."""
        return sorted({path[1] for path in self._of(name)[0] if len(path) > 1 and path[0] == first})

    def _through(self, chain, name, path):
        """The table to which an alias of a locale's file leads."""
        found = self.table(chain, path) if len(path) <= DEEPEST else None
        if found is None:
            raise Fault(f"{self.folder}/main/{name}.xml: an alias leads to itself, by {'/'.join(path[:4])}")
        return found

    def default_system(self, chain):
        """The system that a locale writes numbers in where none is asked for."""
        found = self.table(chain, ()).get("defaultNumberingSystem", "latn")
        return found if found in self.digits else "latn"

    def separators_of_currencies(self, chain):
        """The separators that a locale has for currencies in its usual system, as the elements `decimal` and `group`."""
        symbols = self.table(chain, (f"symbols[{self.default_system(chain)}]",))
        found = {it: symbols.get(f"currency{it.title()}", symbols.get(it)) for it in ("decimal", "group")}
        return {it: text for it, text in found.items() if text is not None}

    def currencies(self, chain):
        """What a locale says of each currency, by its code: the symbol, and the pattern and separators of its own. Separators that are no others
        than the usual ones of the locale that gives them are not its own: a locale below it writes the currency with its own usual ones."""
        key = chain[0], ("currencies",)
        if key not in self._tables:
            found = dict(self.currencies(chain[1:])) if len(chain) > 1 else {}
            for path, values in self._of(chain[0])[0].items():
                if path[:1] == ("currencies",) and len(path) == 2:
                    code = path[1].removeprefix("currency[").removesuffix("]")
                    found[code] = {**found.get(code, {}), **self._without_usual(chain, values)}
            self._tables[key] = found
        return self._tables[key]

    def _without_usual(self, chain, values):
        """What a locale's own file says of a currency, without its separators where these are the locale's usual ones."""
        own = {it: values[it] for it in ("decimal", "group") if it in values}
        usual = self.separators_of_currencies(chain) if own else {}
        return {it: text for it, text in values.items() if it not in own} if own.items() <= usual.items() else values

    @functools.cached_property
    def currencies_in_use(self):
        """The codes of the currencies that a region has now, in order."""
        regions = [it for it in parse(f"{self.folder}/supplemental/supplementalData.xml").iter("region") if it.get("iso3166") != "ZZ"]
        now = (it for region in regions for it in region.iter("currency") if not it.get("to") and it.get("tender") != "false")
        return sorted({it.get("iso4217", "") for it in now})

    @functools.cached_property
    def currency_digits(self):
        """The digits of each currency that has other ones than usual, and of `DEFAULT`."""
        return digits_of_currencies(f"{self.folder}/supplemental/supplementalData.xml")

    def own_systems(self, chain):
        """The systems that a chain names for itself, without what root has for all."""
        found = set(self.table(chain, ("otherNumberingSystems",)).values())
        for name in chain[:-1]:
            for path in self._of(name)[0]:
                found.update(re.findall(r"^(?:symbols|decimalFormats)\[(\w+)\]$", path[0]) if path else [])
        return found
