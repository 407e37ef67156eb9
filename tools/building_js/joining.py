"""
Modules of the package that are loaded together, in one file: an engine takes a millisecond for each file, and a page asks for each. In a file the names
of its modules are each other's, so that no two have one name for two things.
"""
import re

# The files that are made, and the modules in each, behind those that they import.
JOINED = {
    "library.js": (
        "instance.js", "open.js", "sharing.js", "tags.js", "books.js", "small-books.js", "numbers.js", "columns.js", "facts.js", "compact-digits.js",
        "options.js", "rounding.js", "skeletons.js", "formatters.js", "answers.js",
    ),
    "number-format.js": ("intl-numbers.js", "intl-parts.js", "intl-options.js", "intl-locales.js", "specials.js", "number-format.js"),
}
# Modules that only hand on, of which the lines take the place of what hands these on.
HANDING_ON = ("common.js", "classes.js")
PLACES = {f"./{name}": f"./{made}" for made, names in JOINED.items() for name in names}
GONE = {*HANDING_ON, *sum(JOINED.values(), ())}
IMPORT = re.compile(r'^import \{ ([^}]*?),? \} from "(\./[^"]*)";\n', re.M)
HANDED_ON = re.compile(r'^export \* from "\./([^"]*)";\n', re.M)
NAMED = re.compile(r'(?<=from |port\()"(\./[^"]*)"')
NOTE = re.compile(r"^//.*\n", re.M)


def placed(text):
    """A module, which imports from the files that are made."""
    return NAMED.sub(lambda found: f'"{PLACES.get(found[1], found[1])}"', text)


def joined(made, texts):
    """A file of these modules, which imports a name of another file once."""
    imported = {}
    for names, place in IMPORT.findall("".join(texts)):
        imported.setdefault(place, set()).update(re.split(r",\s*", names))
    lines = [f'import {{ {", ".join(sorted(names))} }} from "{place}";\n' for place, names in sorted(imported.items()) if place != f"./{made}"]
    return "".join(lines) + "\n".join(IMPORT.sub("", text) for text in texts)


def with_joined(files):
    """The files of the package, of which some are made of others."""
    texts = {name: placed(data.decode()) for name, data in files.items() if name.endswith(".js")}
    made = {name: joined(name, [texts[it] for it in names]) for name, names in JOINED.items()}
    for name in HANDING_ON:
        lines = NOTE.sub("", texts[name])
        texts = {it: HANDED_ON.sub(lambda found: lines if found[1] == name else found[0], text) for it, text in texts.items()}
    kept = {name: text for name, text in texts.items() if name not in GONE}
    return {name: data for name, data in files.items() if name not in texts} | {name: text.encode() for name, text in {**kept, **made}.items()}
