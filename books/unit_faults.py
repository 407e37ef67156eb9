"""Which fault the units of a book have: the rule of docs/books.md ("Units"), written down once more."""
import re

from look_up import INCREMENTS, LETTERS, PLACEHOLDER, UNIT_ARRAYS, is_code, locale_of

SYSTEM = re.compile("[a-z0-9]{3,8}")
MOST = 255


def is_text(value):
    """Whether a value is a text."""
    return isinstance(value, str)


def is_number(value, most=MOST):
    """Whether a value is a whole number from 0 to the greatest one."""
    return isinstance(value, int) and not isinstance(value, bool) and 0 <= value <= most


def is_increment(value):
    """Whether a value is an increment."""
    return is_number(value) and value in INCREMENTS


def is_symbols(value):
    """Whether a value is symbols of an entry's own: seven texts and three numbers, or null."""
    is_entry = isinstance(value, list) and len(value) == 10
    return value is None or (is_entry and all(map(is_text, value[:7])) and all(map(is_number, value[7:])))


def is_pattern(value):
    """Whether a value is a pattern: two texts or six."""
    return isinstance(value, list) and len(value) in (2, 6) and all(map(is_text, value))


def is_pattern_or_null(value):
    """Whether a value is a pattern or null."""
    return value is None or is_pattern(value)


def is_ends(value):
    """Whether a value says which ends of a unit are letters."""
    return is_number(value, LETTERS)


AMOUNT = (is_text, is_text, is_symbols, is_pattern, is_pattern_or_null)
SHAPES = {
    "percents": (is_text, is_text, is_text, is_symbols, is_pattern, is_text),
    "currencies": AMOUNT,
    "accounts": AMOUNT,
    "currency symbols": (is_text, is_text, is_text, is_ends),
    "currency digits": (is_text, is_number, is_increment, is_number, is_increment),
}


def has_shape(kind, entry):
    """Whether an entry has the fields of its array: percents may be without the last one."""
    fields = SHAPES[kind]
    counts = (len(fields) - 1, len(fields)) if kind == "percents" else (len(fields),)
    return isinstance(entry, list) and len(entry) in counts and all(it(value) for it, value in zip(fields, entry))


def patterns_of(kind, entry):
    """The patterns that an entry has."""
    fields = {"percents": entry[4:5], "currencies": entry[3:], "accounts": entry[3:]}.get(kind, [])
    return [it for it in fields if it is not None]


def symbols_of(kind, entry):
    """The symbols that an entry has of its own, or nothing."""
    return {"percents": entry[3], "currencies": entry[2], "accounts": entry[2]}.get(kind) or []


def texts_of(kind, entry):
    """The texts of an entry that are written: signs and symbols of units, own symbols, patterns."""
    unit = {"percents": [entry[2], *entry[5:]], "currency symbols": [entry[2]]}.get(kind, [])
    return [*unit, *symbols_of(kind, entry)[1:7], *(text for pattern in patterns_of(kind, entry) for text in pattern)]


def is_attribute(kind, text):
    """Whether a text is a system, empty, or in currencies a code."""
    return text == "" or SYSTEM.fullmatch(text) is not None or (kind == "currencies" and is_code(text))


def has_systems(kind, entry):
    """Whether what should be a system in an entry is one."""
    own = symbols_of(kind, entry)[:1]
    of_entry = not kind.startswith("currency ") and not is_attribute(kind, entry[1])
    return not of_entry and all(SYSTEM.fullmatch(it) for it in own)


def has_placeholders(pattern):
    """Whether each pair of texts of a pattern has the placeholder once."""
    return all("".join(pattern[at : at + 2]).count(PLACEHOLDER) == 1 for at in range(0, len(pattern), 2))


def key_of(kind, entry):
    """What no two entries of an array have in common."""
    return entry[0] if kind == "currency digits" else (locale_of(entry[0]), entry[1])


def entry_fault(kind, entry, keys):
    """The word of the fault with the least number that an entry has, or None. These are the keys of those before it."""
    if not has_shape(kind, entry):
        return "shape"
    if kind != "currency digits" and locale_of(entry[0]) is None:
        return "tag"
    if not has_systems(kind, entry):
        return "system"
    if any(char in text for text in texts_of(kind, entry) for char in "\t\n"):
        return "text"
    if key_of(kind, entry) in keys:
        return "duplicate"
    if not all(map(has_placeholders, patterns_of(kind, entry))):
        return "unit"
    code = {"currency symbols": entry[1], "currency digits": entry[0]}.get(kind)
    return "code" if code is not None and not is_code(code) else None


def units_fault(units):
    """The array, the place and the word of the first faulty entry of the units, or None. The array and the place are None
    where the units are not five arrays."""
    if not isinstance(units, list) or len(units) != len(UNIT_ARRAYS) or not all(isinstance(it, list) for it in units):
        return None, None, "shape"
    for kind, array in zip(UNIT_ARRAYS, units):
        keys = set()
        for place, entry in enumerate(array):
            word = entry_fault(kind, entry, keys)
            if word is not None:
                return kind, place, word
            keys.add(key_of(kind, entry))
    return None
