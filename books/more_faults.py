"""Which fault the array of more of a book has: the rule of docs/books.md ("More"), written down once more."""
from cldr import CATEGORIES
from conditions import is_condition
from look_up import LEAST_MORE, MORE_ARRAYS, MOST_MORE, locale_of
from unit_faults import is_attribute, is_text


def is_pair(value):
    """Whether a value is a category with its condition."""
    return isinstance(value, list) and len(value) == 2 and all(map(is_text, value)) and value[0] in CATEGORIES


def is_rules(value):
    """Whether a value has categories, none of them twice, each with its condition."""
    return isinstance(value, list) and all(map(is_pair, value)) and len({it for it, _ in value}) == len(value)


def is_range(value):
    """Whether a value is three categories."""
    return isinstance(value, list) and len(value) == 3 and all(map(is_text, value)) and {*value} <= {*CATEGORIES}


def is_ranges(value):
    """Whether a value has only ranges."""
    return isinstance(value, list) and all(map(is_range, value))


def is_texts(count):
    """What says whether a value is so many texts."""
    return lambda value: isinstance(value, list) and len(value) == count and all(map(is_text, value))


# The fields of signs behind those of their key: four signs, and the texts around a range, the least number and the greatest.
SIGNS = (is_text, is_text, is_text, is_text, is_texts(3), is_texts(2), is_texts(2))
SHAPES = {"ordinal rules": (is_text, is_rules), "plural ranges": (is_text, is_ranges), "signs": (is_text, is_text, *SIGNS)}


def has_shape(kind, entry):
    """Whether an entry has the fields of its array."""
    fields = SHAPES[kind]
    return isinstance(entry, list) and len(entry) == len(fields) and all(it(value) for it, value in zip(fields, entry))


def has_condition(category, text):
    """Whether the condition of a category is one, without its samples; that of `other` is none."""
    condition = text.partition("@")[0]
    return condition.strip(" ") == "" if category == "other" else is_condition(condition)


def texts_of(entry):
    """The texts of an entry of signs that are written."""
    return [*entry[2:6], *(text for texts in entry[6:] for text in texts)]


def key_of(kind, entry):
    """What no two entries of an array have in common: the locale, and of signs the system too."""
    return locale_of(entry[0]), entry[1] if kind == "signs" else ""


def field_fault(kind, entry):
    """The word of the fault that the fields of an entry behind its locale have, or None."""
    if kind == "ordinal rules":
        return None if all(has_condition(*it) for it in entry[1]) else "condition"
    if kind != "signs":
        return None
    if not is_attribute(kind, entry[1]):
        return "system"
    return "text" if any(char in text for text in texts_of(entry) for char in "\t\n") else None


def entry_fault(kind, entry, keys):
    """The word of the fault with the least number that an entry has, or None. These are the keys of those before it."""
    if not has_shape(kind, entry):
        return "shape"
    if locale_of(entry[0]) is None:
        return "tag"
    return field_fault(kind, entry) or ("duplicate" if key_of(kind, entry) in keys else None)


def more_fault(more):
    """The array, the place and the word of the first faulty entry of more, or None. The array and the place are None where more
    is not two to eight arrays, of which those after the third are empty."""
    is_arrays = isinstance(more, list) and LEAST_MORE <= len(more) <= MOST_MORE and all(isinstance(it, list) for it in more)
    if not is_arrays or any(more[len(MORE_ARRAYS) :]):
        return None, None, "shape"
    for kind, array in zip(MORE_ARRAYS, more):
        keys = set()
        for place, entry in enumerate(array):
            word = entry_fault(kind, entry, keys)
            if word is not None:
                return kind, place, word
            keys.add(key_of(kind, entry))
    return None
