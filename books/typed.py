"""How people type what a formatter writes of a percent or of an amount of money: without groups, with the characters of a
usual keyboard, without the unit, with it elsewhere, or with its code."""
from lenient_text import ASCII, BLANK, FOLDS, read_as, read_in_turn, without_unit
from unit_text import GROUPINGS, number_of, rounded, text_of

NUMBERS = [number_of(text) for text in ("-1234.5", "1234567.885", "0.5")]
SPACES = {ord(it): " " for it in BLANK}
SIGNS = {at: its for at, its in FOLDS.items() if its in ("", "-", "+")}
WAYS = (
    "as written", "without groups", "with plain spaces", "without spaces beside the unit", "with the signs of ASCII",
    "with the digits of ASCII", "with all of these", "without the unit", "with the unit before", "with the unit after",
    "with the code before", "with the code after", "as the same tag with -u-nu-latn is written", "with the symbols of plain numbers",
)
OF_LATIN, OF_PLAIN = WAYS[-2:]


def close(form):
    """The format without spaces around its numbers."""
    affixes = {sign: (before.rstrip(BLANK), after.lstrip(BLANK)) for sign, (before, after) in form.affixes.items()}
    return form._replace(affixes=affixes)


def signed(form, number, inner):
    """What is typed of the number inside, which is without its sign, with the sign that the symbols have."""
    before, after = form.affixes[number.sign]
    return before + inner + after


def beside(form, number, name, is_before, grouping):
    """The number with a name before or after it, with a space or none, the sign beside the number or around both."""
    plain = without_unit(form)
    joined = (lambda text, space: name + space + text) if is_before else (lambda text, space: text + space + name)
    for space in ("", " "):
        yield joined(text_of(plain, number, grouping), space)
        yield signed(plain, number, joined(text_of(plain, number._replace(sign=""), grouping), space))


def of_second(its, number, grouping):
    """What is written of a number by the second reader's format, with the way in which it is typed so, where there is one and the
    first one's does not write it."""
    for other in its[1:]:
        text = text_of(other.form, number, grouping)
        if read_as(its[0].form, text, *GROUPINGS) is None:
            yield OF_PLAIN if its[0].form.digits == ASCII else OF_LATIN, text


def texts(its, unit, code, number):
    """What is typed of a number, each with the way in which it is. It is read by these readers."""
    form = its[0].form
    plain, digits = without_unit(form), {ord(it): ASCII[place] for place, it in enumerate(form.digits)}
    usual = {**SPACES, **SIGNS, **digits}
    for grouping in ("auto", "never"):
        text = text_of(form, number, grouping)
        yield WAYS[0 if grouping == "auto" else 1], text
        yield WAYS[2], text.translate(SPACES)
        yield WAYS[3], text_of(close(form), number, grouping)
        yield WAYS[4], text.translate(SIGNS)
        yield WAYS[5], text.translate(digits)
        yield WAYS[6], text.translate(usual)
        yield WAYS[6], text_of(close(form), number, grouping).translate(usual)
        bare = text_of(plain, number, grouping)
        yield from ((WAYS[7], it) for it in (bare, f" {bare} ", bare.translate(usual)))
        for way, name, is_before in ((8, unit, True), (9, unit, False), (10, code, True), (11, code, False)):
            for it in beside(form, number, name, is_before, grouping):
                yield from ((WAYS[way], it), (WAYS[way], it.translate(usual)))
        yield from of_second(its, number, grouping)


def shown(form, number):
    """The number as it is shown."""
    return rounded(number, *form.rounding) if form.rounding else number


def tried(its, unit, code):
    """Each number that is typed, as it is shown, with the way, the text, and what that is read as."""
    for number in NUMBERS:
        number, back = shown(its[0].form, number), {}
        for way, text in dict.fromkeys(texts(its, unit, code, number)):
            if text not in back:
                back[text] = read_in_turn(its, text)
            yield number, way, text, back[text]
