"""What check-skeletons does: normal texts and faults beside ICU4C, texts of numbers beside ICU4C and Node, and the causes."""
import collections
import json
import re
import tempfile
import typing

from comparison import CARRY, LIKELY, NEGATIVE, answers, carries, causes_of, locale_and_system, shown_value, text
from look_up import locale_of, read_book
from peers import NODE, NOT_IN_ICU, NOT_IN_NODE, VERSION, book_of_peer, known, with_tags_cut
from skeleton_cases import NUMBERS, SKELETONS, WORDS
from skeletons import REFUSED, SPELLINGS, Refused, Skeleton, has_own_digits, is_amount, is_compact, is_of_intl, is_scientific, line_of, options_of, read_skeleton
from unit_comparison import cause_of
from unit_text import Symbols

NO_PLACE = -1  # of a fault that ICU4C finds when all words are read
CAPACITY = "64"  # formatters that are kept: all of a locale
AT_A_TIME = 100_000  # lines that a peer is asked
KINDS = ("numbers", "percents", "amounts", "compact", "scientific")
PADDED = "an integer width of a compact number: digits of the number here, of what is shown before the pattern there"
GROUPED = "group-auto beside a compact notation: taken here, and there the usual grouping is"
UNGROUPED = "group-on-aligned in a locale without groups: none here, groups of three there"
# Words without which a normal text may be the same here and there.
LEFT_OUT = ("integer-width/*0", "group-auto", "group-min2")
# What is an unknown word here and none there.
TAKEN_THERE = {
    "a part behind digits of a fraction without end: unknown words here, taken there": re.compile("(precision-unlimited|[.]0*[*+])/.*").fullmatch,
    "an increment with a sign or an exponent: unknown words here, taken there": re.compile("precision-increment/([+-].*|.*[Ee].*)").fullmatch,
    "words with a mark of direction between them: one word here, two there": re.compile(".*\\u200e.*").fullmatch,
}

# ---- normal texts and faults


def asked_texts():
    """Each word, and each two words."""
    refused = (word for words in REFUSED.values() for word in words if not word.endswith("/"))
    words = [*dict.fromkeys([*SPELLINGS, *refused, *WORDS])]
    return ["", *words, *(f"{a} {b}" for a in words for b in words)]


def read_here(skeleton):
    """The normal text of a skeleton, None and 0; or None, the fault and its place."""
    try:
        return read_skeleton(skeleton).normal_text(), None, 0
    except Refused as fault:
        return None, *fault.args


def word_at(skeleton, place):
    """The word of a skeleton that is at a place in bytes."""
    return skeleton.encode()[place:].decode().partition(" ")[0]


def cause_of_text(here, there):
    """The name of the cause for two other normal texts, or None."""
    bare = [[word for word in normal.split() if word not in LEFT_OUT] for normal in (here, there.replace("precision-integer/", "./"))]
    if bare[0] != bare[1]:
        return None
    if "compact-" in here and "group-" in here + there:
        return "a compact notation: no word for group-min2 here, for group-auto there"
    return "./w and the like: precision-integer/w there" if "./" in here else "integer-width/*0: usual there"


def cause_of_fault(word, fault, place, there, is_taken):
    """The name of the cause for a fault of a word that is another one there, or none; or None. `is_taken` says whether the text
    up to the end of the word is taken there."""
    if isinstance(there, str):
        if fault == "Unknown":
            return next((name for name, is_so in TAKEN_THERE.items() if is_so(word)), None)
        return None if fault == "Twice" or fault == "Code" and len(word) != len("currency/EUR") else f"{fault} here, taken there"
    if there == NO_PLACE:
        return "an increment or an exponent of nothing: refused there at the end, without a place"
    if place < there <= place + len(word.encode()):
        return "the place of the word here, of what is wrong in it there"
    return "a word that is refused here, and taken there, before the fault there" if there > place and is_taken else None


def asked_normal(texts):
    """The lines that ask ICU4C for normal texts."""
    return [f"und\tskeleton\tauto\tkeep\t-\t{it}" for it in texts]


def read_there(icu, texts):
    """The normal text of each skeleton, or the place of its fault."""
    return [its if said == "ok" else int(its) for said, its in map(text, answers(icu, asked_normal(texts)))]


def compare_texts(icu, shown):
    """Compares normal texts and places of faults, and prints what differs; answers whether every cause is known."""
    texts = asked_texts()
    here, there = [read_here(it) for it in texts], read_there(icu, texts)
    words = [word_at(it, place) for it, (_, _, place) in zip(texts, here)]
    fronts = [it.encode()[:place].decode() + word for it, word, (_, _, place) in zip(texts, words, here)]
    taken = [isinstance(it, str) or it == NO_PLACE for it in read_there(icu, fronts)]
    causes, agree = Causes(shown), collections.Counter()
    for it, word, (normal, fault, place), its, is_taken in zip(texts, words, here, there, taken):
        if its == (place if fault else normal):
            agree[fault is None] += 1
        elif fault:
            causes.add(cause_of_fault(word, fault, place, its, is_taken), repr(it), f"{fault} at {place}", its)
        else:
            causes.add(cause_of_text(normal, its) if isinstance(its, str) else None, repr(it), normal, its)
    print(f"{len(texts)} texts of one word and of two: {agree[True]} have the same normal text, {agree[False]} are refused at the same place")
    return causes.say()


class Causes:
    """The names of causes, each with its count and its first line."""

    def __init__(self, shown):
        self.counts, self.first, self.unknown, self.shown = collections.Counter(), {}, [], shown

    def add(self, name, *line):
        """Notes the line as one of this cause; None is none that is known."""
        self.counts[name or "not known"] += 1
        self.first.setdefault(name, line)
        if name is None:
            self.unknown.append(line)

    def say(self):
        """Prints them; answers whether each is known."""
        for name, count in self.counts.most_common():
            asked, here, there = self.first[None if name == "not known" else name]
            print(f"{count:>8} differ: {name}: {asked}: here {here!r}, there {there!r}")
        for asked, here, there in self.unknown[: self.shown]:
            print(f"  {asked}\n    here  {here!r}\n    there {there!r}")
        return not self.unknown


# ---- texts of numbers


class Found(typing.NamedTuple):
    """A number that is asked for by a skeleton, with the answer, and that of another formatter."""

    tag: str
    skeleton: str
    its: Skeleton
    number: str
    here: str = ""
    there: str = ""


class Peer(typing.NamedTuple):
    """Another formatter: its command, the line that asks it, and why a locale that it does not have is answered otherwise."""

    command: list
    line: typing.Callable
    not_there: str


def kind_of(its):
    """What a skeleton is for."""
    return KINDS[4] if is_scientific(its) else KINDS[3] if is_compact(its) else KINDS[2] if is_amount(its) else KINDS[1] if its.unit else KINDS[0]


def digits_of(book, its):
    """The digits of the currency of a skeleton, or None."""
    return book.units.digits_of(its.unit[-3:]) if is_amount(its) else None


def line_by_words(book, it):
    """The line that asks for the same by other words."""
    return line_of(it.its, it.tag, it.number, digits_of(book, it.its))


def line_of_skeleton(book, it):
    """The line that asks the program, and ICU4C."""
    return f"{it.tag}\t::{it.skeleton}\tauto\tkeep\t-\t{it.number}"


def line_of_node(book, it):
    """The line that asks Node."""
    return f"{it.tag}\t{json.dumps(options_of(it.its, digits_of(book, it.its)))}\tauto\tkeep\t-\t{it.number}"


def asked(ours, found):
    """The same, answered by the program."""
    lines = [line_of_skeleton(None, it) for it in found]
    return [it._replace(here=here) for it, here in zip(found, answers(ours, lines))]


def agrees(it):
    """Whether the text is the same."""
    return text(it.here) == text(it.there)


def differing(book, peer, found):
    """Asks another formatter, and prints how many agree; answers what differs."""
    counts, other = collections.Counter(), []
    for at in range(0, len(found), AT_A_TIME):
        some = found[at : at + AT_A_TIME]
        counts.update(kind_of(it.its) for it in some)
        there = answers(peer.command, [peer.line(book, it) for it in some])
        other += [it for it in (it._replace(there=its) for it, its in zip(some, there)) if not agrees(it)]
    differ = collections.Counter(kind_of(it.its) for it in other)
    for kind, count in counts.items():
        print(f"{kind:<9} {count:>8} lines, {count - differ[kind]:>8} agree, {100 * (count - differ[kind]) / count:.3f} %")
    return other


def with_words(it, **words):
    """The same with other words in the skeleton, not asked yet."""
    its = it.its._replace(**words)
    return it._replace(skeleton=its.normal_text(), its=its, here="", there="")


def asked_with(book, ours, peer, found, **words):
    """The same with other words in the skeleton, asked of the program and of another formatter."""
    here = asked(ours, [with_words(it, **words) for it in found])
    there = answers(peer.command, [peer.line(book, it) for it in here])
    return [it._replace(there=its) for it, its in zip(here, there)]


def causes_of_compact(book, ours, peer, found):
    """The same of compact numbers without an integer width."""
    grouped = [it for it in found if it.its.grouping == "group-auto"]
    usual = asked(ours, [with_words(it, grouping="") for it in grouped])
    named = {it: GROUPED for it, its in zip(grouped, usual) if text(its.here) == text(it.there)}
    rest = [it for it in found if it not in named]
    named.update(zip(rest, causes_of(book, ours, peer.command, [(line_by_words(book, it), it.here, it.there) for it in rest])))
    signed = [it for it in rest if named[it] is None]
    unsigned = asked_with(book, ours, peer, signed, sign="sign-never")
    named.update((it, NEGATIVE) for it, its in zip(signed, unsigned) if agrees(its))
    return named


def of_value(it):
    """The same of the value that is shown here."""
    return it._replace(number=f"{shown_value(it.here):f}", here="", there="")


def causes_of_digits(book, ours, peer, found):
    """The same of compact numbers with digits of their own: a number that is rounded up to the next pattern, or what the value shown has as a
    cause without such digits."""
    found = [it for it in found if it.here.startswith("ok\t")]
    carried = [it for it in found if carries(line_of_skeleton(book, it), it.here)]
    again = answers(peer.command, [peer.line(book, of_value(it)) for it in carried])
    named = {it: CARRY for it, its in zip(carried, again) if text(it.there) == text(its)}
    rest = [it for it in found if it not in named]
    usual = asked_with(book, ours, peer, [of_value(it) for it in rest], precision="", mode="", integer="")
    causes_there = causes_of_compact(book, ours, peer, [it for it in usual if not agrees(it)])
    named.update((it, causes_there.get(its)) for it, its in zip(rest, usual))
    return named


def has_groups(book, tag):
    """Whether the locale's symbols, where the book has some, have a size of groups."""
    locale, system = locale_and_system(tag)
    found = book.find("symbols", book.chain(locale), system)
    return found is None or Symbols(*found).primary != 0


def causes_of_groups(book, ours, peer, found):
    """The same of numbers that are grouped there alone."""
    aligned = [it for it in found if it.its.grouping == "group-on-aligned" and not has_groups(book, it.tag)]
    usual = asked_with(book, ours, peer, aligned, grouping="")
    return {it: UNGROUPED for it, its in zip(aligned, usual) if agrees(its) and text(its.here) == text(it.here)}


def causes_by_rule(book, ours, peer, found):
    """The cause of each of these where one is known: what is done otherwise there under the same data. A cause is that of the line
    of other words, so what is not answered as that line has none, nor has a scientific number."""
    found = [it for it in found if not is_scientific(it.its)]
    digits = [it for it in found if has_own_digits(it.its)]
    found = [it for it in found if not has_own_digits(it.its)]
    lines = [line_by_words(book, it) for it in found]
    found = [it for it, its in zip(found, answers(ours, lines)) if its == it.here]
    compact, padded = ([it for it in found if it.its.notation and bool(it.its.integer) == its] for its in (False, True))
    bare = asked_with(book, ours, peer, padded, integer="")
    named = causes_of_compact(book, ours, peer, [*compact, *(it for it in bare if not agrees(it))])
    for it, its in zip(padded, bare):
        if agrees(its) or named.get(its):
            named[it] = PADDED if agrees(its) else f"{PADDED}; and {named[its]}"
    named.update((it, cause_of(book, line_by_words(book, it), it.there)) for it in found if is_amount(it.its))
    named.update(causes_of_groups(book, ours, peer, found))
    named.update(causes_of_digits(book, ours, peer, digits))
    return {it: name for it, name in named.items() if name}


def causes(book, ours, peer, found, taken):
    """The cause of each of these where one is known; `taken` are the locales that another formatter takes for others."""
    named = causes_by_rule(book, ours, peer, found)
    elsewhere = [it for it in found if taken[it.tag] != it.tag and named.get(it) in (None, *LIKELY)]
    there = asked(ours, [it._replace(tag=taken[it.tag]) for it in elsewhere])
    rules = causes_by_rule(book, ours, peer, [it for it in there if not agrees(it)])
    for it, its in zip(elsewhere, there):
        if agrees(its):
            named[it] = peer.not_there
        elif its in rules:
            named[it] = f"{peer.not_there}; and {rules[its]}"
    return named


def say_causes(found, named, shown):
    """Prints the causes of what differs; answers whether each is known."""
    causes = Causes(shown)
    for it in found:
        causes.add(named.get(it), f"{it.tag} ::{it.skeleton} {it.number}", text(it.here)[-1], text(it.there)[-1])
    return causes.say()


def compare_with_node(book, ours, found, shown):
    """Compares answers of the program with Node; answers whether every cause is known."""
    peer = Peer(NODE, line_of_node, NOT_IN_NODE)
    other = differing(book, peer, found)
    tags = sorted({it.tag for it in other})
    return say_causes(other, causes(book, ours, peer, other, dict(zip(tags, known("locale", tags)))), shown)


def taken_by_icu(tag, locales):
    """The tag, cut from the right until it is that of one of these locales."""
    return next((it for it in (tag, *with_tags_cut(f"{tag}\t")) if locale_of(it.strip()) in locales), "und").strip()


def causes_in_icu(program, peer, found):
    """The cause of each of these where one is known, under a book of the data that ICU4C has."""
    with tempfile.TemporaryDirectory() as folder:
        path, locales = book_of_peer(folder, "--units")
        book, ours = read_book(path, True), [program, path, CAPACITY]
        again = asked(ours, found)
        other = [it for it in again if not agrees(it)]
        taken = {it.tag: taken_by_icu(it.tag, locales) for it in found}
        named = causes(book, ours, peer, other, taken)
        # (a locale that it does not have, in another script than the language usually has, may be root there)
        rest = [it for it in other if named.get(it) is None and taken[it.tag] != it.tag]
        named.update(causes(book, ours, peer, rest, dict.fromkeys(taken, "und")))
        return {it: VERSION if agrees(its) else named.get(its) for it, its in zip(found, again)}


def compare_with_icu(book, program, icu, found, shown):
    """Compares answers of the program with ICU4C; answers whether every cause is known."""
    peer = Peer(icu, line_of_skeleton, NOT_IN_ICU)
    other = differing(book, peer, found)
    return say_causes(other, causes_in_icu(program, peer, other), shown)


def compare(book, words, icu, tags):
    """Compares what the program writes with Node and with ICU4C; answers whether every cause is known."""
    ours, its = [words.program, words.book, CAPACITY], [(skeleton, read_skeleton(skeleton)) for skeleton in SKELETONS]
    found = asked(ours, [Found(tag, *skeleton, number) for tag in tags for skeleton in its for number in NUMBERS])
    print("beside Node")
    is_known = compare_with_node(book, ours, [it for it in found if is_of_intl(it.its)], words.shown)
    print("beside ICU4C")
    return compare_with_icu(book, words.program, icu, found, words.shown) and is_known
