"""Which texts are conditions of plural rules: the rule of docs/plurals.md, written down once more."""
import re

RUN = re.compile(r"[a-z]+|[0-9]+| +|!=|\.\.|.", re.S)
NUMBER = re.compile("[0-9]{1,18}")
OPERANDS = tuple("nivwftce")


def cut(tokens, separator):
    """The parts of a list between its separators."""
    found = [[]]
    for token in tokens:
        if token == separator:
            found.append([])
        else:
            found[-1].append(token)
    return found


def is_number(tokens):
    """Whether these tokens are one number."""
    return len(tokens) == 1 and NUMBER.fullmatch(tokens[0]) is not None


def is_interval(tokens):
    """Whether these tokens are a number, or two of which the first is not the greater one."""
    ends = cut(tokens, "..")
    return len(ends) <= 2 and all(map(is_number, ends)) and int(ends[0][0]) <= int(ends[-1][0])


def is_relation(tokens):
    """Whether these tokens are an operand, a division by a number above 0 or none, a sign, and intervals."""
    if not tokens or tokens[0] not in OPERANDS:
        return False
    rest = tokens[1:]
    if rest[:1] == ["%"]:
        if not is_number(rest[1:2]) or int(rest[1]) == 0:
            return False
        rest = rest[2:]
    return rest[:1] in (["="], ["!="]) and all(map(is_interval, cut(rest[1:], ",")))


def is_condition(text):
    """Whether a text is a condition: alternatives of relations."""
    tokens = [run for run in RUN.findall(text) if run.strip(" ")]
    return all(is_relation(relation) for alternative in cut(tokens, "or") for relation in cut(alternative, "and"))
