"""The sections of a WebAssembly module, and the names of its functions."""
from launching.common import Fault

HEAD = b"\0asm\x01\0\0\0"
CUSTOM = 0
FUNCTION_NAMES = 1  # the part of the section `name` that has those of functions


def number_at(data, at):
    """An unsigned number of LEB128, and where it ends."""
    number = shift = 0
    while True:
        byte = data[at]
        number |= (byte & 0x7F) << shift
        at, shift = at + 1, shift + 7
        if byte < 0x80:
            return number, at


def number_of(number):
    """The bytes of an unsigned number in LEB128."""
    made = bytearray()
    while number > 0x7F:
        made.append(0x80 | (number & 0x7F))
        number >>= 7
    return bytes([*made, number])


def text_at(data, at):
    """A text with its length before it, and where it ends."""
    length, at = number_at(data, at)
    return data[at : at + length].decode(), at + length


def text_of(text):
    """The bytes of a text with its length before it."""
    return number_of(len(text.encode())) + text.encode()


def sections_of(module):
    """The sections, each with its number."""
    if not module.startswith(HEAD):
        raise Fault("this is no WebAssembly module")
    found, at = [], len(HEAD)
    while at < len(module):
        number, (size, start) = module[at], number_at(module, at + 1)
        found.append((number, module[start : start + size]))
        at = start + size
    return found


def section_of(number, data):
    """The bytes of a section."""
    return bytes([number]) + number_of(len(data)) + data


def without_custom(module):
    """A module without the sections that say nothing of what it does, as names."""
    return HEAD + b"".join(section_of(number, data) for number, data in sections_of(module) if number != CUSTOM)


def functions_of(module):
    """The numbers of the functions, by their names."""
    for number, data in sections_of(module):
        if number == CUSTOM and text_at(data, 0)[0] == "name":
            return functions_in(data, text_at(data, 0)[1])
    raise Fault("the module has no names")


def functions_in(data, at):
    """Those of the section of names, whose parts begin there."""
    while data[at] != FUNCTION_NAMES:
        size, at = number_at(data, at + 1)
        at += size
    count, at = number_at(data, number_at(data, at + 1)[1])
    found = {}
    for _ in range(count):
        number, at = number_at(data, at)
        name, at = text_at(data, at)
        if name in found:
            raise Fault(f"two functions of the module have the name {name}")
        found[name] = number
    return found


def with_note(module, name, text):
    """A module with a section of its own, which has a text."""
    return module + section_of(CUSTOM, text_of(name) + text.encode())
