"""The text of an LLVM module for 64-bit pointers, made so that it holds where pointers have 32 bits: in memory each still takes eight bytes.

The layouts of the module are computed: offsets are bytes, and sizes are numbers. So a pointer that is loaded or stored becomes an i64, one in
a static gets four bytes of zeros after it, and one in a struct that a call is given or returns becomes an i64. In registers pointers stay what
they are. A line whose form is not known here is refused. That the module is then as before is tested, and not proved.
"""
import re

from launching.common import Fault

STRING = re.compile(r'(c"[^"]*")')
AGGREGATE = re.compile(r"\{[^{}]*\}")
POINTER = re.compile(r"\bptr\b")
STATIC = re.compile(r"^(@\S+ = .*?constant )<\{ (.*?) \}> <\{ (.*) \}>(, align \d+)$")
IN_STATIC = re.compile(r"(?<![(\w] )(?<!i8, )\bptr (getelementptr \(i8, ptr @[\w.]+, i64 \d+\)|@[\w.]+)")
EXTRACTED = re.compile(r"^(\s*)(%\S+) = extractvalue (\{[^{}]*\}) (%\S+), (\d+)$")
LOADED = re.compile(r"^(\s*)(%\S+) = load ptr, ptr ([^,]+), (align \d+)(?:, ![\w.]+ !\d+)*$")
STORED = re.compile(r"^(\s*)store ptr (.+), ptr ([^,]+), (align \d+)(?:, ![\w.]+ !\d+)*$")
# What may name a pointer beside those: it is in a register there, or what is loaded, stored or counted has none.
KNOWN = re.compile(
    r"^\s*(?:%\S+ = )?(?:(?:tail |musttail |notail )?call |ret (?:ptr|\{) ?|phi ptr |select |icmp \w+ ptr |ptrtoint ptr |ptrtoaddr ptr |freeze ptr "
    r"|inttoptr i64 \S+ to ptr$"
    r"|getelementptr (?:inbounds |nuw |nusw )*(?:i\d+|double|\[\d+ x i\d+\]), ptr "
    r"|(?:load|store) (?:i\d+|<\d+ x i\d+>|\[\d+ x i\d+\]|double|\{[^{}]*\})[ ,]"
    r"|alloca ptr, align \d+$|extractvalue \{|unreachable|br |switch )"
)
# Forms in which a pointer would be in memory.
REFUSED = re.compile(r"\[\d+ x ptr\]|<\d+ x ptr>|\{[^}]*\bptr\b[^}]*\}[,)]? (?:undef|poison|zeroinitializer)|\b(?:atomicrmw|cmpxchg|va_arg|insertvalue|byval|inalloca|preallocated)\b")
# The module's own lines on its target, and what each becomes.
TARGETS = (
    (re.compile(r"^target datalayout = .*$"), 'target datalayout = "e-m:e-p:32:32-p10:8:8-p20:8:8-i64:64-i128:128-n32:64-S128-ni:1:10:20"'),
    (re.compile(r"^target triple = .*$"), 'target triple = "wasm32-unknown-unknown"'),
)
OF_THE_PROCESSOR = re.compile(r'"(?:probe-stack|stack-probe-size|target-cpu|tune-cpu|target-features)"="[^"]*"')


def wide(line):
    """A line with an i64 for each pointer in a struct."""
    return AGGREGATE.sub(lambda found: POINTER.sub("i64", found[0]), line)


def wide_static(line):
    """A static with four more bytes after each pointer."""
    found = STATIC.match(line)
    if not found:
        raise ValueError("a static of a form that is not known")
    kinds = POINTER.sub("ptr, i32", found[2])
    values = "".join(it if it.startswith('c"') else IN_STATIC.sub(r"\g<0>, i32 0", it) for it in STRING.split(found[3]))
    if values.count(", i32 0") != kinds.count("ptr, i32"):
        raise ValueError("a pointer of a form that is not known in a static")
    return f"{found[1]}<{{ {kinds} }}> <{{ {values} }}>{found[4]}"


def wide_instruction(line, name):
    """What takes the place of an instruction that names a pointer; `name` is a new one."""
    found = EXTRACTED.match(line)
    if found and found[3][1:-1].split(",")[int(found[5])].strip() == "ptr":
        space, result, struct, value, place = found.groups()
        return [f"{space}{name} = extractvalue {wide(struct)} {value}, {place}", f"{space}{result} = inttoptr i64 {name} to ptr"]
    found = LOADED.match(line)
    if found:
        space, result, place, align = found.groups()
        return [f"{space}{name} = load i64, ptr {place}, {align}", f"{space}{result} = inttoptr i64 {name} to ptr"]
    found = STORED.match(line)
    if found:
        space, value, place, align = found.groups()
        return [f"{space}{name} = ptrtoint ptr {value} to i64", f"{space}store i64 {name}, ptr {place}, {align}"]
    if REFUSED.search(line) or not KNOWN.match(line):
        raise ValueError("a form that is not known")
    return [wide(line.replace("alloca ptr,", "alloca i64,").replace("= ptrtoaddr ", "= ptrtoint "))]


def wide_lines(line, name):
    """What takes the place of a line of the module."""
    for form, instead in TARGETS:
        if form.match(line):
            return [instead]
    if line.startswith("attributes "):
        return [OF_THE_PROCESSOR.sub("", line)]
    if not POINTER.search(STRING.sub("", line)) or line.startswith((";", "!", "source_filename")):
        return [line]
    if line.startswith("@"):
        return [wide_static(line)]
    if line.startswith(("declare ", "define ")):
        return [wide(line)]
    return wide_instruction(line, name)


def widened(text):
    """The module, widened. Raises a Fault with the first line of a form that is not known."""
    made = []
    for number, line in enumerate(text.splitlines(), 1):
        try:
            made += wide_lines(line, f"%wide.{number}")
        except ValueError as error:
            raise Fault(f"line {number} of the module has {error}: {line.strip()[:150]}") from None
    text = "\n".join(made) + "\n"
    if "@llvm.x86." in text:
        raise Fault("the module has an instruction of x86")
    return text
