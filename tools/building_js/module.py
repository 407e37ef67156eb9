"""The WebAssembly modules of the library for C: its LLVM module, kept from its build, widened, compiled and linked by the kit's own tools."""
import json
import pathlib
import re
import shutil
import tempfile

from launching import kit
from launching.common import TOP, Fault, out_of
from releasing import archive
from releasing.common import said_by

from .sections import functions_of, with_note, without_custom
from .widening import widened

KEPT = f"{out_of(archive.CRATE)}/module.bc"
PARTS = pathlib.Path(TOP, "js/module")
CALLS = "calls.c"
SOURCES = (CALLS, "heap.c", "wide.c")
# The crates that write and read numbers are compiled for speed, all others for size: there it costs no call more than a tenth.
FAST = re.compile(r"fixed_decimal|icu_decimal(?:$|_(?:compact|grouping|plain|reading|symbols))|legumeyet_c|writeable|arrayvec|smallvec")
DEFINED = re.compile(r'^(define [^@]*@"?([a-z]\w*)::.*\))((?: unnamed_addr| #\d+)* \{)$', re.M)
EACH_DEFINED = re.compile(r"^(define .*\)(?: unnamed_addr)?)((?: #\d+)* \{)$", re.M)
FOR_SPEED, FOR_SIZE = "-O2", "-Oz"
FOR_WASM = ("--target=wasm32-unknown-unknown", "-mbulk-memory", "-msimd128", "-mno-multivalue", "-fno-builtin", "--no-default-config")
# The stack is first, so that what runs over it leaves the memory and stops; addresses stay below what JavaScript has as numbers above 0.
LINKED = ("--no-entry", "--gc-sections", "--strip-debug", "--compress-relocations", "--stack-first", "-z", "stack-size=524288", "--max-memory=2147418112")
STATIC = re.compile(r"^ +([0-9a-f]+) +[0-9a-f]+ +([0-9a-f]+) +(\S*:\(\.(?:ro)?data\S*\))$", re.M)  # in the linker's map
STATIC_NAME = re.compile(r"data\.(?:\.L)?([^)]*)\)$")
# What the text of a module has: its pieces, and the names in them.
PIECE = re.compile(r"^(?=define |declare |@|attributes |!)", re.M)
NAME = re.compile(r'@("[^"]+"|[\w.$]+)')
ESCAPED = re.compile(r"\\([0-9A-F]{2})")
# The calls that no page makes; and those that only some pages make, or only what puts a book inside. All others are of each page.
NOT_OF_PAGE = re.compile(r"js_answers_\w+|js_book_(?:answer|found_locale|locale|locale_count)|js_column_\w+|js_formatter_(?:doubles|integers|texts)")
PARTS_OF_PAGE = {
    "opening": re.compile(r"js_book_(?:open|keep|close|put_inside)|js_keep_clean|js_forget_freed"),
    "compact": re.compile(r"js_compact|js_formatter_exact"),
    "units": re.compile(r"js_units"),
    "read": re.compile(r"js_formatter_read\w*"),
    "skeletons": re.compile(r"js_formatter_open_skeleton|js_skeleton_normal|js_place"),
    "plurals": re.compile(r"js_plurals|js_formatter_range"),
}
CHOSEN = [it for it in PARTS_OF_PAGE if it != "opening"]  # what a page may be made without, as js/pages.js has it
# The functions of the library that only calls for a part come to, though calls of all pages name them: compact numbers, those with digits of their own,
# percents and amounts, whose tables are looked for as the signs of scientific numbers are. Where a page does without the part they stop, and what only
# they call goes. Those of `opening` no page comes to: formatters with tables of their own, which a page's book never opens; numbers that are no texts;
# and tags of more than js/tags.js makes of them for a page.
OF_DIGITS = r"locale_numbers_formatter::compact_digits::|::number_formatter::(?:format|show)_digits\b|::shown_operands::digits_operands\b"
ONLY_OF = {
    "opening": re.compile(r"locale_numbers_formatter::own_tables::|own_tables\+\+\w+\+Destruct::drop|::held_(?:formatter::own_of|plurals::own_plurals)|held_answers|::book::Book::drop\b"
                          r"|legumeyet_c_values::numbers::assign_(?:double|scaled)\b|::tag_reader::read_any\b"),
    "compact": re.compile(r"icu_decimal::(?:compact_formatter|formatted_compact)::|::find_compact\b|" + OF_DIGITS),
    "units": re.compile(r"icu_dimension(?:_affixes|_lenient)?::(?!\w+::drop|provider::)|::find_(?:amounts|percents)\b"),
    "skeletons": re.compile(OF_DIGITS),
    "plurals": re.compile(r"legumeyet_c::categories::|::find_plural_rules\b"),
}
WHOLE, OF_PAGE = "legumeyet.wasm", "page.wasm"
KEEPING = """\
#!/bin/sh
# The kit's clang, which keeps the module that it is given.
for it in "$@"; do
    case "$it" in *.bc) cp "$it" '{kept}' ;; esac
done
exec '{toolchain}/bin/clang' "$@"
"""


def toolchain():
    """The kit's folder of tools."""
    return pathlib.Path(kit.folder(), "toolchain")


def keeping(folder, kept):
    """A folder of tools, in which clang keeps the module that it is given."""
    tools = toolchain()
    (folder / "bin").mkdir(parents=True)
    (folder / "lib").symlink_to(tools / "lib")
    for it in (tools / "bin").iterdir():
        if it.name != "clang":
            (folder / "bin" / it.name).symlink_to(it)
    clang = folder / "bin/clang"
    clang.write_text(KEEPING.format(kept=kept, toolchain=tools), encoding="utf-8")
    clang.chmod(0o755)
    return folder


def kept_module():
    """The LLVM module of the proved crate, built where it is not of the sources as they are, with the static library that it becomes."""
    if archive.is_made(KEPT):
        return KEPT
    with tempfile.TemporaryDirectory(prefix="legumeyet-") as folder:
        folder = pathlib.Path(folder)
        archive.build(keeping(folder / "toolchain", folder / "module.bc"))
        if not (folder / "module.bc").is_file():
            raise Fault("the kit gave its clang no module")
        shutil.move(folder / "module.bc", KEPT)
    archive.note_made(KEPT)
    return KEPT


def sized(text):
    """The module, in which the functions of all crates but the fast ones are to be small."""
    return DEFINED.sub(lambda found: found[0] if FAST.match(found[2]) else f"{found[1]} optsize{found[3]}", text)


def text_of(clang, module, folder):
    """The text of the module, as it is."""
    path = folder / "module.ll"
    said_by(clang, "--target=x86_64-unknown-linux-gnu", "-S", "-emit-llvm", "-x", "ir", module, "-o", path, "-Xclang", "-disable-llvm-passes")
    return path.read_text(encoding="utf-8", errors="surrogateescape")


def exported():
    """The names of the calls for JavaScript."""
    return sorted(set(re.findall(r"^[a-z]\w* \**(js_\w+)\(.*\{", (PARTS / "calls.c").read_text(encoding="utf-8"), re.M)))


def parts_of_page():
    """The calls of each part of a page's module; those of the part `page` are in each."""
    names = [it for it in exported() if not NOT_OF_PAGE.fullmatch(it)]
    parts = {part: [it for it in names if form.fullmatch(it)] for part, form in PARTS_OF_PAGE.items()}
    return {"page": [it for it in names if it not in sum(parts.values(), [])], **parts}


def small(text):
    """The module, in which all functions are to be as small as can be, and those of a part stay apart from their callers."""

    def sized_so(found):
        apart = " noinline" if any(it.search(found[1]) for it in ONLY_OF.values()) else ""
        return f"{found[1]} minsize optsize{apart}{found[2]}"

    return EACH_DEFINED.sub(sized_so, text)


def names_of(text):
    """The functions and statics of the text of a module, each with the names that it has in it."""

    def plain(name):
        return ESCAPED.sub(lambda found: chr(int(found[1], 16)), name.strip('"'))

    each = ([plain(it) for it in NAME.findall(piece)] for piece in PIECE.split(text) if piece.startswith(("define ", "@")))
    return {name: set(named) for name, *named in each}


def reached(names, calls, stopped):
    """The names that these calls come to, without what only functions of the stopped parts come to."""
    found, left = set(), list(calls)
    while left:
        name = left.pop()
        if name in names and name not in found and not any(ONLY_OF[it].search(name) for it in stopped):
            found.add(name)
            left += names[name]
    return found


def improved(clang, text, level, folder):
    """The text of the module for wasm32, made as fast or as small as it is to be."""
    wide, made = folder / "wide.ll", folder / "improved.ll"
    wide.write_text(text, encoding="utf-8", errors="surrogateescape")
    said_by(clang, *FOR_WASM, level, "-Wno-override-module", "-S", "-emit-llvm", "-x", "ir", wide, "-o", made)
    return made.read_text(encoding="utf-8", errors="surrogateescape")


def object_of(clang, text, level, path):
    """The object of a text that is made so, as it is."""
    path.with_suffix(".ll").write_text(text, encoding="utf-8", errors="surrogateescape")
    said_by(clang, *FOR_WASM, level, "-Xclang", "-disable-llvm-passes", "-c", "-x", "ir", path.with_suffix(".ll"), "-o", path)
    return path


def source_compiled(clang, level, name, made, *form):
    """The object of a C file here; or, by words for clang, another form of it."""
    strict = ("-std=c11", "-Wall", "-Wextra", "-Werror", "-ffreestanding")
    said_by(clang, *FOR_WASM, level, *strict, *(form or ["-c"]), PARTS / name, "-o", made)
    return made


def sources_compiled(clang, level, folder):
    """The objects of the C files here."""
    return [source_compiled(clang, level, name, folder / f"{pathlib.Path(name).stem}.o") for name in SOURCES]


def linked(objects, exports, folder):
    """The module of some objects with these calls, and with the names of its functions."""
    linker = folder / "wasm-ld"
    if not linker.exists():
        linker.symlink_to(toolchain() / "bin/clang")  # the kit's clang is its linkers too, by their names
    words = [*LINKED, f"--Map={folder / 'module.map'}", *[f"--export={name}" for name in exports]]
    said_by(linker, *words, *objects, "-o", folder / "module.wasm")
    return (folder / "module.wasm").read_bytes()


def statics_of(folder):
    """The places and sizes of the statics of the module that was linked last, by their names."""
    text = (folder / "module.map").read_text(encoding="utf-8", errors="surrogateescape")
    return {name: (int(at, 16), int(size, 16)) for at, size, name in STATIC.findall(text)}


def needs_of(names, parts):
    """
    Of each name the choices of parts of a page that come to it, each a bit: its place is the sum of 2 to the powers of the choice's parts in the order
    of CHOSEN.
    """
    needs = dict.fromkeys(names, 0)
    for choice in range(2 ** len(CHOSEN)):
        kept = [it for bit, it in enumerate(CHOSEN) if choice >> bit & 1]
        for name in reached(names, sum((parts[it] for it in ["page", *kept]), []), [it for it in ONLY_OF if it not in kept]):
            needs[name] |= 1 << choice
    return needs


def page_module(clang, text, folder):
    """
    The module of which those of pages are made, for js/pages.js. Its note `parts` has the calls of each part, and of each function and each static the
    choices of parts that come to it: what none comes to goes. The other C files, which clang calls of its own too, are of each choice.
    """
    parts, text = parts_of_page(), improved(clang, text, FOR_SIZE, folder)
    sources = sources_compiled(clang, FOR_SIZE, folder)
    calls = source_compiled(clang, FOR_SIZE, CALLS, folder / "calls.ll", "-S", "-emit-llvm").read_text(encoding="utf-8")
    whole = linked([object_of(clang, text, FOR_SIZE, folder / "library.o"), *sources], sum(parts.values(), []), folder)
    needs, always = needs_of({**names_of(text), **names_of(calls)}, parts), 2 ** 2 ** len(CHOSEN) - 1
    functions = [needs.get(it, always) for it, _ in sorted(functions_of(whole).items(), key=lambda it: it[1])]
    statics = [[at, size, needs.get(STATIC_NAME.search(name)[1], always)] for name, (at, size) in statics_of(folder).items()]
    note = {"parts": parts, "functions": functions, "statics": statics}
    return with_note(without_custom(whole), "parts", json.dumps(note, separators=(",", ":")))


def make_modules(folder):
    """Writes the two WebAssembly modules into a folder: of all calls, and of those of a page."""
    module, clang = kept_module(), toolchain() / "bin/clang"
    with tempfile.TemporaryDirectory(prefix="legumeyet-") as place:
        place = pathlib.Path(place)
        text = widened(text_of(clang, module, place))
        fast = object_of(clang, improved(clang, sized(text), FOR_SPEED, place), FOR_SPEED, place / "library.o")
        (folder / WHOLE).write_bytes(without_custom(linked([fast, *sources_compiled(clang, FOR_SPEED, place)], exported(), place)))
        (folder / OF_PAGE).write_bytes(page_module(clang, small(text), place))
