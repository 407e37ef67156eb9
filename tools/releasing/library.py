"""Where the files of the library for C go, and what pkg-config and CMake read of them."""
import os
import pathlib
import shutil

from launching.common import write_whole

from .common import TOP, header_version, whole

HEADERS = ("legumeyet.h", "legumeyet.hpp")
STATIC, SHARED, PC = "liblegumeyet.a", "liblegumeyet.so", "legumeyet.pc"
CMAKE = ("legumeyetConfig.cmake", "legumeyetConfigVersion.cmake")
PC_TEXT = """\
{places}
Name: legumeyet
Description: numbers written as the readers of a locale write them, and read back
Version: {version}
Cflags: -I${{includedir}}
Libs: -L${{libdir}} -llegumeyet
"""


def named():
    """The file of the shared library, whose last number is the version of the header."""
    return f"{SHARED}.{header_version().partition('.')[0]}"


def copy(source, target):
    """Copies a file, so that there is never half of it."""
    with whole(target) as part:
        shutil.copyfile(source, part)


def put_libraries(made, folder):
    """Copies both libraries; the shared one gets its short name by a link."""
    for name in (STATIC, named()):
        copy(f"{made}/{name}", f"{folder}/{name}")
    link = pathlib.Path(f"{folder}/{SHARED}")
    link.unlink(missing_ok=True)
    link.symlink_to(named())


def put_cmake(include, libraries, folder):
    """Writes what find_package(legumeyet) of CMake reads, which names the other folders from its own."""
    texts = {"version": header_version(), "shared": named(), "static": STATIC}
    texts |= {name: os.path.relpath(path, folder) for name, path in (("include", include), ("libraries", libraries))}
    for name in CMAKE:
        text = (TOP / "c" / f"{name}.in").read_text(encoding="utf-8")
        for word, value in texts.items():
            text = text.replace(f"@{word}@", value)
        write_whole(f"{folder}/{name}", text)


def place(made, include, libraries, pkgconfig, cmake, places):
    """Puts the headers, the libraries that are in the folder `made`, and what pkg-config and CMake read into folders. `places` are the lines
    that say to pkg-config where the libraries and the headers are."""
    for folder in (include, libraries, pkgconfig, cmake):
        os.makedirs(folder, exist_ok=True)
    for name in HEADERS:
        copy(TOP / "include" / name, f"{include}/{name}")
    put_libraries(made, libraries)
    write_whole(f"{pkgconfig}/{PC}", PC_TEXT.format(places=places, version=header_version()))
    put_cmake(include, libraries, cmake)


def place_below(root, prefix, libraries, made):
    """Puts all of it where packages have it, below a folder: into PREFIX/include, LIBRARIES, and LIBRARIES/pkgconfig and /cmake."""
    below = str(root).rstrip("/")
    places = f"prefix={prefix}\nlibdir={libraries}\nincludedir=${{prefix}}/include\n"
    at = f"{below}{libraries}"
    place(made, f"{below}{prefix}/include", at, f"{at}/pkgconfig", f"{at}/cmake/legumeyet", places)


def place_in_one(out, made):
    """Puts all of it into one folder, which may be moved."""
    place(made, out, out, out, out, "libdir=${pcfiledir}\nincludedir=${pcfiledir}\n")


def place_to_move(root, made):
    """Puts all of it into include, lib, lib/pkgconfig and lib/cmake of a folder, which may be moved."""
    places = "libdir=${pcfiledir}/..\nincludedir=${pcfiledir}/../../include\n"
    place(made, f"{root}/include", f"{root}/lib", f"{root}/lib/pkgconfig", f"{root}/lib/cmake/legumeyet", places)
