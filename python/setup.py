"""Builds the package. Its module in C has the library of the folder that LEGUMEYET_LIBRARY names, and without it uses the shared library of the
machine. That folder is one as tools/build_c leaves it, or `lib` of a released tar. The package fits each Python from 3.8 on."""
import os
import sys

from setuptools import Extension, setup

LIBRARY, HEADER = "liblegumeyet.a", "legumeyet.h"


def words_for(named):
    """What the linker and the compiler get for the library in a folder, which may also be named by a file in it."""
    folder = os.path.dirname(named) if os.path.isfile(named) else named
    includes = [it for it in (folder, f"{folder}/../include") if os.path.isfile(f"{it}/{HEADER}")]
    if not os.path.isabs(named) or not os.path.isfile(f"{folder}/{LIBRARY}") or not includes:
        sys.exit(f"LEGUMEYET_LIBRARY is the absolute path of a folder that has {LIBRARY}, with {HEADER} there or in ../include, and {named} is not")
    return {"include_dirs": includes[:1], "extra_objects": [f"{folder}/{LIBRARY}"], "extra_link_args": ["-Wl,--exclude-libs,ALL"]}


named = os.environ.get("LEGUMEYET_LIBRARY")
where = words_for(named) if named else {"libraries": ["legumeyet"]}
module = Extension("legumeyet._core", ["legumeyet/_core.c"], extra_compile_args=["-std=c99"], py_limited_api=True, **where)
setup(ext_modules=[module], options={"bdist_wheel": {"py_limited_api": "cp38"}})
