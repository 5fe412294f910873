"""The static libraries that scripts link into programs of other languages."""

import fcntl
import os
import sys
import time

from kit.program import TOP, sources

sys.path.insert(0, f"{TOP}/tools")

import libraries  # noqa: E402

FOLDER = f"{TOP}/target"


def is_current(path):
    """Whether this file is there, and no source is newer."""
    return os.path.exists(path) and all(os.path.getmtime(source) <= os.path.getmtime(path) for source in sources())


def archive_of(name):
    """The path of the static library of this name, and why it is not built, or None. It is proved and compiled over the libraries that `rt ci` left, which takes
    more than a minute. So it is kept, and another script takes it, or waits for it."""
    os.makedirs(FOLDER, exist_ok=True)
    path = f"{FOLDER}/lib{name}.a"
    with open(f"{path}.lock", "w", encoding="utf-8") as held:
        fcntl.flock(held, fcntl.LOCK_EX)
        if is_current(path):
            return path, None
        made, begun = f"{FOLDER}/made.lib{name}.a", time.time()
        said = libraries.build_archive(TOP, name, made)
        if said is None:
            # A source that changed meanwhile is newer.
            os.utime(made, (begun, begun))
            os.replace(made, path)
        return path, None if said is None else f"{said}the library {name} is not built"


def linked_with(archive):
    """What a C compiler is to link for a program that uses this library."""
    return [archive, f"{libraries.toolchain().KIT}/c/liblibc_c.a"]
