"""Copies of the repository in which edits are tried, and the libraries below them, proved and built."""

import os
import shutil
import subprocess
import sys

from edits.record import FOLDER_OF_RT, PARTS
from kit.program import TOP
from kit.report import say

sys.path.insert(0, f"{TOP}/tools")

import libraries


def link_or_copy(path, to):
    """A link takes no time, but leads to no other file system. What is built is never changed in place, only replaced."""
    try:
        os.link(path, to)
    except OSError:
        shutil.copy2(path, to)


def changed_since(crates, begun):
    """A file or folder of these crates that changed after that time, if there is one."""
    paths = [f"{TOP}/crates.txt"]
    for crate in crates:
        for part in PARTS:
            for at, _, names in os.walk(f"{TOP}/crates/{crate}/{part}"):
                paths += [at, *(f"{at}/{name}" for name in names)]
    return next((path for path in paths if os.stat(path).st_ctime >= begun), None)


class Room:
    """A temporary folder with a copy of the repository's sources, which all that is told and recorded is about, then with
    the built libraries, and then with a copy of both for each batch."""

    def __init__(self, folder):
        self.folder, self.top, self.proved = folder, f"{folder}/taken", set()
        shutil.copytree(f"{TOP}/crates", f"{self.top}/crates", ignore=shutil.ignore_patterns("out"))
        for name in ("crates.txt", "HANDLES"):
            if os.path.exists(f"{TOP}/{name}"):
                shutil.copy2(f"{TOP}/{name}", self.top)

    def is_library(self, crate, row):
        """Whether crates can stand on this one, of this row in crates.txt: on a program or a static library none can."""
        return "staticlib" not in row.partition(":")[0].split() and not os.path.exists(f"{self.top}/crates/{crate}/src/main.rt")

    def stamps_of_rt_ci(self, crates, begun):
        """The stamps for the libraries that `rt ci` left, if it began at that time and proved all of them over these sources, else None.
        It writes none itself, as what it leaves fits together only as a whole: so all are taken, or none."""
        if begun is None or changed_since(crates, begun):
            return None
        for crate in crates:
            folder = f"{TOP}/crates/{crate}/out/rlib"
            library = f"{folder}/{crate}.rlib"
            if os.path.exists(f"{folder}/stamp") or not os.path.isdir(library) or os.stat(library).st_mtime < begun:
                return None
        try:
            known = libraries.crates_of(libraries.toolchain(), self.top)
            return {crate: known[crate].stamp() for crate in crates}
        except (libraries.OtherToolchain, AttributeError, KeyError):
            return None

    def take_libraries(self, crates, begun):
        """Takes these libraries, proved and built: those of `rt ci`, or else those of the repository, which are built there first.
        Gives those that there are not, since one is not proved."""
        stamps = self.stamps_of_rt_ci(crates, begun)
        if crates and not stamps:
            build_libraries(crates)
        for crate in crates:
            built, to = f"{TOP}/crates/{crate}/out/rlib", f"{self.top}/crates/{crate}/out/rlib"
            if os.path.isdir(built):
                shutil.copytree(built, to, copy_function=link_or_copy)
            if stamps:
                with open(f"{to}/stamp", "w", encoding="utf-8") as file:
                    file.write(stamps[crate])
        self.proved = {crate for crate in crates if os.path.exists(f"{self.top}/crates/{crate}/out/rlib/stamp")}
        return [crate for crate in crates if crate not in self.proved]

    def copy_for(self, number, batch, repository):
        """A repository of the batch's crate, those below it, and the batch's edits."""
        top, crates = f"{self.folder}/{number}", [*repository.below(batch.crate), batch.crate]
        for crate in crates:
            shutil.copytree(f"{self.top}/crates/{crate}", f"{top}/crates/{crate}", copy_function=link_or_copy)
        with open(f"{top}/crates.txt", "w", encoding="utf-8") as file:
            file.writelines(f"{repository.rows[crate][0]}\n" for crate in crates)
        folder = f"{top}/crates/{batch.crate}/{FOLDER_OF_RT}"
        os.mkdir(folder)
        for edit in batch.edits:
            shutil.copyfile(edit.path, f"{folder}/{edit.name}")
        return top


def tell_of_libraries(proved, total, names):
    if names:
        say(f"libraries: {proved} of {total} proved; now {', '.join(names)}")


def build_libraries(crates):
    """Proves and builds these libraries where they lie, as far as they are not."""
    try:
        libraries.build(TOP, crates, tell_of_libraries)
    except libraries.NotBuilt as failed:
        say(f"{failed.said}libraries: {failed.name} is not proved")
    except libraries.OtherToolchain as other:
        say(f"libraries: one after the other, since this toolchain is not the one that was reckoned with ({other})")
        for crate in crates:
            subprocess.run(["rt", "lib", "--jobs", str(libraries.processors())], cwd=f"{TOP}/crates/{crate}", stdin=subprocess.DEVNULL)
