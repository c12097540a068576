"""The crates of this repository and the commands of the kit; the scripts here, .ci/keep and .ci/minutes import it."""
import functools
import importlib.util
import os
import shutil
import subprocess
import sys
from pathlib import Path

TOP = Path(__file__).resolve().parents[1]
NO_KIT = "rt is not on the path: install the Rattle kit that README.md names, and put its folder bin on the path"


# Bytes that no check of these crates needs more of.
CHECK = 5_000_000_000


def with_lanes():
    """The environment for `rt ci`. It reckons with more memory for a check than these crates need, and would leave processors idle: if
    there is enough for each, RT_JOBS has it use them all."""
    processors = len(os.sched_getaffinity(0))
    free = next(1024 * int(it.split()[1]) for it in Path("/proc/meminfo").read_text().splitlines() if it.startswith("MemAvailable"))
    return {"RT_JOBS": str(processors), **os.environ} if processors * CHECK <= free else {**os.environ}


def families():
    """The crates of crates.txt, the lowest first: family -> crate -> the names that it stands on."""
    found = {}
    for line in (TOP / "crates.txt").read_text().splitlines():
        if line.startswith("#"):
            family = found.setdefault(line[1:].strip(), {})
        elif line.strip():
            name, _, below = line.partition(":")
            family[name.split()[0]] = below.split()
    return {family: crates for family, crates in found.items() if crates}


def crates():
    """Each crate with the names that it stands on, the lowest first."""
    return {crate: below for crates in families().values() for crate, below in crates.items()}


def needed(*named):
    """The named crates and those below them, the lowest first, each with the names that it stands on."""
    found, wanted = {}, set(named)
    for crate, below in reversed(crates().items()):
        if crate in wanted:
            wanted |= set(below)
            found[crate] = below
    return dict(reversed(found.items()))


def text_of(crates):
    """A crates.txt of these crates."""
    return "".join(f"{' '.join([f'{crate}:', *below])}\n" for crate, below in crates.items())


def copy_sources(root, crates, *without):
    """Copies crates to a root of their own, without what was built of them and without folders of these names."""
    (root / "crates.txt").write_text(text_of(crates))
    for crate in crates:
        shutil.copytree(TOP / "crates" / crate, root / "crates" / crate, ignore=shutil.ignore_patterns("out", *without))


def copy_proved(root, crates):
    """Copies what was proved of crates to where a root has none of it."""
    for crate in crates:
        proved, there = (top / "crates" / crate / "out/rlib" for top in (TOP, root))
        if proved.is_dir() and not there.is_dir():
            shutil.copytree(proved, there)


@functools.cache
def kit():
    """The folder of the kit."""
    return Path(subprocess.run(["rt", "doc"], check=True, capture_output=True, text=True).stdout.strip()).parent


def commands():
    """The module of the kit that `rt` does its work with."""
    spec = importlib.util.spec_from_file_location("rtlib", kit() / "bin/rtlib.py")
    sys.modules["rtlib"] = found = importlib.util.module_from_spec(spec)
    spec.loader.exec_module(found)
    return found


def mark_as_built(names):
    """Has the kit's other commands take the libraries of these crates, which `rt ci` has proved, instead of proving them again: writes
    beside each the sum of all that it was made of, which some kits' `rt ci` doesn't. Answers all crates."""
    rtlib = commands()
    # a crate's sum has those of all that it stands on
    rtlib.Crate.stamp = functools.cache(rtlib.Crate.stamp)
    crates = rtlib.crates_below(str(TOP))
    for crate in crates:
        library = Path(crate.rlib)
        if crate.name in names and library.is_dir() and not crate.is_built():
            (library.parent / "stamp").write_text(crate.stamp(), encoding="utf-8")
    return crates
