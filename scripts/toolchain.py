"""The toolchain's own parts, for the scripts that prove or try several crates side by side.

`rt` and the library beside it are loaded as they are, but for one thing. By a sum over the files of a crate and of all
below it `rt` tells whether the crate is proved, and it takes the sum of a crate anew on each way that leads down to it.
From the top of this repository there are tens of thousands of ways, which takes longer than some proofs. Here the sum
of a crate is taken once.
"""

import contextlib
import os
import re
import runpy
import shutil
import signal
import sys
import threading
from pathlib import Path

ROOT = Path(__file__).resolve().parent.parent
LOGS = ROOT / "out/build"
MEMORY = 2_500_000_000  # of a check, in bytes


def named_logic():
    """The logic in which these sources are proved, by README.md."""
    return re.search(r"\blogic ([0-9a-f]{16})\b", (ROOT / "README.md").read_text())[1]


def say_logic(library):
    """Says which toolchain this is, if its logic is not the one in which these sources are proved."""
    identity = Path(library.KIT, "KIT-ID").read_text().strip()
    if named_logic() not in identity:
        print(f"the toolchain is {identity}, and README.md names the logic {named_logic()}", flush=True)


def each_once(stamp):
    """The sums of a crate and of those below it, each taken once in a call."""
    kept = threading.local()

    def taken(crate):
        if getattr(kept, "sums", None) is None:
            kept.sums = {}
            try:
                return stamp(crate)
            finally:
                kept.sums = None
        if crate not in kept.sums:
            kept.sums[crate] = stamp(crate)
        return kept.sums[crate]

    return taken


def loaded():
    """The names of `rt`, and its library."""
    sys.dont_write_bytecode = True
    found = shutil.which("rt") or "/opt/rattle/bin/rt"
    if not os.path.isfile(found):
        sys.exit(f"there is no `rt`: get Rattle's toolchain of logic {named_logic()}, and put its folder `bin` on PATH")
    rt = runpy.run_path(os.path.realpath(found), run_name="rt")
    library = sys.modules["rtlib"]
    library.Crate.stamp = each_once(library.Crate.stamp)
    # Ctrl-C ends all checks, and what guards them is started before there are threads
    signal.signal(signal.SIGINT, signal.SIG_DFL)
    library.guarded()
    return rt, library


def crates_for(library, names):
    """The crates of these names and all that they stand on, lowest first."""
    known, found = {}, []
    for name in names:
        folder = f"{ROOT}/crates/{name}"
        if library.declared(folder) is None:
            sys.exit(f"crates.txt has no crate {name}")
        crate = known.get(folder) or library.Crate(folder, str(ROOT), known)
        known[folder] = crate
        found += [it for it in [*crate.below(), crate] if it not in found]
    return sorted(found, key=lambda it: len(it.below()))


def log_of(crate):
    """The file to which goes what the toolchain says of a crate."""
    LOGS.mkdir(parents=True, exist_ok=True)
    return LOGS / f"{crate.name}.log"


def proof(crate, tell):
    """The task that proves a library, unless it is proved, once those below it are. What came of it is told."""

    def prove(given, jobs):
        if not all(given[it.name, "proof"] for it in crate.below()):
            return False
        os.makedirs(f"{crate.folder}/out", exist_ok=True)
        with open(log_of(crate), "w") as crate.out:
            is_proved = crate.build_rlib(["--jobs", str(jobs)], anew=False) == 0
        tell(crate, is_proved)
        return is_proved

    return [(it.name, "proof") for it in crate.below()], crate.count(rb"\n"), MEMORY, prove


@contextlib.contextmanager
def locked(library, crates):
    """Nobody else proves these crates meanwhile."""
    held = library.lock(crates)
    try:
        yield
    finally:
        for it in held:
            os.close(it)
