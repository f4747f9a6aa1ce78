"""Which program is run by scripts, tests and benchmarks, and what else they need."""

import re
import shutil
import subprocess
import sys
from pathlib import Path

ROOT = Path(__file__).resolve().parent.parent

# what the program says of memory that was refused
OUT_OF_MEMORY = re.compile(rb"svnserved: (H2|O4|X7)\n  out of memory\n(  [^\n]+\n)?")


def program_path(path=None, name="svnserved"):
    """The program that is named by its path, or else the one that `scripts/program` finds. It is said which one it is."""
    words = [ROOT / "scripts/program", "--say", name, *([path] if path else [])]
    found = subprocess.run(words, stdout=subprocess.PIPE, text=True)
    if found.returncode != 0:
        sys.exit(found.returncode)
    return Path(found.stdout.rstrip("\n"))


def need_subversion(*commands):
    """Ends, and says what to install, unless these commands of Subversion are there."""
    missing = [command for command in commands if not shutil.which(command)]
    if missing:
        sys.exit(f"there is no {' and no '.join(missing)}: install Subversion (Debian: `apt-get install subversion`)")
