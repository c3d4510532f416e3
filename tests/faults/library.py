"""Builds the library that is put before the C library."""
import os
import shlex
import shutil
import subprocess
from pathlib import Path

SOURCE = Path(__file__).resolve().parent / "faults.c"


class Missing(Exception):
    """What is needed isn't there; the text says what."""


def build(folder):
    """Builds the library in a folder, and gives its path."""
    words = shlex.split(os.environ.get("CC") or "cc")
    if not shutil.which(words[0]):
        raise Missing(f"there is no C compiler {words[0]}: set CC")
    library = folder / "faults.so"
    words += ["-std=c99", "-O2", "-Wall", "-Wextra", "-Werror", "-shared", "-fPIC"]
    ran = subprocess.run([*words, "-o", library, SOURCE], stdin=subprocess.DEVNULL, check=False)
    if ran.returncode:
        raise Missing(f"{SOURCE} did not compile")
    return str(library)
