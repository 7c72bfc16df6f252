"""The toolchain: where it is, and what tells one from another."""
import functools
import hashlib
import os
import shutil
import sys

KIT = os.path.dirname(os.path.dirname(os.path.realpath(shutil.which("rt") or sys.exit("wrong-bodies: there is no rt"))))


@functools.lru_cache(maxsize=None)
def kit_sum():
    """A sum of the toolchain: its name, the prover's bytes, and what each of its libraries says that it is (the sums of its files)."""
    total = hashlib.sha256()
    formats = [f"{KIT}/rlibs/{it}/format" for it in sorted(os.listdir(f"{KIT}/rlibs"))]
    for it in [f"{KIT}/KIT-ID", f"{KIT}/bin/rattle", *formats]:
        with open(it, "rb") as file:
            total.update(hashlib.sha256(file.read()).digest())
    return total.hexdigest()


@functools.lru_cache(maxsize=None)
def kit_name():
    """The toolchain's name, in one word."""
    with open(f"{KIT}/KIT-ID", encoding="utf-8") as file:
        return file.read().split()[0]
