"""Checks of one crate by the kit's compiler, over the libraries that the first build left, for bench/profile and bench/goals."""
import os
import subprocess

from crates import Kit


def lacking(crate):
    """The name of a crate below it whose library is not there, or none."""
    return next((it.name for it in crate.below if not os.path.isdir(it.library)), None)


def checked(crate, folder, *flags):
    """The check of the crate's sources in a folder, by one process, once it has ended: its code, and all that the kit said."""
    words = [*Kit().calling("check", crate), "--jobs", "1", *flags]
    return subprocess.run(words, cwd=folder, stdout=subprocess.PIPE, stderr=subprocess.STDOUT, text=True, check=False)


def times(folder):
    """Each file below a folder but the first written, in the order of writing, with the seconds from the one before to it."""
    found = []
    for at, _, files in os.walk(folder):
        found += [(os.stat(os.path.join(at, it)).st_mtime_ns, it) for it in files]
    found.sort()
    for (before, _), (now, file) in zip(found, found[1:]):
        yield file, (now - before) / 1e9
