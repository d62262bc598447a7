"""What bench/hostile does against each form: attempts of each kind, with the codes that are promised."""
import collections
import contextlib
import os
import resource
import signal
import time

from forms import KILLED, NOBODY, REFUSED, kinds_of, writes

KILLS = 200
GREATEST_TEXT = 1_000_000
# So many places of an output or of a table are tried, and so many sizes of a disk, where they are not all.
PLACES, SIZES = 60, 120

# One run: what is tried; the codes with which it may end; the right bytes of its files and those that are not; how it is run, with the streams
# and the locks of a `with` around it; further answers that are right; what its output or error output is, where it has to be just that; and
# whether a file that it reads is changed meanwhile.
FIELDS = "what codes files bad how around also exact changes"
Attempt = collections.namedtuple("Attempt", FIELDS, defaults=({}, {}, contextlib.nullcontext, (), {}, False))


def places(length, most=None):
    """Places from 0 to below a length: each one, or at most so many, as far apart."""
    return range(0, length, max(1, -(-length // (most or length or 1))))


def read_kinds(form):
    """The kinds of the files that a form reads."""
    return [kind for kind in kinds_of(form) if kind != "NEW"]


def hooked(outside, form, files):
    """An undisturbed run with the library, and how many requests for memory, writes and reads it has."""
    answer = outside.run(form, files, hook={})
    return answer, outside.hook.counted()


def memory_once(outside, form):
    """Each request for memory is refused in turn."""
    yield from _memory(outside, form, "REFUSED_REQUEST")


def memory_from(outside, form):
    """All requests for memory are refused from each one on."""
    yield from _memory(outside, form, "REFUSED_FROM")


def _memory(outside, form, which):
    for files in outside.versions(form):
        answer, (requests, _, _) = hooked(outside, form, files)
        # 7 where the system asked for memory, to open a file.
        for number in places(requests):
            yield Attempt(f"request {number + 1}", (12, 7, answer.code), files, how={"hook": {which: number + 1}})


def absent(outside, form):
    """A file is not there, or the folder of the one to be written."""
    for kind in kinds_of(form):
        for files in outside.versions(form):
            if kind == "NEW":
                yield Attempt("no folder for NEW", [7], files, how={"words": {kind: "nowhere/new"}})
                yield Attempt("no NEW", [0], files, {kind: None})
            else:
                yield Attempt(f"no {kind}", [3], files, {kind: None})


def folders(outside, form):
    """A folder stands in the place of a file."""
    for kind in kinds_of(form):
        yield Attempt(f"{kind} a folder", [7], {}, how={"words": {kind: "."}})


def unreadable(outside, form):
    """A file may not be read or written by who runs the program."""
    for kind in kinds_of(form):

        @contextlib.contextmanager
        def locked(kind=kind):
            path = outside.path(kind.lower())
            os.chmod(path, 0)
            yield
            os.chmod(path, 0o644)

        yield Attempt(f"{kind} not to be opened", [7], {}, how=as_nobody(), around=locked)


def as_nobody():
    """How a run is one of a user without rights."""
    return {"user": NOBODY, "group": NOBODY, "extra_groups": []} if os.geteuid() == 0 else {}


def too_long(outside, form):
    """A text has one byte more than it may have, or just as many; a table has one more than its length."""
    for kind in read_kinds(form):
        for files in outside.versions(form):
            content = (outside.files | files)[kind]
            if kind == "TABLE":
                yield Attempt("TABLE a byte longer", [5], files, {kind: content + b"\0"})
                continue
            room = GREATEST_TEXT - len(content)
            yield Attempt(f"{kind} too long", [9], files, {kind: content + b"\n" * (room + 1)})
            if kind != "MODEL" or "TABLE" not in kinds_of(form):
                yield Attempt(f"{kind} as long as it may be", [outside.whole(form, files).code], files | {kind: content + b"\n" * room})


def endless(outside, form):
    """A file never ends, and the one to be written takes nothing."""
    for kind in kinds_of(form):
        if kind == "NEW":
            yield Attempt("NEW full", [7], {}, how={"words": {kind: "/dev/full"}})
        else:
            yield Attempt(f"{kind} endless", [5 if kind == "TABLE" else 9], {}, how={"words": {kind: "/dev/zero"}})


def pipes(outside, form):
    """A pipe, which cannot be moved to a place, is read."""

    @contextlib.contextmanager
    def held():
        end = os.open(outside.path("pipe"), os.O_RDWR)
        yield
        os.close(end)

    for kind in read_kinds(form):
        yield Attempt(f"{kind} a pipe", [7], {}, how={"words": {kind: "pipe"}}, around=held)


def changing(outside, form):
    """A file is shorter, or longer, from each read on."""
    for files in outside.versions(form):
        whole, (_, _, reads) = hooked(outside, form, files)
        for kind in read_kinds(form):
            content = (outside.files | files)[kind]
            for length in (0, len(content) // 2, len(content) - 1, len(content) + 1, 2 * len(content)):
                also = [outside.run(form, files | {kind: content[:length].ljust(length, b"\0")})]
                codes = (whole.code, REFUSED[kind], 7, *((5,) if kind == "MODEL" else ()))
                for number in places(reads):
                    hook = {"CHANGED_READ": number + 1, "CHANGED_FILE": outside.path(kind.lower()), "CHANGED_LENGTH": length}
                    yield Attempt(f"{kind} {length} long at read {number + 1}", codes, files, {}, {"hook": hook}, also=also, changes=True)


def cut(outside, form):
    """A table ends too early: of `check` at each byte, and else at some."""
    for files in outside.versions(form) if "TABLE" in kinds_of(form) else []:
        table = files["TABLE"]
        for length in places(len(table), None if form == "check" else PLACES):
            of = len(table if length >= 8 else outside.tables[2])
            line = b"acas: table refused: length %d of %d\n" % (length, of)
            yield Attempt(f"{length} of {len(table)} bytes", [5], files, {"TABLE": table[:length]}, exact={"error": line})


def outputs(outside, form):
    """The output is full, is a pipe that nobody reads, or takes no more than some bytes."""

    @contextlib.contextmanager
    def full():
        with open("/dev/full", "wb") as stream:
            yield {"stdout": stream}

    @contextlib.contextmanager
    def closed():
        reader, writer = os.pipe()
        os.close(reader)
        yield {"stdout": writer}
        os.close(writer)

    for files in outside.versions(form):
        yield Attempt("output full", [8], files, around=full)
        yield Attempt("output closed", [8], files, around=closed)
        whole = outside.whole(form, files).output
        for length in places(len(whole), PLACES):
            hook = {"FULL_STREAM": 1, "FULL_AFTER": length}
            yield Attempt(f"output full after {length} bytes", [8], files, how={"hook": hook}, exact={"output": whole[:length]})


def slow_output(outside, form):
    """Both outputs take one byte a call."""
    for files in outside.versions(form):
        yield Attempt("output by bytes", [outside.whole(form, files).code], files, how={"hook": {"SLOW_STREAM": 1}})
    for one in refused(outside, form):
        yield one._replace(what=f"{one.what}, by bytes", how=one.how | {"hook": {"SLOW_STREAM": 2}})


def error_outputs(outside, form):
    """What is said of a refusal goes to an output that is full, or takes no more than some bytes."""

    @contextlib.contextmanager
    def full():
        with open("/dev/full", "wb") as stream:
            yield {"stderr": stream}

    for one in refused(outside, form):
        yield one._replace(what=f"{one.what}, error output full", around=full, exact={})
        line = one.exact["error"]
        for length in places(len(line)):
            hook = {"FULL_STREAM": 2, "FULL_AFTER": length}
            what = f"{one.what}, error output full after {length} bytes"
            yield one._replace(what=what, how=one.how | {"hook": hook}, exact={"error": line[:length]})


def refused(outside, form):
    """Refusals of a form, each with its line: a file that is not there, one that says nothing, and of a form without files its number."""
    for kind in read_kinds(form):
        line = b"acas: absent: nowhere\n"
        yield Attempt(f"no {kind}", [3], {}, {}, {"words": {kind: "nowhere"}}, exact={"error": line})
        bad = {kind: b"\0"}
        yield Attempt(f"{kind} of one byte", [REFUSED[kind]], {}, bad, exact={"error": outside.run(form, bad).error})
    if not read_kinds(form):
        yield Attempt("no number", [2], {}, {}, {"words": {"0": "one"}}, exact={"error": b"acas: words refused\n"})


def kills(outside, form):
    """A form that writes a table is killed in the middle of each write, and at moments between."""
    if not writes(form):
        return
    files = outside.long_files()
    begin = time.perf_counter()
    _, (_, written, _) = hooked(outside, form, files)
    wall = time.perf_counter() - begin
    codes = (KILLED, outside.whole(form, files).code)
    in_writes = min(written, KILLS)
    for number in places(written, in_writes):
        yield Attempt(f"killed at write {number + 1}", codes, files, how={"hook": {"KILLED_WRITE": number + 1}})
    for number in places(KILLS - in_writes):
        yield Attempt(f"killed at moment {number}", codes, files, how={"seconds": wall * (number + 1) / (KILLS - in_writes)})


def disks(outside, form):
    """The table may not grow past a size, as on a full disk."""
    if not writes(form):
        return
    for files in outside.versions(form):
        for size in places(len(outside.whole(form, files).new), SIZES):

            def limited(size=size):
                signal.signal(signal.SIGXFSZ, signal.SIG_IGN)
                resource.setrlimit(resource.RLIMIT_FSIZE, (size, size))

            yield Attempt(f"no more than {size} bytes", [7], files, how={"preexec_fn": limited})


KINDS = {
    "a request for memory refused": memory_once, "all memory refused from a request on": memory_from, "no file": absent,
    "a folder": folders, "a file that may not be opened": unreadable, "a file too long": too_long, "a file without an end": endless,
    "a pipe": pipes, "a file that changes": changing, "a table cut": cut, "output full or closed": outputs, "output by bytes": slow_output,
    "error output full": error_outputs, "killed": kills, "disk full": disks,
}
