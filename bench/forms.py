"""The forms of words of the program with their files, how one runs in a folder, and whether its answer is a promised one."""
import collections
import contextlib
import importlib.machinery
import importlib.util
import os
import re
import shutil
import subprocess

from hook import Hook

TOP = os.path.dirname(os.path.dirname(os.path.abspath(__file__)))
EXAMPLES = os.path.join(TOP, "examples")
# The words of each form. One in capitals is a file, named by it in small letters: NEW is written, and the others are read.
FORMS = {
    "values": "values MODEL",
    "compile": "compile MODEL NEW",
    "check": "check MODEL TABLE",
    "risk": "risk MODEL TABLE",
    "audit": "audit MODEL TABLE",
    "audit --reported": "audit MODEL TABLE --reported",
    "regions": "regions MODEL BOXES",
    "manoeuvre": "manoeuvre MODEL BOXES 480 1500",
    "safeable": "safeable MODEL TABLE",
    "replay": "replay MODEL TABLE ENCOUNTER",
    "migrate": "migrate MODEL TABLE NEW",
    "drill": "drill 0",
}
# The code with which a file of a kind is refused for what it says.
REFUSED = {"MODEL": 4, "TABLE": 5, "BOXES": 6, "ENCOUNTER": 6}
# How the line of each code begins, and the ones that have no more than this.
LINES = {3: b"acas: absent: ", 4: b"acas: model refused: ", 5: b"acas: table refused: ", 6: b"acas: input refused: ", 9: b"acas: too long: "}
WHOLE_LINES = {2: b"acas: words refused\n", 7: b"acas: folder failed\n", 8: b"acas: output failed\n", 12: b"acas: out of memory\n"}
ENCOUNTER = b"""version = 1
advisory = "clear"
range = 500
closing = 500
altitude = 101
own = 240
intruder = 0
own_accel = [-480, 0]
intruder_accel = [0, 0]
"""
KILLED = -9
NOBODY = 65534
# What stands in the file that is to be written.
BEFORE = b"what was there before"

Answer = collections.namedtuple("Answer", "code output error new")


def load_reference():
    """bench/reference, as a module."""
    loader = importlib.machinery.SourceFileLoader("reference", os.path.join(TOP, "bench", "reference"))
    module = importlib.util.module_from_spec(importlib.util.spec_from_loader("reference", loader))
    loader.exec_module(module)
    return module


def put(path, content):
    with open(path, "wb") as file:
        file.write(content)


def get(path):
    """The bytes of a regular file, or None where there is none."""
    if not os.path.isfile(path):
        return None
    with open(path, "rb") as file:
        return file.read()


def kinds_of(form):
    """The kinds of the files of a form, in the order of the words."""
    return [word for word in FORMS[form].split() if word.isupper()]


def writes(form):
    """Whether a form writes a file."""
    return "NEW" in kinds_of(form)


class Outside:
    """A folder with a file of each kind, and the runs in it."""

    def __init__(self, program, folder):
        self.folder = folder
        os.chmod(folder, 0o755)
        self.program = os.path.join(folder, "acas")
        shutil.copy(program, self.program)
        self.hook = Hook(folder)
        self.tables = {1: get(os.path.join(EXAMPLES, "c.acxt")), 2: get(os.path.join(EXAMPLES, "c2.acxt"))}
        self.files = {
            "MODEL": get(os.path.join(EXAMPLES, "c.toml")), "TABLE": self.tables[1], "BOXES": get(os.path.join(EXAMPLES, "d-boxes.toml")),
            "ENCOUNTER": ENCOUNTER, "NEW": BEFORE,
        }
        os.mkfifo(self.path("pipe"))
        self.known = {}

    def path(self, name):
        return os.path.join(self.folder, name)

    def versions(self, form):
        """The files that a form is tried with besides the others: a table of each version, where it reads one."""
        return [{"TABLE": table} for table in self.tables.values()] if "TABLE" in kinds_of(form) else [{}]

    def long_files(self):
        """A model whose table takes a while, with this table in version 1."""
        text = get(os.path.join(EXAMPLES, "e.toml")).decode()
        model = re.sub(r"(?m)^horizon = \d+", "horizon = 10", text).encode()
        table = self.run("compile", {"MODEL": model}).new
        return {"MODEL": model, "TABLE": load_reference().in_version(table, 1)}

    def whole(self, form, files):
        """The answer of an undisturbed run."""
        key = (form, *sorted(files.items()))
        if key not in self.known:
            self.known[key] = self.run(form, files)
        return self.known[key]

    def start(self, form, words=None, hook=None, **more):
        """A run that is begun, and its streams. `words` are other names for files of some kinds, and `hook` what the library is told."""
        chosen = [self.word(word, words or {}) for word in FORMS[form].split()]
        environment = self.hook.environment(hook) if hook is not None else {}
        streams = {"stdout": subprocess.PIPE, "stderr": subprocess.PIPE, **more}
        return subprocess.Popen([self.program, *chosen], cwd=self.folder, env=environment, **streams)

    def word(self, word, words):
        return words.get(word, word.lower() if word.isupper() else word)

    def run(self, form, files=None, around=contextlib.nullcontext, seconds=None, **how):
        """How a run ends, with other bytes for the files of some kinds, where None stands for no file. What is around it may lock a file or
        give it other streams; after so many seconds it is killed."""
        self.put_files(files or {})
        with around() as streams, self.start(form, **how, **(streams or {})) as running:
            try:
                output, error = running.communicate(timeout=seconds)
            except subprocess.TimeoutExpired:
                running.kill()
                output, error = running.communicate()
        return Answer(running.returncode, output, error, get(self.path("new")))

    def put_files(self, files):
        """Writes all files anew, some of them with other bytes."""
        for kind, content in (self.files | files).items():
            path = self.path(kind.lower())
            if content is not None:
                put(path, content)
            elif os.path.exists(path):
                os.unlink(path)

    def kept(self, files):
        """Whether each file but the one to be written is as it was given."""
        given = self.files | files
        return all(get(self.path(kind.lower())) == content for kind, content in given.items() if kind != "NEW")

    def is_cut(self, files, table):
        """Whether a table that is left is refused by `check` as too short."""
        answer = self.run("check", files | {"TABLE": table})
        length = len(self.whole("compile", {"MODEL": files.get("MODEL", self.files["MODEL"])}).new)
        return answer[:3] == (5, b"", b"acas: table refused: length %d of %d\n" % (len(table), length))


def is_promised(answer, whole, before):
    """Whether an answer is as promised whatever the outside does, by its code and by the answer of an undisturbed run. `before` is
    what stood in the file that is written, or would be."""
    output, new = answer.output or b"", answer.new
    if answer.code == whole.code:
        return (output, new) == (whole.output, whole.new)
    is_part = whole.output.startswith(output) and (output != whole.output or answer.code == KILLED)
    is_part_stored = new is not None and new != whole.new and whole.new.startswith(new)
    if answer.code == 8:
        return is_part and new == whole.new
    if answer.code == KILLED:
        return is_part and (new in (before, whole.new) or is_part_stored)
    return output == b"" and (new == before or (answer.code == 7 and is_part_stored))


def is_line(answer):
    """Whether the error output is just the line of the code, or empty for want of memory or where it is not looked at."""
    error, code = answer.error, answer.code
    if not error:
        return error is None or code in (0, 1, 12, KILLED)
    if code in WHOLE_LINES:
        return error == WHOLE_LINES[code]
    return code in LINES and error.startswith(LINES[code]) and error.endswith(b"\n") and error.count(b"\n") == 1
