"""A small repository with the script ./acas in a folder, and a kit beside it that proves nothing, for tools/try-acas."""
import contextlib
import os
import pty
import shutil
import subprocess
import time

TOP = os.path.dirname(os.path.dirname(os.path.abspath(__file__)))
CRATES = "# crates\nacas_high: acas_low toml\nacas_low: itoa\nacas: acas_high\nacas_other: acas\n"
# The kit: its command, which tells its version, the compiler, and what links the program. SLOW are the seconds that each crate takes;
# FAILS is the exit code of each, or -9 where it is killed.
RT = """#!/bin/sh
echo "a-kit logic ${LOGIC:-dac8208d650f15bf}"
"""
RATTLE = """#!/bin/sh
[ "$2" != --help ] || exit 0
echo "$3" >>"$CALLS"
echo $$ >"$CALLS.kit"
[ -z "$SLOW" ] || sleep "$SLOW"
if [ -n "$FAILS" ]; then
  echo "it fails"
  [ "$FAILS" != -9 ] || kill -9 $$
  exit "$FAILS"
fi
for made; do :; done
case $made in
  *.o) echo made >"$made" ;;
  *) mkdir -p "$made" ;;
esac
echo proved
"""
LINK = """#!/bin/sh
echo link >>"$CALLS"
cp "$PROGRAM" out/acas
"""
# The program. ENDS is the exit code. `compile` and `migrate` write a part of the table first; SLEEPS are seconds that it then takes.
PROGRAM = """#!/bin/sh
case $1 in
  compile) new=$3 line="compiled $2" ;;
  migrate) new=$4 line="migrated $2 $3" ;;
  *)
    [ -z "$SLEEPS" ] || exec sleep "$SLEEPS"
    echo new "$@"
    exit "${ENDS:-0}" ;;
esac
{ echo part >"$new"; } 2>/dev/null || { echo "acas: folder failed" >&2; exit 7; }
[ -z "$SLEEPS" ] || sleep "$SLEEPS"
[ "$ENDS" != XFSZ ] || kill -s XFSZ $$
case $ENDS in
  7) echo "acas: folder failed" >&2 ;;
  *) echo whole >"$new" && echo "$line" ;;
esac
exit "${ENDS:-0}"
"""
# What gives a part of a table its name; DATES are seconds that it takes.
DATE = """#!/bin/sh
[ -z "$DATES" ] || { echo date >"$CALLS.date"; sleep "$DATES"; }
exec /bin/date "$@"
"""
SUM = """#!/bin/sh
echo sum >>"$CALLS.sums"
exec /usr/bin/sha256sum "$@"
"""
WORDS = ["values", "m"]


class Place:
    """A small repository in a folder, and the kit beside it."""

    def __init__(self, folder):
        self.folder, self.kit, self.calls = folder, os.path.join(folder, "kit", "bin"), os.path.join(folder, "calls")
        self.top = os.path.join(folder, "top")
        self.script, self.out = os.path.join(self.top, "acas"), os.path.join(self.top, "crates", "acas", "out")
        for name in ("acas_low", "acas_high", "acas", "acas_other"):
            for part in ("src", "specs", "proofs"):
                self.write(f"crates/{name}/{part}/text", f"{name} {part}\n")
        self.write("crates.txt", CRATES)
        for name in ("tools", "python"):
            os.mkdir(os.path.join(self.top, name))
        for name in ("acas", "tools/build", "tools/crates.py", "tools/use.py", "python/acas_use.py"):
            shutil.copy(os.path.join(TOP, name), os.path.join(self.top, name))
        for name, text in (("rt", RT), ("rattle", RATTLE), ("rattle-link", LINK), ("sha256sum", SUM), ("date", DATE), ("program", PROGRAM)):
            self.write(f"../kit/bin/{name}", text)
            os.chmod(os.path.join(self.kit, name), 0o755)

    def write(self, name, text):
        path = os.path.join(self.top, name)
        os.makedirs(os.path.dirname(path), exist_ok=True)
        with open(path, "w", encoding="utf-8") as file:
            file.write(text)

    def forget(self):
        """Takes away what was built and kept."""
        for name in ("acas_low", "acas_high", "acas"):
            shutil.rmtree(os.path.join(self.top, "crates", name, "out"), ignore_errors=True)

    def started(self, words=(), script=None, has_kit=True, **of_stubs):
        """A call that has begun."""
        path = os.pathsep.join([self.kit] * has_kit + ["/usr/bin", "/bin"])
        environment = os.environ | {"PATH": path, "CALLS": self.calls, "PROGRAM": os.path.join(self.kit, "program")} | of_stubs
        how = {"stdin": subprocess.DEVNULL, "stdout": subprocess.PIPE, "stderr": subprocess.PIPE, "start_new_session": True}
        return subprocess.Popen([script or self.script, *(words or WORDS)], cwd=self.folder, env=environment, text=True, **how)

    def called(self):
        """What the kit was called for since this was asked last: crates, and to link; its version is asked for besides."""
        with contextlib.suppress(OSError), open(self.calls, "r+", encoding="utf-8") as file:
            lines = file.read().splitlines()
            file.truncate(0)
            return lines
        return []

    def call(self, *words, **how):
        """The exit code, both outputs, and how the kit was called to build."""
        self.called()
        with self.started(*words, **how) as process:
            output, error = process.communicate()
        return process.returncode, output, error, self.called()

    def is_summed(self, **how):
        """Whether a call sums up the files."""
        path = f"{self.calls}.sums"
        with contextlib.suppress(OSError):
            os.remove(path)
        self.call(**how)
        return os.path.exists(path)

    def signalled(self, *words, sent):
        """The exit code of a call on a terminal to whose script alone a signal is sent, once the program has ended too."""
        ours, theirs = pty.openpty()
        environment = os.environ | {"PATH": f"{self.kit}:/usr/bin:/bin", "SLEEPS": "30"}
        pipe = {"stdout": subprocess.PIPE, "stderr": theirs, "start_new_session": True}
        with subprocess.Popen([self.script, *words], cwd=self.folder, env=environment, **pipe) as process:
            os.close(theirs)
            time.sleep(0.5)
            process.send_signal(sent)
            # it is open as long as anything runs that was begun
            process.stdout.read()
        os.close(ours)
        return process.returncode

    def on_terminal(self, *words, **how):
        """What a call writes to a terminal as its standard error."""
        ours, theirs = pty.openpty()
        environment = os.environ | {"PATH": f"{self.kit}:/usr/bin:/bin", "CALLS": self.calls, "PROGRAM": os.path.join(self.kit, "program")}
        with subprocess.Popen([self.script, *words], cwd=self.folder, env=environment | how, stdout=subprocess.DEVNULL, stderr=theirs):
            os.close(theirs)
            said = b""
            with contextlib.suppress(OSError):
                while data := os.read(ours, 65536):
                    said += data
        os.close(ours)
        return said.decode()


def waited(holds):
    """Whether something comes to hold in some seconds."""
    for _ in range(200):
        if holds():
            return True
        time.sleep(0.05)
    return False


def put(path, text):
    with open(path, "w", encoding="utf-8") as file:
        file.write(text)


def text_of(path):
    with open(path, encoding="utf-8") as file:
        return file.read()
