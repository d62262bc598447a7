"""How a script is started: its words, its help, and what it says where they or its files are not there. It needs no package."""
import os
import shutil
import subprocess
import sys


class Lacking(Exception):
    """What a script needs and this machine does not have."""


def program_of(top):
    """The script ./acas of the repository in a folder, or where there is none, as beside what is installed, the `acas` of the PATH."""
    script = os.path.join(top, "acas")
    return script if os.path.isfile(script) else shutil.which("acas") or script


def use_of(text):
    """The first words of a script's text, up to the colon: how it is called."""
    return text.strip().split(":", 1)[0].replace("\n", " ")


def answer(text, main, are_words, words):
    """The status of a call. With `--help` alone it prints the script's text. Words that are none, and a file that cannot be opened,
    are answered by one line on the standard error, and 2."""
    if words == ["--help"]:
        print(text.strip())
        return 0
    if not are_words(words):
        print(f"use: {use_of(text)}", file=sys.stderr)
        return 2
    try:
        return main(words)
    except OSError as error:
        if error.filename is None:
            raise
        print(f"{os.fsdecode(error.filename)}: {error.strerror}; use: {use_of(text)}", file=sys.stderr)
        return 2
    except Lacking as what:
        print(f"{use_of(text).split()[0]} needs {what}", file=sys.stderr)
        return 2
    except subprocess.CalledProcessError as error:
        print(f"{' '.join(error.cmd)} ended with {error.returncode}", file=sys.stderr)
        return 1
    except KeyboardInterrupt:
        return 130


def start(text, main, are_words):
    """Ends the script with the status of main over its words."""
    try:
        status = answer(text, main, are_words, sys.argv[1:])
        sys.stdout.flush()
    except BrokenPipeError:
        # whoever reads has gone, as `head` does
        os.dup2(os.open(os.devnull, os.O_WRONLY), sys.stdout.fileno())
        status = 1
    sys.exit(status)
