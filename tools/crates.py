"""The crates that the program needs, how the kit's compiler is called for each, and what it is known by that its library is there."""
import hashlib
import os
import shutil
import subprocess

TOP = os.path.dirname(os.path.dirname(os.path.abspath(__file__)))
PROGRAM = "acas"
# What a crate took in a first build, in seconds of the clock beside three others, on 1 December 2026 in the early afternoon. The order of the
# crates goes by this, and how long the rest of a build takes is told by it.
WEIGHTS = {
    "acas": 46,
    "acas_accept": 54,
    "acas_areas": 8,
    "acas_audit_blocks": 24,
    "acas_base": 26,
    "acas_bounds": 30,
    "acas_box_commands": 28,
    "acas_boxes": 31,
    "acas_cell_commands": 26,
    "acas_cells": 17,
    "acas_check_commands": 26,
    "acas_cli": 28,
    "acas_cli_words": 26,
    "acas_command": 45,
    "acas_doc": 64,
    "acas_drill": 26,
    "acas_drill_model": 23,
    "acas_encounter_commands": 24,
    "acas_flight": 8,
    "acas_flight_lemmas": 6,
    "acas_flight_windows": 5,
    "acas_frac": 14,
    "acas_grid": 24,
    "acas_hunt_lemmas": 5,
    "acas_intruder": 14,
    "acas_manoeuvre_lemmas": 4,
    "acas_means": 22,
    "acas_meeting_search": 22,
    "acas_model": 88,
    "acas_outside": 66,
    "acas_pass_lemmas": 6,
    "acas_plane": 15,
    "acas_policies": 8,
    "acas_process": 10,
    "acas_race": 28,
    "acas_region": 31,
    "acas_region_curves": 22,
    "acas_replay": 56,
    "acas_report": 18,
    "acas_report_lines": 53,
    "acas_risk": 42,
    "acas_risk_commands": 20,
    "acas_rulings": 9,
    "acas_safeable": 35,
    "acas_spec": 12,
    "acas_step": 34,
    "acas_step_columns": 30,
    "acas_step_narrow": 24,
    "acas_step_stencils": 40,
    "acas_sweep": 46,
    "acas_table": 74,
    "acas_table_commands": 26,
    "acas_table_file": 13,
    "acas_table_rows": 41,
    "acas_table_text": 16,
    "acas_table_text_laws": 6,
    "acas_table_writer": 28,
    "acas_units": 6,
    "acas_witness": 16,
    "acas_witness_lemmas": 4,
    "acas_witness_plans": 22,
    "acas_witness_response": 24,
    "acas_witness_search": 36,
}
OF_OTHERS = 30


def text_of(path):
    """The text of a file, or nothing where there is none."""
    try:
        with open(path, encoding="utf-8", errors="replace") as text:
            return text.read()
    except FileNotFoundError:
        return ""


def sum_of(*parts):
    return hashlib.sha256(repr(parts).encode()).hexdigest()


class Kit:
    """The kit that the command rt is of."""

    def __init__(self):
        command = shutil.which("rt")
        self.folder = os.path.dirname(os.path.dirname(os.path.realpath(command)))
        self.version = subprocess.run([command, "version"], stdout=subprocess.PIPE, check=True).stdout
        told = subprocess.run([self.path("bin/rattle"), "build", "--help"], stdout=subprocess.PIPE, check=True).stdout
        # an older compiler writes all proofs into a library
        self.stating = ["--statements"] if b"--statements" in told else []

    def path(self, name):
        return os.path.join(self.folder, name)

    def calling(self, command, crate):
        """The words with which the kit's compiler is called for a crate, over the libraries that it uses."""
        root = "src/main.rt" if crate.name == PROGRAM else "src/lib.rt"
        words = [self.path("bin/rattle"), command, "--crate-name", crate.name, root, "--links", f"{crate.name}="]
        words += ["--antt-project", self.path("rattle/logic/antt-project.json"), "--logic-built", self.path("logic_built")]
        for name in ("std", *crate.of_kit):
            words += ["--extern", f"{name}={self.path(f'rlibs/{name}.rlib')}"]
        for it in crate.uses:
            words += ["--extern", f"{it.name}={it.library}"]
        for folder in (self.path("rlibs"), *(os.path.dirname(it.library) for it in crate.below)):
            words += ["-L", f"dependency={folder}"]
        return words

    def building(self, crate):
        """The words that prove a crate and build it, but for the path that is written."""
        return self.calling("build", crate) + (["--toolchain", self.path("toolchain")] if crate.name == PROGRAM else self.stating)

    def linking(self, made, program):
        """The words that link what was made of the program."""
        words = [self.path("bin/rattle-link"), "--target", "x86_64-unknown-linux-gnu", "--toolchain", self.path("toolchain"), "-o", program, made]
        return words + [self.path(f"c/{it}") for it in ("libos_c.a", "liblibc_c.a")]


class Crate:
    """A crate that the program needs, or the program's own."""

    def __init__(self, name, uses, of_kit):
        self.name, self.uses, self.of_kit, self.above = name, uses, of_kit, []
        # all crates below it, each once
        self.below = list(dict.fromkeys(it for use in uses for it in (use, *use.below)))
        self.folder = os.path.join(TOP, "crates", name)
        self.out = os.path.join(self.folder, "out", "stated")
        self.library, self.mark = os.path.join(self.out, f"{name}.rlib"), os.path.join(self.out, "mark")
        self.log = os.path.join(self.out, "log")
        # the seconds of its proof, and, once that is known, of the longest chain of crates that begins with it
        self.weight = self.chain = WEIGHTS.get(name, OF_OTHERS)
        # once the library is there, a sum of all that it was made from
        self.made_from = None

    def sources(self):
        """A sum over the names and the contents of the crate's files."""
        found = []
        for part in ("src", "specs", "proofs"):
            for at, _, files in os.walk(os.path.join(self.folder, part)):
                for file in files:
                    path = os.path.join(at, file)
                    with open(path, "rb") as content:
                        found.append((os.path.relpath(path, self.folder), content.read()))
        return sum_of(sorted(found))

    def making(self, kit):
        """A sum of all that the library is made from as things stand."""
        return sum_of(kit.version, self.of_kit, self.sources(), [(it.name, it.made_from) for it in self.uses])

    def look(self, kit):
        """Learns whether the library is there and made from what there is."""
        making = self.making(kit)
        if text_of(self.mark) == making and os.path.isdir(self.library):
            self.made_from = making

    def keep(self, kit, made_from):
        """Takes the library that was made, and marks it where the sources are as they were before."""
        self.made_from = made_from
        if made_from == self.making(kit):
            with open(self.mark, "w", encoding="utf-8") as mark:
                mark.write(made_from)


def crates():
    """The crates that the program needs and its own, each behind those that it uses."""
    lines, found = {}, {}
    with open(os.path.join(TOP, "crates.txt"), encoding="utf-8") as text:
        for line in text:
            name, colon, rest = line.partition("#")[0].partition(":")
            if colon:
                lines[name.strip()] = rest.split()

    def visit(name):
        if name not in found:
            uses = [visit(it) for it in lines[name] if it in lines]
            found[name] = Crate(name, uses, [it for it in lines[name] if it not in lines])
            for it in uses:
                it.above.append(found[name])
        return found[name]

    visit(PROGRAM)
    for crate in reversed(list(found.values())):
        crate.chain += max((it.chain for it in crate.above), default=0)
    return list(found.values())
