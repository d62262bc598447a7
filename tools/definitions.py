"""The definitions of the crates' specs/, and what each cites: for docs/cited, and for bench/mutants."""
import os
import re

TOP = os.path.dirname(os.path.dirname(os.path.abspath(__file__)))

HEAD = re.compile(r"^(?:abbrev pub|unfoldable pub|abbrev|unfoldable|pub record|record|pub data|data) ([^\s:({]+)")
# A line of imports, whose braces may go over several lines.
USE = re.compile(r"^use Rattle\.(\w+)\.specs\.([\w.]+?)\.\{([^}]*)\}", re.M)
# A line that brings in a whole module, under its last name or another.
MODULE = re.compile(r"^use Rattle\.(\w+)\.specs\.([\w.]+?)(?: as (\w+))?$", re.M)
# What begins a line of an item of src/ that a reader does not count.
PASSED = ("//", "#[", "ghost ")
WORD = re.compile(r"[^\s()\[\]{},;:.λ→≡×⊎]+")


def modules():
    """The text of each file of specs/, by crate and module."""
    crates = os.path.join(TOP, "crates")
    for crate in sorted(os.listdir(crates)):
        specs = os.path.join(crates, crate, "specs")
        for folder, _, names in os.walk(specs):
            for name in sorted(names):
                if name.endswith(".antt") and name != "Lib.antt":
                    path = os.path.join(folder, name)
                    module = os.path.relpath(path, specs)[:-5].replace(os.sep, ".")
                    with open(path, encoding="utf-8") as text:
                        yield crate, module, text.read()


def definitions(text):
    """The definitions of a file: the name and the lines of each."""
    lines, start, name = text.split("\n"), None, None
    for at, line in enumerate(lines + ["abbrev pub ."]):
        head = HEAD.match(line)
        if head:
            if name is not None:
                yield name, block(lines[start:at])
            name, start = head[1], at


def block(lines):
    """The lines of a definition up to those that belong to the next one."""
    while lines and (not lines[-1].strip() or lines[-1].startswith(("--", "infix"))):
        lines = lines[:-1]
    return lines


def read_all():
    """Every definition by crate, module and name, and what each module imports: definitions, and modules by a name before a dot."""
    found, imports = {}, {}
    for crate, module, text in modules():
        known = imports.setdefault((crate, module), {})
        for use in USE.finditer(text):
            for item in filter(None, map(str.strip, use[3].split(","))):
                parts = item.split(" as ")
                known[parts[-1]] = (use[1], use[2], parts[0])
        for whole in MODULE.finditer(text):
            known[(whole[3] or whole[2].split(".")[-1]) + "."] = (whole[1], whole[2])
        for name, lines in definitions(text):
            found[(crate, module, name)] = lines
    return found, imports


def cited(found, imports, key):
    """What the text of a definition cites."""
    crate, module, name = key
    known = imports[(crate, module)]
    for line in found[key]:
        code = line.split("--")[0]
        for before, word in re.findall(r"(?<![\w.])(\w+\.)([^\s()\[\]{},;:.]+)", code):
            if before in known and (*known[before], word) in found:
                yield (*known[before], word)
                code = code.replace(before + word, "")
        for word in WORD.findall(code):
            if word == name:
                continue
            if (crate, module, word) in found:
                yield (crate, module, word)
            elif word in known:
                yield known[word]


def source(key):
    """The file of src/ in which a cited struct, enum or constant stands, from its crate on."""
    crate, module, _ = key
    return f"{crate}/src/{'/'.join(module.split('.')[1:-1])}.rt"


def item(key):
    """The lines of a struct, an enum or a constant of src/, without comments, attributes and ghost fields."""
    with open(os.path.join(TOP, "crates", source(key)), encoding="utf-8") as text:
        found = re.search(rf"^pub (?:const {key[2]}:[^;]*;|(?:struct|enum) {key[2]}\b(?:[^{{;]*\{{.*?^\}}|[^{{;]*;))", text.read(), re.M | re.S)
    lines = found[0].split("\n") if found else []
    return [line for line in lines if line.strip() and not line.lstrip().startswith(PASSED)]


def closure(found, imports, start):
    """The definitions below one, each after those that it cites."""
    order, seen = [], set()

    def visit(key):
        if key in seen:
            return
        seen.add(key)
        if key in found:
            for other in cited(found, imports, key):
                visit(other)
            order.append(key)
        elif key[1].startswith("declared.") and "TheVariants" not in key[1] and os.path.isdir(os.path.join(TOP, "crates", key[0])):
            order.append(key)

    for key in start:
        visit(key)
    return order
