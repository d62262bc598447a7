"""Copies of crates that have the definitions, the types and some clauses alone, for bench/mutants."""
import os
import re
import shutil

TOP = os.path.dirname(os.path.dirname(os.path.abspath(__file__)))
# The name of a type or constant that begins a line.
TYPE = re.compile(r"^(?:pub(?:\(crate\))? )?(?:struct|enum|const|type|trait) (\w+)", re.M)


def read(path):
    with open(path, encoding="utf-8") as file:
        return file.read()


def write(path, text):
    with open(path, "w", encoding="utf-8") as file:
        file.write(text)


def listed():
    """The crates that each crate of crates.txt uses, lowest first."""
    lines = [line.split(":") for line in read(os.path.join(TOP, "crates.txt")).splitlines() if line and not line.startswith("#")]
    return {name.split()[0]: used.split() for name, used in lines}


def with_those_below(crates):
    """Some of the crates that there are, and all that these stand on."""
    used = listed()
    found, more = set(), {crate for crate in crates if crate in used}
    while more:
        found |= more
        more = {below for crate in more for below in used[crate] if below in used} - found
    return found


def copy(where, crates, made):
    """Crates as they stand, with what checks kept, beside those that were made there already, each with the crates that it uses."""
    for crate in crates:
        left_out = shutil.ignore_patterns("must-fail")
        shutil.copytree(os.path.join(TOP, "crates", crate), os.path.join(where, "crates", crate), ignore=left_out, symlinks=True)
    used = {crate: listed()[crate] for crate in sorted(crates)} | made
    write(os.path.join(where, "crates.txt"), "".join(f"{crate}: {' '.join(below)}\n" for crate, below in used.items()))
    shutil.copy(os.path.join(TOP, "HANDLES"), where)


def items(text):
    """The items of a file, each with its comments and attributes, and the `use` lines among them."""
    found, item = [], []
    for line in text.splitlines(keepends=True):
        if item or line.strip():
            item.append(line)
        if re.match(r"(?!//|#\[)\S.*;$|\}|\{\}|use .*\{.*\};|ghost use .*\};", line.rstrip()):
            found.append("".join(item))
            item = []
    return found


def types_of(text):
    """What of a file's items is a type or a constant, or the view of a type, with the `use` lines that these need; none without them."""
    types, uses = [], []
    for item in items(text):
        code = re.sub(r"^(//|#).*\n|^\n", "", item, flags=re.M)
        named = re.match(r"use ((?:\w+::)+)\{?([^{};]*)\}?;", code)
        if named:
            uses += [(named.group(1), name) for name in re.split(r",\s*", named.group(2).strip(" ,\n"))]
        elif TYPE.match(code) or re.match(r"impl (std::marker::)?Model for ", code):
            types.append(item)
        elif code.startswith("ghost use "):
            uses.append(item)
    kept = "\n".join(types)
    lines = [use if isinstance(use, str) else f"use {use[0]}{use[1]};\n" for use in uses if isinstance(use, str) or re.search(rf"\b{use[1]}\b", kept)]
    return [*lines, *types] if types else []


def functions(text):
    """The functions of a file of laws, by name, with their comments and clauses."""
    head, *rest = re.split(r"\n\n(?=///)", text)
    return head, {re.search(r"fn (\w+)", item).group(1): item.rstrip("\n") for item in rest}


def cites_lemmas(folder, crates):
    """Whether a proof cites more of the crates than definitions and its own goals."""
    if not os.path.isdir(folder):
        return False
    texts = [read(os.path.join(folder, file)) for file in os.listdir(folder)]
    cited = re.findall(r"^use Rattle\.(acas_\w+)\.proofs\.(\S+)", "\n".join(texts), re.M)
    return any(crate in crates and not name.endswith(".Goals") for crate, name in cited)


def bare_functions(crate, module, bared):
    """Leaves of a module only the functions that are proved without a lemma of the bare crates, and says which they are."""
    path = os.path.join(crate, "src", module + ".rt")
    head, found = functions(read(path))
    folder = os.path.join(crate, "proofs", module)
    kept = {name: item for name, item in found.items() if not cites_lemmas(os.path.join(folder, name), bared)}
    write(path, "\n\n".join([head, *kept.values()]) + "\n")
    for name in os.listdir(folder) if os.path.isdir(folder) else []:
        if name not in kept:
            shutil.rmtree(os.path.join(folder, name))
    return set(kept)


def laws_alone(where, laws, bared, modules):
    """Copies of a crate of laws the functions of some modules that call nothing, with all lemmas of the bare crates that their proofs
    cite. Then it uses only the crates that its files cite, which are given back."""
    crate = os.path.join(where, "crates", laws)
    shutil.copytree(os.path.join(TOP, "crates", laws), crate, ignore=shutil.ignore_patterns("must-fail", "out"))
    kept = {}
    for file in os.listdir(os.path.join(crate, "src")):
        module, path = file[: -len(".rt")], os.path.join(crate, "src", file)
        if module == "lib":
            continue
        head, found = functions(read(path))
        names = {name: item for name, item in found.items() if item.endswith("{}") and (modules is None or module in modules)}
        proofs = os.path.join(crate, "proofs", module)
        for name in os.listdir(proofs) if os.path.isdir(proofs) else []:
            if name not in names:
                shutil.rmtree(os.path.join(proofs, name))
        if names:
            write(path, "\n\n".join([head, *names.values()]) + "\n")
            kept[module] = set(names)
        else:
            os.remove(path)
    with_names(crate, kept)
    lemmas_beside(crate, bared)
    texts = "\n".join(map(read, citing(crate, {laws: crate})))
    cited = set(re.findall(r"\b(?:Rattle\.)?(\w+)(?=::|\.)", texts))
    used = dict.fromkeys(name for crate in [laws, *bared] for name in listed().get(crate, []))
    return [name for name in used if name in cited]


def lemmas_beside(crate, bared):
    """Puts the lemmas of the bare crates that a crate's proofs cite beside these, and takes away what is then not cited."""
    own = os.path.basename(crate)
    proofs = os.path.join(crate, "proofs")
    lemma = re.compile(rf"\bRattle\.({'|'.join([own, *bared])})\.proofs\.(\w+)(?=\.\{{| as )")
    cited, found = set(), {}

    def module_of(name, module):
        return module if name == own else f"{module}_of_{name}"

    def beside(match):
        cited.add(match.groups())
        return f"Rattle.{own}.proofs.{module_of(*match.groups())}"

    for folder, _, files in os.walk(proofs):
        for path in [os.path.join(folder, file) for file in files if folder != proofs]:
            write(path, lemma.sub(beside, read(path)))
    while cited - found.keys():
        for name, module in cited - found.keys():
            found[name, module] = lemma.sub(beside, read(os.path.join(TOP, "crates", name, "proofs", module + ".antt")))
    for file in os.listdir(proofs):
        if os.path.isfile(os.path.join(proofs, file)):
            os.remove(os.path.join(proofs, file))
    for lemmas, text in found.items():
        write(os.path.join(proofs, module_of(*lemmas) + ".antt"), text)
    write(os.path.join(proofs, "Lib.antt"), "".join(f"pub mod {module_of(*lemmas)}\n" for lemmas in sorted(found)))


def cited_alone(where, group):
    """Takes away of a crate of laws and of the bare crates below it the files of definitions and of types that the laws do not stand
    on."""
    crates = {name: os.path.join(where, "crates", name) for name in [group.examples, *group.bare]}
    crates = {name: path for name, path in crates.items() if os.path.isdir(path)}
    kept = citing(crates[group.examples], crates)
    for name, crate in crates.items():
        for path in files_of(os.path.join(crate, "specs")) + (files_of(os.path.join(crate, "src")) if name in group.bare else []):
            if path not in kept and os.path.basename(path) not in ("Lib.antt", "lib.rt"):
                os.remove(path)
        left = {os.path.splitext(os.path.basename(path))[0] for path in files_of(crate)}
        for lib in [os.path.join(crate, "specs", "Lib.antt"), os.path.join(crate, "src", "lib.rt")]:
            lines = [line for line in read(lib).splitlines() if re.match(r"(pub )?(mod|use) (\w+)", line)]
            lines = [line for line in lines if re.match(r"(?:pub )?(?:mod|use) (\w+)", line)[1] in left or " use acas_" in line]
            write(lib, "\n".join([*(["#![tactic(auto)]", ""] if lib.endswith(".rt") else []), *lines, ""]))


def citing(laws, crates):
    """The files of a crate of laws, and what these cite of some crates' definitions and types."""
    kept = [path for path in files_of(laws) if "/specs/" not in path]
    for path in kept:
        kept += sorted(cited_files(path, crates) - set(kept))
    return kept


def files_of(folder):
    """The paths of the files in a folder."""
    return [os.path.join(within, file) for within, _, files in os.walk(folder) for file in files if "/out/" not in within + "/"]


def cited_files(path, crates):
    """The files of some crates' definitions and types that a file cites."""
    text = read(path)
    found = set()
    for name, folder in crates.items():
        for module in re.findall(rf"\bRattle\.{name}\.specs\.(\w+)", text):
            found.add(os.path.join(folder, "specs", module + ".antt"))
        for module in re.findall(rf"\bRattle\.{name}\.specs\.(?:declared|contracts)\.(\w+)", text):
            found.add(os.path.join(folder, "src", module + ".rt"))
        if path.endswith(".rt") and (f"{name}::" in text or path.startswith(folder + "/") and "crate::" in text):
            words = set(re.findall(r"\b[A-Z]\w+", re.sub(r"^ghost .*", "", text, flags=re.M)))
            for other in files_of(os.path.join(folder, "src")):
                if words & set(TYPE.findall(read(other))):
                    found.add(other)
    return {path for path in found if os.path.isfile(path)}


def with_names(crate, kept):
    """Leaves of what a crate hands on the names of each module that are kept, and the modules that have some."""
    path = os.path.join(crate, "src", "lib.rt")
    lines = []
    for item in items(read(path)):
        module = re.match(r"(?:.*\n)*?(?:pub )?mod (\w+);", item)
        handed = re.match(r"(?:.*\n)*?pub use (\w+)::\{?([^{};]*)\}?;", item)
        if module and module.group(1) in kept:
            lines.append(f"mod {module.group(1)};")
        elif handed and handed.group(1) in kept:
            names = re.split(r",\s*", handed.group(2).strip(" ,\n"))
            names = [name for name in names if name in kept[handed.group(1)]]
            lines += [f"pub use {handed.group(1)}::{{{', '.join(names)}}};"] if names else []
        elif re.match(r"pub use acas_\w+::[A-Z]", item):
            lines.append(item.strip())
    write(path, "\n".join(["#![tactic(auto)]", "", *lines, ""]))


def make_bare(where, group):
    """Leaves of the group's crates the definitions, the types, and the clauses that no lemma of these crates proves."""
    for name in filter(lambda name: os.path.isdir(os.path.join(where, "crates", name)), group.bare):
        crate = os.path.join(where, "crates", name)
        kept = {}
        for file in os.listdir(os.path.join(crate, "src")):
            module, path = file[: -len(".rt")], os.path.join(crate, "src", file)
            if module in ["laws", "examples"]:
                kept[module] = bare_functions(crate, module, group.bare)
            elif module != "lib":
                types = "\n".join(types_of(read(path)))
                write(path, types)
                kept[module] = set(TYPE.findall(types))
            if not kept.get(module, True):
                os.remove(path)
        proofs = os.path.join(crate, "proofs")
        for file in os.listdir(proofs) if os.path.isdir(proofs) else []:
            path = os.path.join(proofs, file)
            if os.path.isfile(path):
                os.remove(path)
            elif file not in ["laws", "examples"]:
                shutil.rmtree(path)
        with_names(crate, {module: names for module, names in kept.items() if names})
    if group.laws_alone:
        cited_alone(where, group)
    examples = [name for name in os.listdir(os.path.join(where, "crates")) if name.endswith("_examples")]
    for name in examples:
        crate = os.path.join(where, "crates", name)
        modules = [file[: -len(".rt")] for file in os.listdir(os.path.join(crate, "src")) if file != "lib.rt"]
        with_names(crate, {module: bare_functions(crate, module, group.bare) for module in modules})
    for name in [*group.bare, *examples]:
        shutil.rmtree(os.path.join(where, "crates", name, "out"), ignore_errors=True)
