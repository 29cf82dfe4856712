#!/usr/bin/env python3
"""Lists the definitions that a reader has to believe for the main theorem, which is the clause of `run_tool`.

They are the definitions of specs/ that this clause names, those that the traits of its files and its sink name, and all that these name
in turn. Beside them stand the types and constants of the code that they name, and the modules of the standard library.

What a definition names is read off its text, word by word. So a variable that is called like a definition counts as one: the list may
be too long, and is never too short.

usage, from any folder:
  tools/believed.py              crate by crate the files, and for each definition how many lines it has
  tools/believed.py --markdown   the same as it stands in docs/PROVED.md
  tools/believed.py --check      whether docs/PROVED.md has that list
  tools/believed.py --write      puts it there

The status is 1 where a definition of a folder specs/Means is among them, which only follows the code, or where docs/PROVED.md has
another list; and 2 where a name leads nowhere.
"""
import re
import sys
from collections import defaultdict
from dataclasses import dataclass, field
from pathlib import Path

TOP = Path(__file__).resolve().parent.parent
PAGE = TOP / "docs/PROVED.md"
BEGIN = "<!-- the lines below are those of tools/believed.py --markdown -->"
END = "<!-- the lines above are those of tools/believed.py --markdown -->"

USE = re.compile(r"(?m)^\s*(?:pub )?(?:ghost )?use ([\w.]+?)(?:\.\{([^}]*)\})?(?: as (\w+))?;?\s*$")
# A definition begins with one of these lines; a record's fields and a type's variants are indented deeper than it.
TYPE = re.compile(r"^\s*(?:pub )?(record|data) ([^\W\d][\w']*)")
FUNCTION = re.compile(r"^\s*(?:(?:abbrev|unfoldable) )?(?:pub )?([^\W\d][\w']*|\S*◌\S*) :(?!\S)")
HEADING = re.compile(r"^\s*(?:(?:abbrev|unfoldable) )?(?:mutual|module\b.*|(?:pub )?mod \w+)$")
VARIANTS = re.compile(r"^\s+([^\W\d][\w']*(?: [^\W\d][\w']*)*) :(?!\S)")
# the modules that the compiler makes of a crate's code, by the crate and the item
OF_CODE = re.compile(r"Rattle\.(sl_\w+)\.specs\.(?:declared|contracts)\.(?:\w+\.)*?(\w+)(?:\.(?:TheVariants|the_type))?$")
# a name, with what it is qualified by; or an operator
WORD = re.compile(r"[^\W\d][\w']*(?:\.[^\W\d][\w']*)*|[^\w\s(){}\[\],;.λ◌']+")


class NotFound(Exception):
    """A name that is imported and stands nowhere."""


@dataclass
class Definition:
    name: str
    lines: list = field(default_factory=list)

    def words(self):
        code = (line for line in self.lines if not line.lstrip().startswith("--"))
        return set(WORD.findall("\n".join(code)))


@dataclass
class Names:
    """What the names that a text imports stand for."""

    imported: dict = field(default_factory=dict)  # name -> (module, name there)
    modules: dict = field(default_factory=dict)  # name of a module in this text -> module


@dataclass
class Specs:
    """A file of definitions."""

    path: Path
    names: Names
    definitions: dict = field(default_factory=dict)  # name -> Definition
    variants: dict = field(default_factory=dict)  # name of a variant -> name of its type


@dataclass(frozen=True, order=True)
class Found:
    """What a name stands for: a definition of a specs file, or something that stands elsewhere."""

    module: str
    name: str


def names_of(text):
    """Reads the lines by which a text imports names."""
    names = Names()
    for module, listed, alias in USE.findall(text):
        if alias:
            names.modules[alias] = module
        for item in filter(None, (it.strip() for it in listed.split(","))):
            name, _, short = item.partition(" as ")
            names.imported[short or name] = (module, name)
    return names


def symbol(name):
    """The word by which an operator is used: `×` for `◌×◌`."""
    return name.replace("◌", "") if "◌" in name else name


def specs_of(path):
    """Reads a file of definitions. The comment directly above a definition belongs to it."""
    text = path.read_text(encoding="utf-8")
    specs = Specs(path, names_of(text))
    current, above, depth = None, [], None  # depth: how far the current record or type is indented
    for line in text.splitlines():
        indent = len(line) - len(line.lstrip())
        is_inside = depth is not None and indent > depth
        if not line.strip():
            above = []
        elif line.lstrip().startswith("--") and not is_inside:
            above.append(line)
        elif USE.match(line) or HEADING.match(line):
            current, above, depth = None, [], None
        elif is_inside:
            current.lines.append(line)
            variants = VARIANTS.match(line) if current.name in specs.variants.values() else None
            for name in variants[1].split() if variants else []:
                specs.variants[name] = current.name
        elif TYPE.match(line) or FUNCTION.match(line):
            kind, name = TYPE.match(line).groups() if TYPE.match(line) else (None, FUNCTION.match(line)[1])
            current = specs.definitions.setdefault(symbol(name), Definition(name))
            current.lines += [*above, line]
            above, depth = [], indent if kind else None
            if kind == "data":
                specs.variants[current.name] = current.name
        elif current:
            current.lines += [*above, line]
            above = []
    return specs


def all_specs():
    """All files of definitions, by module."""
    found = {}
    for path in sorted(TOP.glob("crates/*/specs/**/*.antt")):
        crate, _, *parts = path.relative_to(TOP / "crates").with_suffix("").parts
        found[".".join(["Rattle", crate, "specs", *parts])] = specs_of(path)
    return found


class Closure:
    """All that some definitions name, and what these name in turn."""

    def __init__(self, specs):
        self.specs = specs
        self.found = set()
        self.elsewhere = set()

    def lookup(self, module, name):
        """What a name stands for in a module, or None if it stands for nothing there."""
        if module not in self.specs:
            if re.match(r"Rattle\.sl_\w+\.", module) and not OF_CODE.match(module):
                raise NotFound(f"{module}.{name}")
            return Found(module, name)
        specs = self.specs[module]
        name = specs.variants.get(name, name)
        if name in specs.definitions:
            return Found(module, name)
        return self.imported(specs.names, name)

    def imported(self, names, word):
        """What a word stands for by the names that a text imports."""
        if word in names.imported:
            found = self.lookup(*names.imported[word])
            if not found:
                raise NotFound(".".join(names.imported[word]))
            return found
        first, _, rest = word.partition(".")
        if rest and first in names.modules:
            return self.lookup(names.modules[first], rest.split(".")[0])
        return self.imported(names, first) if rest else None

    def add(self, found):
        if found is None or found in self.found:
            return
        if found.module not in self.specs:
            self.elsewhere.add(found)
            return
        self.found.add(found)
        for word in self.specs[found.module].definitions[found.name].words():
            self.add(self.lookup(found.module, word) or self.lookup(found.module, word.split(".")[0]))

    def add_words(self, text, clauses):
        names = names_of(text)
        for word in WORD.findall(clauses):
            self.add(self.imported(names, word))


def between_braces(text, at):
    """The text from the first brace behind a place to the one that closes it, and the place behind it."""
    begin = text.index("{", at)
    depth = 0
    for place in range(begin, len(text)):
        depth += {"{": 1, "}": -1}.get(text[place], 0)
        if depth == 0:
            return text[begin : place + 1], place + 1
    raise NotFound("a closing brace")


def contract_of(text, function):
    """The head of a function and the text of its clauses."""
    at = text.index(f"fn {function}")
    clauses = []
    clause = re.compile(r"\s*(?:ensures|requires)\b[^{]*")
    head_end = re.compile(r"\b(?:ensures|requires)\b").search(text, at).start()
    head, at = text[at:head_end], head_end
    while clause.match(text, at):
        words, at = between_braces(text, at)
        clauses.append(words)
    return head, "\n".join(clauses)


def code():
    """All files of code, by their text."""
    return [path.read_text(encoding="utf-8") for path in sorted(TOP.glob("crates/*/src/**/*.rt"))]


def believed():
    """The closure of the contract of `run_tool` and of the traits that bound its parameters, and the names of these traits."""
    closure = Closure(all_specs())
    text = (TOP / "crates/sl_tool/src/tool.rt").read_text(encoding="utf-8")
    head, clauses = contract_of(text, "run_tool")
    closure.add_words(text, clauses)
    traits = re.findall(r"[<,]\s*\w+: (\w+)", head.split("(")[0])
    for trait in traits:
        declared = [it for it in code() if re.search(rf"pub trait {trait}\b", it)]
        if not declared:
            raise NotFound(f"the trait {trait}")
        body, _ = between_braces(declared[0], declared[0].index(f"pub trait {trait}"))
        closure.add_words(declared[0], "\n".join(it for it in body.splitlines() if "///" not in it))
    return closure, traits


def by_crate(closure):
    """crate -> path of a specs file -> its definitions that are found, in their order there."""
    crates = defaultdict(lambda: defaultdict(list))
    for module, specs in closure.specs.items():
        for name, definition in specs.definitions.items():
            if Found(module, name) in closure.found:
                crates[module.split(".")[1]][specs.path].append(definition)
    return crates


def named_in_code(closure):
    """crate -> the types and constants of its code that are named."""
    crates = defaultdict(set)
    for it in closure.elsewhere:
        item = OF_CODE.match(it.module)
        if item:
            crates[item[1]].add(it.name if item[2] == "TheConstants" else item[2])
    return crates


def named_in_std(closure):
    """The modules of the standard library that are named."""
    parts = (it.module.split(".") for it in closure.elsewhere)
    return sorted({".".join(p[3:]) for p in parts if p[:3] == ["Rattle", "std", "specs"] and "declared" not in p})


def in_order(crates):
    """The names of crates in the order of crates.txt, in which each stands behind those that it uses."""
    lines = (TOP / "crates.txt").read_text(encoding="utf-8").splitlines()
    listed = [line.split(":")[0].strip() for line in lines if not line.startswith("#")]
    return sorted(crates, key=listed.index)


def short(path):
    """The name of a specs file in its crate."""
    return "/".join(path.with_suffix("").parts[len(TOP.parts) + 3 :])


def size(definitions):
    return sum(len(it.lines) for it in definitions)


def summary(closure):
    crates = by_crate(closure)
    every = [it for files in crates.values() for definitions in files.values() for it in definitions]
    files = sum(map(len, crates.values()))
    known = sum(len(it.definitions) for it in closure.specs.values())
    return f"{len(every)} definitions of {known}, in {files} files of specs/, {size(every)} lines with their comments"


def plain(closure, traits):
    crates, types = by_crate(closure), named_in_code(closure)
    for crate in in_order({*crates, *types}):
        print(f"{crate}: {size(sum(crates[crate].values(), []))} lines")
        for path, definitions in crates[crate].items():
            counts = ", ".join(f"{it.name} {len(it.lines)}" for it in definitions)
            print(f"  specs/{short(path)}: {size(definitions)} lines: {counts}")
        if types[crate]:
            print(f"  src: {', '.join(sorted(types[crate]))}")
    print(f"the traits {' and '.join(traits)}; of the standard library: {', '.join(named_in_std(closure))}")
    print(summary(closure))


def quoted(names):
    return ", ".join(f"`{it}`" for it in names)


def markdown(closure, traits):
    crates, types = by_crate(closure), named_in_code(closure)
    lines = [f"{summary(closure)}.", ""]
    for crate in in_order({*crates, *types}):
        lines += [f"### {crate}", "", "| File of `specs/` | Lines | Definitions |", "|---|---|---|"]
        for path, definitions in crates[crate].items():
            lines.append(f"| `{short(path)}` | {size(definitions)} | {quoted(it.name for it in definitions)} |")
        if types[crate]:
            lines.append(f"| the code | | {quoted(sorted(types[crate]))} |")
        lines.append("")
    lines.append(f"Beside these the traits {' and '.join(f'`{it}`' for it in traits)}, and of the standard library")
    lines.append(f"{quoted(named_in_std(closure))}.")
    return "\n".join(lines)


def page_with(text):
    """The page as it is, and as it is with this list."""
    page = PAGE.read_text(encoding="utf-8")
    before, begin, rest = page.partition(f"{BEGIN}\n")
    _, end, behind = rest.partition(f"{END}\n")
    if not begin or not end:
        raise NotFound(f"the place of the list in {PAGE.name}")
    return page, f"{before}{begin}{text}\n{end}{behind}"


def rests_on_means(closure):
    """The files of the folders specs/Means that definitions are found in."""
    paths = {closure.specs[it.module].path for it in closure.found}
    return sorted(str(it.relative_to(TOP)) for it in paths if "Means" in it.parts)


def tell(what):
    print(f"tools/believed.py: {what}", file=sys.stderr)


def run(command):
    closure, traits = believed()
    status = 0
    if not command:
        plain(closure, traits)
    elif command == "--markdown":
        print(markdown(closure, traits))
    else:
        page, wanted = page_with(markdown(closure, traits))
        if command == "--write":
            PAGE.write_text(wanted, encoding="utf-8")
        elif page != wanted:
            tell(f"{PAGE.name} has another list: tools/believed.py --write puts the right one there")
            status = 1
    for path in rests_on_means(closure):
        tell(f"the main theorem rests on {path}")
        status = 1
    return status


def main(words):
    if len(words) > 1 or words[:1] not in ([], ["--markdown"], ["--check"], ["--write"]):
        print(__doc__, file=sys.stderr)
        return 2
    try:
        return run(words[0] if words else "")
    except NotFound as name:
        tell(f"{name} stands nowhere")
        return 2


if __name__ == "__main__":
    sys.exit(main(sys.argv[1:]))
