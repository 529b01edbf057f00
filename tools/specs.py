"""What stands in the specs of the crates, and beside the proofs of their functions: for each file its declarations, with the names that
each one's statement and meaning mention. A file is named by its crate and its path there, as specs/A."""
import dataclasses
import re

NAME = r"[^\s:(){}=]+"
DECLARES = re.compile(rf"( *)((?:pub |abbrev |unfoldable )*)(data |record )?(?!let )({NAME}(?: {NAME})*?)((?: [({{].*[)}}])?) : (.*)")
SECTION = re.compile(r"( *)module _(.*)where$")
USES = re.compile(r"^use Rattle\.([a-z_]+)\.(specs|proofs)\.([A-Z]\w*)\.\{([^}]*)\}", re.MULTILINE)
BINDS = re.compile(r"[({]([^(){}:]+) :")
NAMES = re.compile(r"(?<![^\s(){},;λ])[^\s(){},;.λ]+")


@dataclasses.dataclass
class Declaration:
    """A name that a file declares. A theorem's statement is its type; what a definition means is in its body too."""

    name: str
    public: bool
    theorem: bool
    statement: str
    body: str
    fields: tuple

    def mentions(self):
        text = self.statement if self.theorem else self.statement + "\n" + self.body
        bound = {name for names in BINDS.findall(text) for name in names.split()}
        return set(NAMES.findall(text)) - bound


@dataclasses.dataclass
class File:
    declarations: dict
    uses: dict


def indent(line):
    return len(line) - len(line.lstrip(" "))


def blocks(text):
    """The lines of a file without comments and imports, those that belong together in one list, with the sections around them."""
    sections, block, found = [], [], []
    lines = [line for line in text.split("\n") if line.strip() and not line.lstrip().startswith("--")]
    for i in reversed(range(len(lines))):
        while lines[i].lstrip().startswith("module _") and not lines[i].endswith("where"):
            lines[i : i + 2] = [lines[i] + " " + lines[i + 1].lstrip()]
    inside_use = False
    for line in lines:
        if line.startswith("use ") or inside_use:
            inside_use = "{" in line and "}" not in line or inside_use and "}" not in line
            continue
        section = SECTION.match(line)
        depth = indent(line)
        if section or (DECLARES.match(line) and depth <= 2 * len(sections)):
            if block:
                found.append(block)
            while sections and depth < 2 * len(sections):
                sections.pop()
            if section:
                sections.append(section.group(2))
                block = []
            else:
                block = [" ".join(sections), line]
        elif block:
            block.append(line)
    if block:
        found.append(block)
    return found


def read(path):
    """A specs file."""
    text = path.read_text(encoding="utf-8")
    declarations = {}
    for around, first, *rest in blocks(text):
        depth, words, form, names, parameters, kind = DECLARES.match(first).groups()
        split = next((i for i, line in enumerate(rest) if indent(line) <= len(depth)), len(rest))
        body = "\n".join(rest[split:])
        if form:
            body = "\n".join(rest)
            statement = " ".join([around, parameters, kind])
            fields = re.findall(r"^ +(?:pub )?([^\s:(){}]+(?: [^\s:(){}]+)*) : ", body, re.MULTILINE)
            fields = tuple(name for line in fields for name in line.split(" "))
        else:
            statement = "\n".join([around, kind] + rest[:split])
            fields = ()
        theorem = not form and "abbrev" not in words and "unfoldable" not in words
        for name in names.split(" "):
            declarations[name] = Declaration(name, "pub " in words, theorem, statement, body, fields)
        for name in fields:
            if form and name not in declarations:
                declarations[name] = Declaration(name, True, True, "", "", ())
    uses = {}
    for crate, folder, module, names in USES.findall(text):
        for name in names.replace("\n", " ").split(","):
            first, _, other = name.strip().partition(" as ")
            if first:
                uses[other or first] = (crate, f"{folder}/{module}", first)
    return File(declarations, uses)


def specs(top):
    """Every file of specs/ and right in proofs/, by crate and name."""
    paths = sorted([*top.glob("crates/*/specs/*.antt"), *top.glob("crates/*/proofs/*.antt")])
    return {(path.parts[-3], f"{path.parts[-2]}/{path.stem}"): read(path) for path in paths}


def rests_on(files, roots):
    """The declarations that the statements of the roots rest on."""
    reached, waiting = set(), list(roots)
    while waiting:
        crate, module, name = here = waiting.pop()
        file = files.get((crate, module))
        if here in reached or file is None or name not in file.declarations:
            continue
        reached.add(here)
        for other in file.declarations[name].mentions():
            if other in file.declarations:
                waiting.append((crate, module, other))
            elif other in file.uses:
                waiting.append(file.uses[other])
    return reached
