"""What the scripts that check the pages read from crates/: functions with their clauses, definitions, and the heads of files.

It reads lines and no grammar: a function begins at a line with `fn`, a clause is `requires` or `ensures` with braces, an item of
`specs/` begins at the left margin with `pub`.
"""
import re
from dataclasses import dataclass, field
from pathlib import Path

TOP = Path(__file__).resolve().parent.parent
WORD = re.compile(r"[^\W\d]\w*")
# Modules that crates give out whole, and whose functions are named without them.
NAMED_ALONE = {"laws", "schedule"}


@dataclass
class Function:
    """A function with its clauses; or a type with its ghosts as clauses, where `name` is empty."""

    crate: str
    file: Path
    owner: str
    name: str
    public: bool
    clauses: list = field(default_factory=list)
    words: set = field(default_factory=set)

    @property
    def title(self):
        return "::".join(it for it in (self.owner, self.name) if it)


@dataclass
class Spec:
    """A file of `specs/`: its first comment, and its public items, each with the comment before it."""

    crate: str
    module: str
    head: str
    items: dict
    uses: set
    names: dict


def crates(top):
    """The names of the crates, in the order of crates.txt."""
    lines = (top / "crates.txt").read_text().splitlines()
    return [line.split(":")[0].split()[0] for line in lines if line.strip()]


def root_file(top, crate):
    """The root file of a crate."""
    found = [top / "crates" / crate / "src" / name for name in ("lib.rt", "main.rt")]
    return next((f for f in found if f.is_file()), None)


def public_names(text):
    """The names and the modules that a root file makes public."""
    names, modules = set(), set(re.findall(r"(?m)^pub mod (\w+)", text))
    for used in re.findall(r"(?s)^pub use (.*?);", text, re.M):
        inside = re.search(r"(?s)\{(.*)\}", used)
        for word in (inside.group(1) if inside else used.rsplit("::", 1)[-1]).split(","):
            names.add(word.split(" as ")[-1].strip())
    return names, modules


def used_specs(text):
    """Which names a text takes from which files of `specs/`: (crate, module) by name."""
    found = {}
    for crate, module, names in re.findall(r"use Rattle\.(\w+)\.specs\.([\w.]+)\.\{([^}]*)\}", text):
        if not module.startswith("declared"):
            for name in names.split(","):
                found[name.split(" as ")[-1].strip()] = (crate, module)
    return found


def used_modules(text):
    """Which files of `specs/` a text uses: (crate, module)."""
    found = re.findall(r"use Rattle\.(\w+)\.specs\.([\w.]*\w)", text)
    return {(crate, module) for crate, module in found if not module.startswith("declared")}


def clause_texts(head):
    """The clauses in the text between a function's name and its body: names (or "") and texts."""
    found = []
    for it in re.finditer(r"\b(requires|ensures)\s*(\w*)\s*\{", head):
        depth, at = 1, it.end()
        while depth and at < len(head):
            depth += {"{": 1, "}": -1}.get(head[at], 0)
            at += 1
        if it.group(1) == "ensures":
            found.append((it.group(2), head[it.end() : at - 1]))
    return found


def head_of(lines, first):
    """The lines from a function's `fn` to the brace of its body, and the place after them."""
    depth, indent = 0, re.match(r"\s*", lines[first]).group()
    for at in range(first, len(lines)):
        line = re.sub(r"//.*", "", lines[at]).rstrip()
        is_body = line in (f"{indent}{{", f"{indent}{{}}")
        opens = not line.strip().startswith(("ensures", "requires")) and line.endswith(("{", "{}"))
        if depth == 0 and (is_body or opens or line.endswith(";")):
            return lines[first : at + 1], at + 1
        depth += line.count("{") - line.count("}")
    return lines[first:], len(lines)


def functions_of(crate, path, names, modules):
    """The functions of a source file."""
    lines, owner, open_type, is_trait, ghosts, at = path.read_text().split("\n"), "", "", False, [], 0
    is_module = path.stem in modules
    while at < len(lines):
        line = lines[at]
        begins = re.match(r"(?:pub(?:\(crate\))? )?(?:unsafe )?(impl|trait)\b(?:<.*?>)? ?(.*)", line)
        if begins:
            # `impl Trait for Type<'a> {`: the type; `trait Name<A> {`: the trait
            rest = re.sub(r"<[^<>]*>", "", re.sub(r"<[^<>]*>", "", begins.group(2)))
            owner = WORD.search(rest.split(" for ")[-1]).group()
            open_type, ghosts = owner, []
            is_trait = begins.group(1) == "trait" or " for " in rest
        elif line.startswith("}") and owner:
            words = set(WORD.findall("\n".join(ghosts)))
            clauses = [(re.match(r"\s*ghost (\w+)", it).group(1), it) for it in ghosts]
            is_given = is_module and any(re.match(rf"pub (?:struct|enum|trait) {open_type}\b", it) for it in lines)
            yield Function(crate, path, open_type, "", open_type in names or is_given, clauses, words)
            owner = ""
        named = re.match(r"(\s*)(pub(?:\(\w+\))? )?(?:const )?(?:unsafe )?(?:extern \"C\" )?fn (\w+)", line)
        if named:
            head, at = head_of(lines, at)
            text = re.sub(r"//.*", "", "\n".join(head))
            clauses = clause_texts(text)
            is_open = (owner in names) if owner else (named.group(3) in names or is_module or path.stem == "lib")
            public = is_open and (named.group(2) == "pub " or (bool(owner) and is_trait))
            words = set(WORD.findall(" ".join(text for _, text in clauses)))
            # (a function of a module that the crate gives out whole is called by the module's name; laws are named alone)
            of_module = path.stem if is_module and path.stem not in NAMED_ALONE else ""
            yield Function(crate, path, owner or of_module, named.group(3), public, clauses, words)
            continue
        if owner and re.match(r"    ghost (?!use)", line):
            ghosts.append(line)
        at += 1


def functions(top, crate):
    """The functions of a crate, with the ghosts of its types."""
    root = root_file(top, crate)
    if root is None:
        return []
    names, modules = public_names(root.read_text())
    files = sorted((top / "crates" / crate / "src").rglob("*.rt"))
    return [it for path in files for it in functions_of(crate, path, names, modules)]


def first_comment(lines):
    """The comment with which a file of `specs/` begins."""
    taken = []
    for line in lines:
        if not line.startswith("--"):
            break
        taken.append(line.removeprefix("--").strip())
    return " ".join(taken)


def spec_of(crate, path, module):
    """A file of `specs/`."""
    lines = path.read_text().split("\n")
    items, comment = {}, []
    for line in lines:
        # In a `module _` a definition is indented; a line `pub NAME` there is a field.
        named = re.match(r"(?:\w+ )*?pub (?:(?:record|data|abbrev|unfoldable|type) )?(?!mod\b)([^\W\d]\w*)", line) or re.match(
            r"\s+(?:(?:abbrev|unfoldable) pub|pub (?:record|data)) ([^\W\d]\w*)", line
        )
        if line.strip().startswith("--"):
            comment.append(line.strip().removeprefix("--").strip())
            continue
        if named:
            items[named.group(1)] = " ".join(comment)
        comment = []
    return Spec(crate, module, first_comment(lines), items, used_modules("\n".join(lines)), used_specs("\n".join(lines)))


def specs(top, crate, with_inside=False):
    """The files of `specs/` of a crate in reading order, those of `Inside/` only where they are asked for."""
    folder, found = top / "crates" / crate / "specs", []

    def visit(lib, prefix):
        for name in re.findall(r"(?m)^pub mod (\w+)", lib.read_text()):
            module, path = prefix + name, folder / (prefix + name).replace(".", "/")
            file = path.with_suffix(".antt")
            if not file.is_file() or (name == "Inside" and not with_inside):
                continue
            if path.is_dir():
                visit(file, module + ".")
            else:
                found.append(spec_of(crate, file, module))

    if (folder / "Lib.antt").is_file():
        visit(folder / "Lib.antt", "")
    return found
