"""What the repository's tools share: its files and crates, the imports and declarations of specs/ and src/, and how a
tool says what it found. A tool looks at the repository that it stands in."""
import collections
import functools
import hashlib
import os
import re
import sys

ROOT = os.path.dirname(os.path.dirname(os.path.abspath(__file__)))
WIDTH = 120
KIT = ("anyhow", "bytes", "check", "io", "libc", "os", "thiserror")  # the kit's crates that crates.txt may list
DEFINITION, PROMISE, LAW = "", "Promises", "Laws"  # folders of specs/ (of proofs/, too, for laws), and kinds of files
HEAD = {DEFINITION: "-- Believe: ", PROMISE: "-- Promise. ", LAW: "-- Law. "}

# ---------------------------------------------------------------- files


def read(path):
    with open(os.path.join(ROOT, path), encoding="utf-8") as f:
        return f.read()


def write(path, text):
    with open(os.path.join(ROOT, path), "w", encoding="utf-8") as f:
        f.write(text)


def exists(path):
    return os.path.exists(os.path.join(ROOT, path))


def names_in(folder):
    """The names in a folder, in order; none where there is no such folder."""
    at = os.path.join(ROOT, folder)
    return sorted(os.listdir(at)) if os.path.isdir(at) else []


def files(folder, *suffixes):
    """The files below a folder with one of these endings, in order, as paths of the repository."""
    for base, folders, found in os.walk(os.path.join(ROOT, folder)):
        folders[:] = sorted(f for f in folders if f not in ("target", "out", "__pycache__"))
        for name in sorted(found):
            if name.endswith(suffixes):
                yield os.path.relpath(os.path.join(base, name), ROOT)


def papers():
    """The pages that speak of the tree as it is. Landing notes and PORT.md are history and not among them."""
    pages = [name for name in names_in("docs") if name.endswith(".md") and name != "PORT.md"]
    return ["README.md", "CONTRIBUTING.md"] + [f"docs/{name}" for name in pages]


def digest(text):
    return hashlib.sha256(text.encode("utf-8")).hexdigest()[:12]


# ---------------------------------------------------------------- crates.txt


@functools.lru_cache(maxsize=None)
def crates():
    """The crates in their order: name -> what it stands on. A word after the name, `staticlib`, says of what kind."""
    found = collections.OrderedDict()
    for line in read("crates.txt").split("\n"):
        name, colon, below = line.partition("#")[0].partition(":")
        if colon:
            found[name.split()[0]] = below.split()
    return found


# ---------------------------------------------------------------- text of the two languages


def plain(text):
    """The text without comments and blank lines."""
    lines = (re.sub(r"(^|\s)(--+|//+)(\s.*)?$", "", line).rstrip() for line in text.split("\n"))
    return "\n".join(line for line in lines if line)


def quiet(text):
    """The text without comments and without what stands in strings."""
    return re.sub(r'"[^"\n]*"', '""', plain(text))


def parse_use(statement):
    """An import: its path, the names that it lists or None, its alias or None."""
    statement = re.sub(r"^(ghost )?use ", "", statement.strip().rstrip(";"))
    m = re.match(r"(\S+)\.\{(.*)\}$", statement, re.S)
    if m:
        return m.group(1), [n.strip() for n in m.group(2).split(",") if n.strip()], None
    m = re.match(r"(\S+) as (\S+)$", statement)
    return (m.group(1), None, m.group(2)) if m else (statement, None, None)


# Of the repository's crates and of the kit's libraries alike.
SPEC_PATH = re.compile(r"Rattle\.(\w+)\.(?:specs\.(?:(Laws|Promises)\.)?|proofs\.(Laws)\.)([A-Z]\w*)$")
TYPE_PATH = re.compile(r"Rattle\.(\w+)\.specs\.declared\.(?:\w+\.)*?([A-Z]\w*)")


def spec_at(path):
    """The file of definitions, promises or laws that an import leads to, as (crate, folder, name), or None."""
    m = SPEC_PATH.match(path)
    return (m.group(1), m.group(2) or m.group(3) or DEFINITION, m.group(4)) if m and m.group(1) in crates() else None


# ---------------------------------------------------------------- declarations of specs/

DECLARED = re.compile(r"(?:(abbrev|unfoldable)\s+)?(?:(pub)\s+)?(?:(data|record)\s+)?([^\s:(){}]+)")
SIGNATURE = re.compile(r"(pub\s+)?([^\s:(){}]+)\s*(?:\{[^}]*\}\s*|\([^)]*\)\s*)*:(?:\s|$)")


class Item:
    """A declaration: its signature (`says`), and its clauses (`body`). One with a mark (abbrev, unfoldable), a datatype
    or a record is a definition, any other a theorem."""

    def __init__(self, home, name, is_definition, shape, module):
        self.home, self.name, self.is_definition, self.shape, self.module = home, name, is_definition, shape, module
        self.says, self.body, self.other, self.members, self.phase = [], [], [], [], "says"

    def add(self, line, may_be_member):
        """A line more of it; in a datatype or record one that names constructors or fields."""
        getattr(self, self.phase).append(line)
        m = re.match(r"(?:pub\s+)?([^:]+?)\s*:\s", line.strip() + " ") if self.shape and may_be_member else None
        self.members += m.group(1).split() if m else []

    def meaning(self):
        """What one reads to know what it says: of a theorem not the proof."""
        return "\n".join(self.module + self.says + (self.body if self.is_definition else []))

    def lines(self):
        return len(plain("\n".join(self.says + self.body)).split("\n")) if self.is_definition else 0


class Spec:
    """A file of definitions, promises or laws: its imports and its declarations."""

    def __init__(self, crate, folder, name, path):
        self.crate, self.folder, self.name, self.path = crate, folder, name, path
        self.place = "/".join(part for part in (crate, folder, name) if part)
        self.text = read(self.path)
        self.uses, self.items = [], []
        self.parse(self.text.rstrip("\n").split("\n"))

    def take_in(self, other):
        """Takes in the theorems in proofs/ of a file of laws whose notions stand in specs/, with their head line."""
        if other is not self:
            self.text, self.uses, self.items = other.text + self.text, self.uses + other.uses, self.items + other.items

    def parse(self, lines):
        outer, module, nested, current, known, at = [], [], 0, None, {}, 0  # nested: the column of declarations
        while at < len(lines):
            line, at = lines[at], at + 1
            stripped, indent = line.strip(), len(line) - len(line.lstrip())
            if not stripped or stripped.startswith(("--", "infix")):
                continue
            if indent == 0 and stripped.startswith("use "):
                while "{" in stripped and "}" not in stripped:
                    stripped, at = f"{stripped} {lines[at].strip()}", at + 1
                self.uses.append(parse_use(stripped))
                continue
            if stripped.startswith("module ") and indent <= nested:
                header = [line]
                while not lines[at - 1].rstrip().endswith("where"):
                    header, at = header + [lines[at]], at + 1
                outer = [(column, head) for column, head in outer if column < indent] + [(indent, header)]
                module, nested, current = [part for _, head in outer for part in head], indent + 2, None
                continue
            if indent == 0:
                outer, module, nested = [], [], 0
            level = min(indent, nested)
            item = self.begins(stripped, module, known) if indent == level else None
            if item:
                known[item.name] = current = item
                self.items.append(item)
            elif current is None:
                raise SystemExit(f"{self.path}:{at}: not understood: {line}")
            elif indent == level:
                is_clause = not stripped.startswith("unfolding ")
                current = known.get(stripped.split()[0], current) if is_clause else current
                current.phase = "body" if is_clause else "other"
            current.add(line, indent == level + 2 and not item)

    def begins(self, stripped, module, known):
        """The declaration that a line begins, if it does."""
        keyword, _, shape, word = DECLARED.match(stripped).groups() if DECLARED.match(stripped) else (None,) * 4
        if keyword or (shape and re.match(r"(pub\s+)?(data|record)\s", stripped)):
            return Item(self, word, True, shape, module)
        m = None if stripped.startswith("unfolding ") else SIGNATURE.match(stripped)
        return Item(self, m.group(2), False, None, module) if m and m.group(2) not in known else None

    def declared(self):
        """All names that the file declares, those of constructors and fields too: name -> item."""
        found = {}
        for item in self.items:
            for name in item.members:
                found.setdefault(name, item)
        found.update({item.name: item for item in self.items})
        return found


def specs():
    """Every file of definitions, promises and laws: (crate, folder, name) -> Spec."""
    found = {}
    for crate in names_in("crates"):
        for folder in (DEFINITION, PROMISE, LAW):
            for part in ("specs", "proofs") if folder == LAW else ("specs",):
                at = os.path.normpath(os.path.join("crates", crate, part, folder))
                for name in names_in(at):
                    if name.endswith(".antt") and name[:-5] not in ("Lib", PROMISE, LAW):
                        spec = Spec(crate, folder, name[:-5], f"{at}/{name}")
                        found.setdefault((crate, folder, name[:-5]), spec).take_in(spec)
    return found


# ---------------------------------------------------------------- declarations of src/

CODE = re.compile(r'( *)(?:pub )?(?:extern "C" )?(fn|struct|enum|const|type) (\w+)')


def code_names(crate):
    """What a crate's code declares: path after `crate::` -> its text (of a function, up to its body)."""
    found = {}
    for path in files(os.path.join("crates", crate, "src"), ".rt"):
        file = os.path.relpath(path, os.path.join("crates", crate, "src"))[:-3].replace(os.sep, "::")
        inner, lines = "" if file in ("lib", "main") else file + "::", read(path).split("\n")
        owner = ""
        for at, line in enumerate(lines):
            m = re.match(r"impl (\w+)", line)
            owner = m.group(1) + "::" if m else "" if line.startswith("}") else owner
            m = CODE.match(line)
            if m and len(m.group(1)) == (4 if owner else 0):
                last = next((k for k in range(at, len(lines)) if re.match(m.group(1) + r"[{}]", lines[k])), at)
                text = lines[at:last + (m.group(2) != "fn")] or [line]
                found[inner + owner + m.group(3)] = "\n".join(text)
                if m.group(2) == "enum":
                    for variant in text[1:]:
                        v = re.match(r"    (\w+)", variant)
                        if v:
                            found[f"{inner}{m.group(3)}::{v.group(1)}"] = variant
    return found


USE = re.compile(r"(?m)^\s*(?:pub )?use ([^;]+);")


def imports(text):
    """What the `use` lines of code bring in: a name here -> its path."""
    return dict(pair for use in USE.findall(text) for pair in imported(use))


def imported(use, before=""):
    """The names and paths of one `use`: `a::{b, c as d}` brings in two."""
    depth, parts, part = 0, [], ""
    for sign in use + ",":
        depth += (sign == "{") - (sign == "}")
        if sign == "," and not depth:
            parts, part = parts + [part.strip()], ""
        else:
            part += sign
    for part in filter(None, parts):
        head, brace, rest = part.partition("{")
        if brace:
            yield from imported(rest.rpartition("}")[0], before + head)
        else:
            path, _, name = (before + part).partition(" as ")
            path = path.removesuffix("::self")
            yield name.strip() or path.split("::")[-1], path


# ---------------------------------------------------------------- what a tool says


def wrapped(words, first="", later="  "):
    """Words in lines of at most WIDTH columns."""
    lines, line = [], first
    for word in words:
        if line.strip() and len(line) + 1 + len(word) > WIDTH:
            lines, line = lines + [line], later + word
        else:
            line = line + (" " if line and not line.endswith(" ") else "") + word
    return lines + [line]


def listed(names, first):
    """Names in backquotes, with commas, in lines of at most WIDTH columns."""
    return wrapped([f"`{name}`," for name in names[:-1]] + [f"`{names[-1]}`"], first)


def finish(tool, faults, fine):
    """Ends a tool: each fault in a line and status 1, or one line that says what was seen."""
    for fault in faults:
        print(f"{tool}: {fault}")
    if not faults:
        print(f"{tool}: {fine}")
    sys.exit(1 if faults else 0)


def generated(tool, path, text, faults, flag="--write"):
    """A page that a tool makes: written where the flag is given, else a fault where it is stale."""
    if flag in sys.argv[1:]:
        write(path, text)
    elif not exists(path) or read(path) != text:
        faults.append(f"{path} is stale: run tools/{tool} {flag}, and look at what changed")


def flags(*known):
    """The flags given; any other word ends the tool."""
    for word in sys.argv[1:]:
        if word not in known:
            tool = os.path.basename(sys.argv[0])
            raise SystemExit(f"{tool}: no such word: {word} (known: {' '.join(known) or 'none'})")
    return set(sys.argv[1:])
