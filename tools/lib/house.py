"""Reads what several tools read: crates.txt, mutants, and the functions of a source.

  python3 tools/lib/house.py crates            the crates of crates.txt, a line each
  python3 tools/lib/house.py threads           those of them whose tests may start threads
  python3 tools/lib/house.py named NAME        what the crate's line names
  python3 tools/lib/house.py below NAME        the crates of this repository below it, each after those it stands on
  python3 tools/lib/house.py changed T E C     what tool T says if it expected E of the toolchain's private parts and C came

tools/releasing/sources alone reads crates.txt by itself: it has to run without Python.
"""
import re
import subprocess
import sys
from dataclasses import dataclass
from pathlib import Path

sys.dont_write_bytecode = True
import needs

TOP = Path(__file__).resolve().parents[2]
# The folders of a crate's mutants that the gate tries, and all of them.
GATE = ("mutants", "mutants/definitions")
MUTANTS = (*GATE, "mutants/more")
EXCUSE = re.compile(r"#\s*(\w+(?:, *\w+)*): (\S.*)")
FACT = re.compile(r"#\| (group|does|value|proved): (\S.*)")
PROVED = re.compile(r"(.*) \(([^()]*)\)")
BLOCK = re.compile(r"(?:unsafe )?impl\b|(?:pub(?:\(\w+\))? )?trait\b")
FUNCTION = re.compile(r"( *)((?:pub(?:\(\w+\))? )?(?:final )?(?:const )?(?:unsafe )?(?:extern \S+ )?)fn (\w+)")
ABOVE = ("#[", "///")
IMPORT = re.compile(r"^ *(?:ghost |pub )*use Rattle\.([\w.]+)\.\{([^}]*)\}", re.MULTILINE)
CLAUSE = re.compile(r"\b(?:ensures\*?|ghost) (\w*) ?(?:= )?\{")


@dataclass(frozen=True)
class Crate:
    """A line of crates.txt, with what the comment lines above it say.

    `# NAME, NAME: why` excuses names that no file has. `#| group: ..` is the crate's group, `#| does: ..` what it is for,
    `#| value: ..` its value in contracts, and `#| proved: .. (..)` what is proved above all, by which functions.
    """

    name: str
    kinds: tuple[str, ...]
    uses: tuple[str, ...]
    excused: dict[str, str]
    facts: tuple[tuple[str, str], ...] = ()

    def fact(self, kind: str) -> str:
        """What the line of that kind says."""
        return next((text for it, text in self.facts if it == kind), "")

    @property
    def group(self) -> str:
        """The group to which it belongs."""
        return self.fact("group")

    @property
    def does(self) -> str:
        """What it is for."""
        return self.fact("does")

    @property
    def value(self) -> str:
        """What contracts see of its values."""
        return self.fact("value")

    @property
    def proved(self) -> list[tuple[str, str]]:
        """What is proved above all, and the functions whose contracts say so."""
        return [PROVED.fullmatch(text).groups() for it, text in self.facts if it == "proved"]


def crates() -> dict[str, Crate]:
    """The crates of crates.txt by their names, in the order of their lines."""
    found, excused, facts = {}, {}, []
    for line in (TOP / "crates.txt").read_text(encoding="utf-8").splitlines():
        head, colon, rest = line.partition("#")[0].partition(":")
        excuse, fact = EXCUSE.fullmatch(line.strip()), FACT.fullmatch(line)
        if colon:
            name, *kinds = head.split()
            found[name] = Crate(name, tuple(kinds), tuple(rest.split()), excused, tuple(facts))
        if excuse:
            excused = {**excused, **{it.strip(): excuse[2] for it in excuse[1].split(",")}}
        elif fact:
            facts.append(fact.groups())
        elif not line.startswith("#"):
            excused, facts = {}, []
    return found


def below(known: dict[str, Crate], name: str) -> list[str]:
    """The crates of this repository below the crate, each once and after those on which it stands."""
    found: dict[str, None] = {}

    def visit(one: str) -> None:
        for it in known[one].uses:
            if it in known and it not in found:
                visit(it)
                found[it] = None

    visit(name)
    return list(found)


def kit(known: dict[str, Crate]) -> list[str]:
    """The crates of the toolchain that lines of crates.txt name: those that have no folder here."""
    named = {it for crate in known.values() for it in crate.uses}
    return sorted(it for it in named - known.keys() if not (TOP / "crates" / it).is_dir())


def mutants(crate: str = "*", mutant: str = "*", folders: tuple[str, ...] = MUTANTS) -> list[Path]:
    """The files of mutants of this name, of this crate and in these folders of it."""
    return sorted(it for folder in folders for it in TOP.glob(f"crates/{crate}/{folder}/{mutant}.edit"))


@dataclass(frozen=True)
class Change:
    """One place of a mutant: the file, what is taken away, and what is put there."""

    file: str
    old: str
    new: str


def changes(path: Path) -> list[Change]:
    """What a mutant changes, in the order in which it is done."""
    found, file, old = [], "", ""
    for line in path.read_text(encoding="utf-8").splitlines():
        word, _, rest = line.partition(": ")
        if word == "file":
            file = rest.strip()
        elif word == "old":
            old = rest
        elif line.startswith("new:"):
            found.append(Change(file, old, line[len("new:"):].removeprefix(" ")))
    return found


def without_generics(text: str) -> str:
    """The text without what stands in angle brackets."""
    plain = re.sub(r"<[^<>]*>", "", text)
    return plain if plain == text else without_generics(plain)


@dataclass(frozen=True)
class Function:
    """A function of a source. Places are those of lines, from 0: its first attribute or sentence, its name, its end."""

    name: str
    mark: str
    block: str
    first: int
    head: int
    last: int
    lines: tuple[str, ...]

    @property
    def text(self) -> str:
        """The function with its contract."""
        return "\n".join(self.lines[self.head - self.first:])

    @property
    def above(self) -> tuple[str, ...]:
        """Its attributes and the sentences about it."""
        return self.lines[:self.head - self.first]

    @property
    def clauses(self) -> dict[str, str]:
        """What its contract ensures, by the names of the clauses; a clause without a name has an empty one."""
        found = {}
        for it in CLAUSE.finditer(self.text):
            rest, depth, end = self.text[it.end():], 1, 0
            while depth and end < len(rest):
                depth += {"{": 1, "}": -1}.get(rest[end], 0)
                end += 1
            found[it[1]] = rest[:end - 1].strip()
        return found

    @property
    def signature(self) -> str:
        """Its name, parameters and answer."""
        return re.split(r"\n\s*(?:requires|ensures|ghost|where)\b|\{\n", self.text)[0]

    @property
    def parameters(self) -> list[str]:
        """Its parameters, `self` among them."""
        depth, is_inside, found = 0, False, [""]
        for it in self.signature.partition("fn ")[2].replace("->", ""):
            depth -= it in ")]>"
            if is_inside and depth == 0:
                break
            if is_inside and depth == 1 and it == ",":
                found.append("")
            elif is_inside:
                found[-1] += it
            depth += it in "([<"
            is_inside |= it == "(" and depth == 1
        return [it.strip() for it in found if it.strip()]

    @property
    def owner(self) -> str:
        """The type or trait among whose items it stands, as `Board` of `impl PartialEq for Board {`."""
        return self._names()[0]

    @property
    def trait(self) -> str:
        """The trait that its block implements."""
        return self._names()[1]

    def _names(self) -> tuple[str, str]:
        plain = without_generics(self.block.replace("->", ""))
        found = re.match(r"(?:unsafe )?impl +(?:(?:\w+::)*(\w+) +for +)?\W*(?:\w+::)*(\w+)", plain)
        if found:
            return found[2], found[1] or ""
        found = re.search(r"\btrait (\w+)", plain)
        return (found[1] if found else ""), ""

    @property
    def printed_owner(self) -> str:
        """Its owner as the prover prints it: `Bound`, or `BoundDisplay` for the items of a trait."""
        head = re.split(r" where\b| \{", self.block)[0]
        found = re.match(r"impl(?:<(?P<binds>.*?)>)? (?:(?P<trait>[^ ].*) for )?(?P<type>\S.*)", head)
        if not found:
            return ""
        bound = {it.split(":")[0].strip() for it in (found["binds"] or "").split(",")}
        names = re.findall(r"'?[A-Za-z_]\w*(?!\w|::)", f"{found['type']} {found['trait'] or ''}")
        return "".join(it[0].upper() + it[1:] for it in names if it not in bound and it[0] != "'")


def end_of(lines: list[str], at: int, indent: str) -> int:
    """The place of the last line of a function whose name stands at this one, as `rt fmt` lays it out."""
    has_body = False
    for end in range(at, len(lines)):
        line = lines[end].rstrip()
        is_outer = line.startswith(indent) and line[len(indent):len(indent) + 1] not in ("", " ")
        has_body |= line.endswith("{")
        is_closed = is_outer and (line.startswith(indent + "}") or line.endswith("{}"))
        if is_closed or (line.endswith(";") and not has_body):
            return end
    return len(lines) - 1


def functions(text: str) -> list[Function]:
    """The functions of a source in their order."""
    lines, block, found = text.splitlines(), "", []
    for at, line in enumerate(lines):
        match = FUNCTION.match(line)
        if BLOCK.match(line):
            until = next((it for it in range(at, len(lines)) if "{" in lines[it]), at)
            block = " ".join(it.strip() for it in lines[at:until + 1])
        elif match:
            indent, mark, name = match.groups()
            first, last = at, end_of(lines, at, indent)
            while first and lines[first - 1].lstrip().startswith(ABOVE):
                first -= 1
            found.append(Function(name, mark, block if indent else "", first, at, last, tuple(lines[first:last + 1])))
    return found


def imports(text: str) -> dict[str, str]:
    """Where each name comes from that a `use` line of specs or contracts brings."""
    found = {}
    for module, names in IMPORT.findall(text):
        for name in re.split(r",\s*", names.strip()):
            found[name.strip("◌")] = module
    return found


def defined_in(module: str, name: str) -> tuple[Path | None, str]:
    """The file of a name that a `use` line brings, and the name there; no file for a word of the toolchain."""
    crate, *parts = module.split(".")
    if not (TOP / "crates" / crate).is_dir():
        return None, name
    if "declared" in parts:
        parts = [it for it in parts[parts.index("declared") + 1:] if it != "TheVariants"]
        return (TOP / "crates" / crate / "src" / "/".join(parts[:-1])).with_suffix(".rt"), parts[-1]
    path = (TOP / "crates" / crate / "/".join(parts)).with_suffix(".antt")
    # The last word may be a type of the file, whose variants are brought.
    return (path if path.is_file() else path.parent.with_suffix(".antt")), name


def version() -> str:
    """The toolchain's line, or why there is none."""
    try:
        ran = subprocess.run(["rt", "version"], stdout=subprocess.PIPE, text=True, check=False)
    except OSError as why:
        return f"none ({why})"
    return ran.stdout.strip() or f"none (rt version ended with status {ran.returncode})"


def changed(tool: str, expected: str, came: str) -> str:
    """What a tool says if a private part of the toolchain, on which it leans, is not what the tool was written for."""
    text = (TOP / "docs/CONTRIBUTING.md").read_text(encoding="utf-8")
    known = re.search(r"^ {4}(\S+ logic \w+)$", text, re.MULTILINE)
    return (
        f"squall: {tool} leans on a private part of the toolchain, which seems to have changed\n"
        f"    expected: {expected}\n"
        f"    came: {came}\n"
        f"    toolchain: {version()}; this tool was written for {known[1] if known else 'another one'}"
    )


def answers(known: dict[str, Crate], asked: str, rest: list[str]) -> list[str] | None:
    """The lines that the words ask for, if they ask for anything."""
    if not rest and asked == "crates":
        return list(known)
    if not rest and asked == "threads":
        starts = re.compile(r"tests_may=.*Threads")
        return [it.name for it in known.values() if any(map(starts.match, it.kinds))]
    if len(rest) == 1 and rest[0] in known and asked in ("named", "below"):
        return list(known[rest[0]].uses) if asked == "named" else below(known, rest[0])
    return [changed(*rest)] if len(rest) == 3 and asked == "changed" else None


def main() -> int:
    names = answers(crates(), *sys.argv[1:2] or [""], sys.argv[2:])
    if names is None:
        print("usage: tools/lib/house.py crates | threads | named NAME | below NAME | changed T E C", file=sys.stderr)
        return 2
    print(*names, sep="\n", end="\n" if names else "")
    return 0


if __name__ == "__main__":
    sys.exit(main())
