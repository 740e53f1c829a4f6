"""The public functions of the crates, as several tools read them."""
import re
import sys
from dataclasses import dataclass
from functools import cache
from pathlib import Path

sys.dont_write_bytecode = True
import house

TESTS = re.compile(r"squall_test_")
NAMED = re.compile(r"^pub (?:\w+ )*?(?:fn|struct|enum|trait|type) (\w+)", re.MULTILINE)
PASSED = re.compile(r"^pub use crate::\w+::(\{[^}]*\}|\w+);", re.MULTILINE)


@dataclass(frozen=True)
class Public:
    """A public function: its crate, its path in it, and its file."""

    crate: str
    path: str
    file: Path
    function: house.Function

    @property
    def name(self) -> str:
        """Its whole path."""
        return f"{self.crate}::{self.path}"

    @property
    def is_item(self) -> bool:
        """Whether it is an item of a trait, whose contract each implementation keeps."""
        return is_item(self.function)


def sources(crate: str) -> list[Path]:
    """The sources of a crate."""
    return sorted((house.TOP / "crates" / crate / "src").rglob("*.rt"))


def libraries() -> list[str]:
    """The crates that are no tests, in the order of crates.txt."""
    return [it for it in house.crates() if not TESTS.match(it)]


def exported(crate: str) -> set[str]:
    """The names that the crate's root gives to others, and those of its public modules."""
    src = house.TOP / "crates" / crate / "src"
    root = (src / "lib.rt").read_text(encoding="utf-8") if (src / "lib.rt").is_file() else ""
    names = {name for uses in re.findall(r"^pub use ([^;]+);", root, re.MULTILINE) for name in re.findall(r"\w+", uses)}
    modules = [src / f"{it}.rt" for it in re.findall(r"^pub mod (\w+);", root, re.MULTILINE)]
    return names.union(NAMED.findall(root), *(NAMED.findall(it.read_text(encoding="utf-8")) for it in modules))


def laws(crate: str) -> set[str]:
    """The laws of the crate: what its module `laws` has of its own, or passes on from another module of the crate."""
    path = house.TOP / "crates" / crate / "src/laws.rt"
    text = path.read_text(encoding="utf-8") if path.is_file() else ""
    passed = [it for names in PASSED.findall(text) for it in re.findall(r"\w+", names)]
    return {it.name for it in house.functions(text) if it.mark.startswith("pub ")} | {*passed}


def is_item(one: house.Function) -> bool:
    """Whether the function stands in a trait."""
    return re.match(r"(?:pub(?:\(\w+\))? )?trait\b", one.block) is not None


def is_public(one: house.Function, names: set[str], traits: set[str], known: set[str]) -> bool:
    """Whether a crate that gives these names to others gives them the function."""
    if is_item(one):
        return one.owner in names
    if one.trait:
        return one.trait in traits and (one.owner in names or (one.trait in names and one.owner in known))
    return one.mark.startswith("pub ") and (one.owner in names if one.owner else one.name in names or "extern" in one.mark)


@cache
def functions() -> list[Public]:
    """The public functions of all libraries, by their crates, files and places. Items of the standard traits are none."""
    found = {it: [(file, one) for file in sources(it) for one in read(file)] for it in libraries()}
    names = {it: exported(it) for it in found}
    laws_of = {it: laws(it) for it in found}
    known = set.union(*names.values()) | {"u32"}
    traits = {one.trait for these in found.values() for _, one in these} & known
    result = []
    for crate, these in found.items():
        for file, one in these:
            is_law = not one.owner and one.name in laws_of[crate]
            if is_law or is_public(one, names[crate], traits, known):
                path = "::".join(filter(None, ("laws" if is_law else one.owner, one.name)))
                result.append(Public(crate, path, file, one))
    return result


@cache
def read(file: Path) -> tuple[house.Function, ...]:
    """The functions of a file."""
    return tuple(house.functions(file.read_text(encoding="utf-8")))
