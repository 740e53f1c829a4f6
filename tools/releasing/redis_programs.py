"""The programs of integrations/redis in the release: redis/ of the archive.

Rust and Debian's packages of the crates compile them over the archive of the library. The same compiler and crates give
the same bytes anywhere: the package is compiled in a copy, in which it and the crate `squall` lie in one folder, so that
each path in it is relative. SOURCE has the checksum of what decides the build on the line `redis`, and on the line `rustc`
the compiler, the linker and the crates.
"""
import functools
import hashlib
import os
import re
import shutil
import subprocess
import sys
from pathlib import Path

TOP = Path(__file__).resolve().parents[2]
PACKAGE = TOP / "integrations/redis"
CRATE = TOP / "bindings/rust"
REGISTRY = Path("/usr/share/cargo/registry")
ROOM = TOP / "build/redis-programs"
# Each program, and the folder of its help.
PROGRAMS = {"check": "check", "mover": "mover", "node": "keeper", "proxy": "proxy"}
NAMES = [f"squall-redis-{it}" for it in PROGRAMS]
# What of the user's settings says where the compiler is, and how many processors it may take.
KEPT = {"PATH", "HOME", "RUSTUP_HOME", "RUSTUP_TOOLCHAIN", "TMPDIR", "CARGO_BUILD_JOBS"}
FIXED = {
    "CARGO_HOME": str(ROOM / "home"),
    "CARGO_INCREMENTAL": "0",
    "CARGO_TARGET_DIR": str(ROOM / "target"),
    "CARGO_PROFILE_RELEASE_CODEGEN_UNITS": "1",
    "CARGO_PROFILE_RELEASE_DEBUG": "0",
    "CARGO_PROFILE_RELEASE_STRIP": "symbols",
    "LC_ALL": "C",
    "SQUALL_DIR": str(ROOM / "library"),
}
LINKED = {"libssl.so.3", "libcrypto.so.3", "libgcc_s.so.1", "libm.so.6", "libc.so.6", "ld-linux-x86-64.so.2"}
HEAD = """\
What is linked into the programs for Redis besides the library of squall, and its notices.

The standard library of Rust is that of the compiler that SOURCE names, under the MIT licence:
Copyright (c) The Rust Project Contributors. OpenSSL and the C library are linked when a program starts.

Where a choice of licences is given, it is MIT.
"""


def ran(*words: str, cwd: Path | None = None) -> str:
    """What a command of the compiler writes."""
    settings = {name: value for name, value in os.environ.items() if name in KEPT} | FIXED
    return subprocess.run(words, check=True, stdout=subprocess.PIPE, text=True, cwd=cwd, env=settings).stdout


def sources() -> dict[str, Path]:
    """The files that are compiled, by their names in the copy."""
    own = [PACKAGE / "Cargo.toml", *PACKAGE.glob(".cargo/*"), *PACKAGE.glob("src/**/*")]
    crate = [CRATE / "Cargo.toml", CRATE / "build.rs", *CRATE.glob("src/**/*")]
    found = {str(it.relative_to(PACKAGE)): it for it in own if it.is_file()}
    return found | {f"squall/{it.relative_to(CRATE)}": it for it in crate if it.is_file()}


def sum_of_sources() -> str:
    sums = (f"{hashlib.sha256(it.read_bytes()).hexdigest()}  {name}\n" for name, it in sorted(sources().items()))
    return hashlib.sha256("".join(sums).encode()).hexdigest()


def put(file: Path, data: bytes) -> None:
    """Writes a file that differs. What does not is compiled once."""
    if not file.is_file() or file.read_bytes() != data:
        file.parent.mkdir(parents=True, exist_ok=True)
        file.write_bytes(data)


def copied() -> Path:
    """The copy of the sources, without a lock: the crates are those that are here."""
    package = ROOM / "package"
    wanted = sources()
    for old in package.rglob("*"):
        if old.is_file() and str(old.relative_to(package)) not in wanted:
            old.unlink()
    for name, file in wanted.items():
        data = file.read_bytes()
        if name == "Cargo.toml":
            data = data.replace(b'path = "../../bindings/rust"', b'path = "squall"')
        put(package / name, data)
    return package


@functools.cache
def compiler() -> str:
    """What compiles the programs: Rust, the linker and the crates."""
    rust = ran("rustc", "--version").strip().removeprefix("rustc ")
    package = copied()
    ran("cargo", "generate-lockfile", "--offline", "--quiet", cwd=package)
    lock = (package / "Cargo.lock").read_text(encoding="utf-8")
    crates = re.findall(r'^name = "(.+)"\nversion = "(.+)"\nsource', lock, re.MULTILINE)
    linker = ran("cc", "--version").splitlines()[0].removeprefix("cc ")
    return ", ".join([rust, f"linked by {linker}", *map("-".join, crates)])


def lines() -> dict[str, str]:
    """The lines of SOURCE. Without a compiler or crates that serve there is no line `rustc`."""
    found = {"redis": sum_of_sources()}
    try:
        return found | {"rustc": compiler()}
    except (FileNotFoundError, subprocess.CalledProcessError):
        return found


def is_as_here(said: str) -> bool:
    """Whether what compiled the programs of a release, by its SOURCE, is here too."""
    return f"rustc {lines().get('rustc')}" in said.splitlines()


def notices(package: Path) -> str:
    """The licences of the crates that are linked in, each once, under the names of the crates."""
    tree = ran("cargo", "tree", "--offline", "--edges", "normal,no-proc-macro", "--prefix", "none", cwd=package)
    under: dict[str, list[str]] = {}
    for name, version in sorted(set(re.findall(r"^(\S+) v(\S+)", tree, re.MULTILINE))):
        files = sorted(REGISTRY.glob(f"{name}-{version}/LICENSE*"))
        for file in [it for it in files if it.name == "LICENSE-MIT"] or files:
            under.setdefault(file.read_text(encoding="utf-8").strip(), []).append(name)
    texts = [f"{', '.join(names)}\n\n{text}" for text, names in sorted(under.items(), key=lambda it: it[1])]
    return f"\n\n{'-' * 80}\n\n".join([HEAD.strip(), *texts]) + "\n"


def needed(data: bytes) -> set[str]:
    """The shared libraries that a program names."""
    return {it.decode() for it in re.findall(rb"\0((?:lib|ld-)[\w.+-]+\.so\.\d+)(?=\0)", data)}


def glibc(folder: Path) -> str:
    """The oldest C library by which the programs run."""
    asked = (it for name in NAMES for it in re.findall(rb"\0GLIBC_(\d+)\.(\d+)(?=\0)", (folder / name).read_bytes()))
    return ".".join(map(str, max((int(major), int(minor)) for major, minor in asked)))


def compile_into(stage: Path) -> None:
    """Compiles the programs over the library that lies in the folder."""
    if shutil.which("cargo") and not REGISTRY.is_dir():
        sys.exit("squall: no release: Debian's packages of the crates are not here (tools/packages installs them)")
    compiler()
    put(ROOM / "library/libsquall.a", (stage / "libsquall.a").read_bytes())
    package = copied()
    ran("cargo", "build", "--release", "--offline", "--quiet", "--bins", cwd=package)
    for name in NAMES:
        data = (ROOM / "target/release" / name).read_bytes()
        if needed(data) - LINKED:
            sys.exit(f"squall: no release: {name} needs {', '.join(sorted(needed(data) - LINKED))}")
        put(stage / "redis" / name, data)
    put(stage / "redis/NOTICES", notices(package).encode())


def fill(stage: Path, said: str | None, version: str) -> None:
    """Puts redis/ into the folder of a release, beside its page. Of one that is compared, `said` is SOURCE."""
    if said is None or is_as_here(said):
        compile_into(stage)
    for name, folder in PROGRAMS.items():
        text = (PACKAGE / "src" / folder / "help.txt").read_text(encoding="utf-8")
        put(stage / f"redis/man/squall-redis-{name}.1", page(f"squall-redis-{name}", text, version).encode())
    for part in ("default", "monitoring", "systemd"):
        shutil.copytree(PACKAGE / part, stage / "redis" / part)


def apart(root: str, said: str, has_library: bool) -> set[str]:
    """The files of a release, below its root, that can't be compared: another compiler made them, or the library."""
    if has_library and is_as_here(said):
        return set()
    return {f"{root}/{it}" for it in ("SHA256SUMS", "redis/NOTICES", *(f"redis/{name}" for name in NAMES))}


# ---- the man pages


STATUS = """\
.SH EXIT STATUS
0 if it is done, 1 if not, and 2 if its words are wrong.
"""
UNIT = """\
.SH FILES
.TP
.I /etc/default/{name}\\-NAME
The options of the unit {name}@NAME.service of systemd: OPTIONS="\\-\\-first ..".
.TP
.I /etc/squall\\-redis
Files of passwords, keys and plans. The user squall\\-redis may read them.
"""


def escaped(text: str) -> str:
    text = text.replace("\\", "\\e").replace("-", "\\-")
    return f"\\&{text}" if text[:1] in ("'", ".") else text


def marked(words: str) -> str:
    """Options in bold, and what stands for their values in italics."""
    words = re.sub(r"(--[\w-]+)", "\0\\1\1", words)
    words = re.sub(r"(?<![-\w\0])([A-Z][A-Z:=]+|[NP](?==|\b)[A-Z:=]*)", "\2\\1\1", words)
    return escaped(words).replace("\0", "\\fB").replace("\2", "\\fI").replace("\1", "\\fR")


def option_lines(lines_of: list[str]) -> list[str]:
    """The options of a help text. A line that is indented further goes on with what is above it."""
    entries: list[list[str]] = []
    for line in lines_of:
        if line.startswith("  --"):
            entries.append(re.split(r" {2,}", line.strip(), maxsplit=1))
        else:
            entries[-1] = [entries[-1][0], " ".join([*entries[-1][1:], line.strip()])]
    return [line for form, *about in entries for line in (".TP", marked(form), *map(escaped, about))]


def page(name: str, text: str, version: str) -> str:
    """The man page of a program, of its help."""
    blocks = [it.splitlines() for it in text.strip("\n").split("\n\n")]
    first = " ".join(blocks[0])
    title = re.split(r"[.:]", first, maxsplit=1)[0]
    out = [f'.TH {name.upper()} 1 "" "squall {version}" "User Commands"', ".SH NAME"]
    out += [f"{escaped(name)} \\- {escaped(title[0].lower() + title[1:])}"]
    usage = [it for it in blocks if it[0].startswith(f"  {name}")]
    options = [it for it in blocks if it[0].startswith("  --")]
    out += [".SH SYNOPSIS", ".nf", *(marked(line.strip()) for it in usage for line in it), ".fi", ".SH DESCRIPTION"]
    plain = [it for it in blocks if it not in usage and it not in options]
    out += [line for it in plain for line in (".PP", *map(escaped, it))]
    out += [".SH OPTIONS", *(line for it in options for line in option_lines(it))]
    unit = UNIT.format(name=escaped(name)) if (PACKAGE / f"systemd/{name}@.service").is_file() else ""
    others = [f".BR {escaped(it)} (1)" for it in ["squall", *NAMES] if it != name]
    return "\n".join(out) + f"\n{STATUS}{unit}.SH SEE ALSO\n" + " ,\n".join(others) + "\n"
