"""Debian's packages of the release, from what `make install` copies.

They are squall, libsquall with the number of the soname, libsquall-dev, if the release has bindings/python also
python3-squall, and if it has redis/ also squall-redis.
"""
import gzip
import hashlib
import os
import re
import shutil
import subprocess
import sys
import tempfile
from datetime import datetime, timezone
from email.utils import format_datetime
from pathlib import Path

import redis_package

MAINTAINER = "squall maintainers <maintainers@users.noreply.sumelgos.example>"
LIBRARIES = "usr/lib/x86_64-linux-gnu"
ABOUT = """ A partitioned main-memory database keeps each row in the memory of one
 partition, and its operators move ranges of keys between partitions while
 transactions go on. squall reads the old and the new plan, takes reports of
 what was loaded where, and says for each key which partition to ask.
"""
COMMON = "/usr/share/common-licenses"
MODULES = "usr/lib/python3/dist-packages"
# What the documents show and name, beside the bindings.
PAGES = ["usr/share/squall/examples", "usr/share/squall/integrations", "usr/share/squall/redis"]
SHELLS = ["usr/share/bash-completion", "usr/share/zsh", "usr/share/fish"]
# Debian's own programs that make and remove the compiled modules, for each version that is installed.
SCRIPTS = {"postinst": "py3compile", "prerm": "py3clean"}


class Package:
    """A package: what it holds of what was installed, and what its control file says."""

    def __init__(self, name, section, title, more, paths, *fields):
        self.name, self.section, self.title, self.more = name, section, title, more
        self.paths, self.fields = paths, fields
        self.architecture = "all" if section == "python" else "amd64"

    def control(self, version, kilobytes):
        lines = [f"Package: {self.name}", "Source: squall", f"Version: {version}"]
        lines += [f"Architecture: {self.architecture}"]
        lines += [f"Maintainer: {MAINTAINER}", f"Installed-Size: {kilobytes}", *self.fields]
        lines += [f"Section: {self.section}", "Priority: optional", f"Description: {self.title}"]
        return "\n".join(lines) + f"\n{ABOUT} .\n {self.more}\n"


def package_list(version, glibc, soname, others, has_python):
    """The packages, the last of which takes what is left. `others` has the folders of completions and pages."""
    number = soname.rpartition(".")[2]
    libc = f"libc6 (>= {glibc})"
    same = "Multi-Arch: same"
    yield Package(
        "squall", "database", "says where keys are while partitions move", "This package has the program.",
        ["usr/bin", "usr/share/man", "usr/share/doc/squall", *others], f"Depends: {libc}",
    )
    yield Package(
        f"libsquall{number}", "libs", "partition routing while data moves - shared library",
        "This package has the shared library.", [f"{LIBRARIES}/{soname}"], f"Depends: {libc}", same,
    )
    if has_python:
        yield Package(
            "python3-squall", "python", "partition routing while data moves - Python 3",
            "This package has the package squall for Python 3.", [MODULES],
            f"Depends: python3 (>= 3.8), libsquall{number} (>= {version})",
        )
    yield Package(
        "libsquall-dev", "libdevel", "partition routing while data moves - development files",
        "This package has the header, the archive and the sources of the bindings.", ["usr"],
        f"Depends: libsquall{number} (= {version})", "Suggests: squall", same,
    )


def copyright_of(notices):
    """The notices, with Debian's own copies of long licences in the place of their texts."""
    head, *parts = re.split(r"\n\n-{80}\n\n", notices)
    apache = re.compile(r"\n\n\s*Apache License\n.*", re.DOTALL)
    short = [apache.sub(f"\n\nThe Apache License 2.0: {COMMON}/Apache-2.0", it) for it in parts]
    head += f"\n\nOn Debian the LGPL is {COMMON}/LGPL-2.1, and the GPL {COMMON}/GPL-3."
    return f"\n\n{'-' * 80}\n\n".join([head, *short]).encode()


def move(whole, stage, paths):
    """Moves these files and folders to the package, and leaves no empty folder where they were alone."""
    for path in paths:
        if (stage / path).is_dir():
            shutil.rmtree(stage / path)
        (stage / path).parent.mkdir(parents=True, exist_ok=True)
        shutil.move(whole / path, stage / path)
        if not any((whole / path).parent.iterdir()):
            (whole / path).parent.rmdir()


def add(stage, name, data):
    (stage / name).parent.mkdir(parents=True, exist_ok=True)
    (stage / name).write_bytes(data)


def add_documents(stage, package, notices, version, date):
    """What each package has in its folder of documents."""
    folder = f"usr/share/doc/{package.name}"
    when = format_datetime(datetime.fromtimestamp(date, timezone.utc))
    head = f"squall ({version}) unstable; urgency=medium"
    log = f"{head}\n\n  * CHANGELOG.md says what is new.\n\n -- {MAINTAINER}  {when}\n"
    add(stage, f"{folder}/changelog.gz", gzip.compress(log.encode(), 9, mtime=0))
    add(stage, f"{folder}/copyright", notices)


def add_of_library(stage, package, version, soname, symbols):
    """How dpkg and the linker of the system come to know the shared library."""
    name, number = soname.removesuffix(".so." + soname.rpartition(".")[2]), soname.rpartition(".")[2]
    add(stage, "DEBIAN/shlibs", f"{name} {number} {package.name} (>= {version})\n".encode())
    add(stage, "DEBIAN/triggers", b"activate-noawait ldconfig\n")
    lines = [f"{soname} {package.name} #MINVER#", *(f" {it}@Base {since}" for it, since in symbols)]
    add(stage, "DEBIAN/symbols", ("\n".join(lines) + "\n").encode())


def add_python(whole, version):
    """Copies the package for Python to where Python looks for it: whether the release has it."""
    source = whole / "usr/share/squall/bindings/python"
    if not source.is_dir():
        print("squall: no package python3-squall, since the release has no bindings/python", file=sys.stderr)
        return False
    shutil.copytree(source / "squall", whole / MODULES / "squall", ignore=shutil.ignore_patterns("__pycache__"))
    about = f"Metadata-Version: 2.1\nName: squall\nVersion: {version}\nRequires-Python: >=3.8\n"
    add(whole, f"{MODULES}/squall-{version}.egg-info", about.encode())
    return True


def add_of_python(stage, package):
    """What compiles the modules when the package is installed, and removes what that made."""
    for script, program in SCRIPTS.items():
        text = f"#!/bin/sh\nset -e\nif command -v {program} > /dev/null; then {program} -p {package.name}; fi\n"
        add(stage, f"DEBIAN/{script}", text.encode())


def seal(stage, date):
    """Sets modes and times, so that the package is the same wherever it is made; the files of the package."""
    files = sorted(it for it in stage.rglob("*") if it.is_file() and not it.is_symlink() and "DEBIAN" not in it.parts)
    for it in [stage, *stage.rglob("*")]:
        if not it.is_symlink():
            is_run = it.parent.name == "bin" or it.name in redis_package.SCRIPTS
            it.chmod(0o755 if it.is_dir() or is_run else 0o644)
        os.utime(it, (date, date), follow_symlinks=False)
    return files


def build(package, stage, to, version, date):
    """Makes the package of a folder: where it lies."""
    files = seal(stage, date)
    kilobytes = sum((it.lstat().st_size + 1023) // 1024 if it.is_file() else 1 for it in stage.rglob("*"))
    sums = [f"{hashlib.md5(it.read_bytes()).hexdigest()}  {it.relative_to(stage)}\n" for it in files]
    add(stage, "DEBIAN/md5sums", "".join(sums).encode())
    add(stage, "DEBIAN/control", package.control(version, kilobytes).encode())
    seal(stage, date)
    made = to / f"{package.name}_{version}_{package.architecture}.deb"
    words = ["dpkg-deb", "--root-owner-group", "-Zxz", "--build", str(stage), str(made)]
    subprocess.run(words, check=True, stdout=subprocess.DEVNULL, env={**os.environ, "SOURCE_DATE_EPOCH": str(date)})
    return made


def packages(top, to, version, date):
    """Makes the packages in the folder."""
    ran = subprocess.run([top / "tools/releasing/released", "all"], stdout=subprocess.PIPE, text=True, check=False)
    if ran.returncode:
        return 1
    folder = Path(ran.stdout.strip())
    said = dict(line.partition(" ")[::2] for line in (top / "release/SOURCE").read_text(encoding="utf-8").splitlines())
    lines = (folder / "bindings/c/symbols").read_text(encoding="utf-8").splitlines()
    soname, symbols = lines[0], [it.split() for it in lines[1:] if not it.startswith("#")]
    to.mkdir(parents=True, exist_ok=True)
    with tempfile.TemporaryDirectory() as room:
        whole = Path(room, "whole")
        make = ["make", "-s", "-C", folder, "install", f"DESTDIR={whole}", "PREFIX=/usr", f"LIBDIR=/{LIBRARIES}"]
        # Debian's zsh looks there.
        subprocess.run([*make, "ZSHDIR=/usr/share/zsh/vendor-completions"], check=True, stdout=subprocess.DEVNULL)
        # dpkg has a list of its own.
        (whole / "usr/share/squall/installed").unlink()
        notices = copyright_of((folder / "NOTICES").read_text(encoding="utf-8"))
        (whole / "usr/share/doc/squall/NOTICES").unlink()
        page = whole / "usr/share/man/man1/squall.1"
        add(whole, "usr/share/man/man1/squall.1.gz", gzip.compress(page.read_bytes(), 9, mtime=0))
        page.unlink()
        has_python = add_python(whole, version)
        others = [it for it in [*PAGES, *SHELLS] if (whole / it).is_dir()]
        redis = redis_package.packages(Package, folder, whole, version)
        for package in [*redis, *package_list(version, said["glibc"], soname, others, has_python)]:
            stage = Path(room, package.name)
            move(whole, stage, package.paths)
            add_documents(stage, package, notices, version, date)
            if package.section == "libs":
                add_of_library(stage, package, version, soname, symbols)
            elif package.section == "python":
                add_of_python(stage, package)
            elif package.name == redis_package.NAME:
                redis_package.add_to(folder, stage, notices)
            print(build(package, stage, to, version, date))
    return 0
