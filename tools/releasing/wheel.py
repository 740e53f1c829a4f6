"""The wheel of the package for Python: a file for pip that needs no index, with the shared library in it.

Its members are stored as they are, so its bytes depend on no version of zlib. The archive of the release holds the same
files beside it, and packs them once.
"""
import ast
import base64
import hashlib
import re
import zipfile
from datetime import datetime, timezone

import documents

# The lines `name = value` of pyproject.toml, whose values are those of Python too. A list goes on to its last line.
FIELD = re.compile(r"^([\w-]+) = (\[\n.*?^\]|[^\n]+)$", re.MULTILINE | re.DOTALL)


def project(text):
    """The table [project] of pyproject.toml."""
    table = re.search(r"^\[project\]\n(.*?)(?=^\[|\Z)", text, re.MULTILINE | re.DOTALL)[1]
    return {name: ast.literal_eval(value) for name, value in FIELD.findall(table)}


def metadata(about, version, page):
    """The text of METADATA, with the page of the package as its description."""
    lines = ["Metadata-Version: 2.1", f"Name: {about['name']}", f"Version: {version}"]
    lines += [f"Summary: {about['description']}", "License-File: NOTICES"]
    lines += [f"Classifier: {it}" for it in about["classifiers"]]
    lines += [f"Requires-Python: {about['requires-python']}", "Description-Content-Type: text/markdown"]
    return "\n".join(lines) + "\n\n" + documents.plain(page)


def members(stage, version, tag):
    """What the wheel holds but for the list of it: the bytes of each file, by its name."""
    folder, info = stage / "bindings/python", f"squall-{version}.dist-info"
    library = (stage / "libsquall.so").resolve()
    about = project((folder / "pyproject.toml").read_text(encoding="utf-8"))
    page = (folder / about["readme"]).read_text(encoding="utf-8")
    found = {f"squall/{it.name}": it.read_bytes() for it in [*(folder / "squall").iterdir(), library] if it.is_file()}
    found[f"{info}/METADATA"] = metadata(about, version, page).encode()
    found[f"{info}/NOTICES"] = (stage / "NOTICES").read_bytes()
    made_by = f"Wheel-Version: 1.0\nGenerator: squall {version}\nRoot-Is-Purelib: false\nTag: {tag}\n"
    found[f"{info}/WHEEL"] = made_by.encode()
    return found, f"{info}/RECORD"


def record(files, name):
    """The text of RECORD: the SHA-256 and the size of each file."""
    sums = {it: base64.urlsafe_b64encode(hashlib.sha256(data).digest()).rstrip(b"=").decode() for it, data in files.items()}
    lines = [f"{it},sha256={sums[it]},{len(files[it])}" for it in sorted(files)]
    return "\n".join([*lines, f"{name},,"]) + "\n"


def write(stage, version, glibc, date):
    """Makes the wheel of the files of a release in its folder python/: where it lies."""
    tag = f"py3-none-manylinux_{glibc.replace('.', '_')}_x86_64"
    files, name = members(stage, version, tag)
    when = datetime.fromtimestamp(date, timezone.utc).timetuple()[:6]
    made = stage / f"python/squall-{version}-{tag}.whl"
    made.parent.mkdir(exist_ok=True)
    with zipfile.ZipFile(made, "w", zipfile.ZIP_STORED) as out:
        # RECORD comes last.
        for it, data in [*sorted(files.items()), (name, record(files, name).encode())]:
            entry = zipfile.ZipInfo(it, when)
            entry.create_system, entry.external_attr = 3, 0o100644 << 16
            out.writestr(entry, data)
    return made
