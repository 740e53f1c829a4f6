"""Certificates, which the program openssl makes."""

from __future__ import annotations

import subprocess
from pathlib import Path
from typing import List, NamedTuple, Optional


class Certificate(NamedTuple):
    """Its file, and that of its key."""

    path: Path
    key: Path

    def sign(self, name: str, names: str) -> Certificate:
        """One of that name that this one has signed. It is good for what `names` says."""
        return _make(self.path.parent, name, f"subjectAltName={names}", self)


def authority(folder: Path, name: str) -> Certificate:
    """One that signs others."""
    return _make(folder, name, "basicConstraints=critical,CA:true", None)


def _make(folder: Path, name: str, good_for: str, signer: Optional[Certificate]) -> Certificate:
    made = Certificate(folder / f"{name}.pem", folder / f"{name}.key")
    # Python asks from 3.13 on what the key of an authority is for, and OpenSSL makes one by default.
    signed: List[str] = ["-addext", "keyUsage=critical,keyCertSign"]
    if signer is not None:
        signed = ["-CA", str(signer.path), "-CAkey", str(signer.key)]
        signed += ["-addext", "basicConstraints=critical,CA:false"]
    kind = ["-newkey", "ec", "-pkeyopt", "ec_paramgen_curve:prime256v1", "-nodes", "-days", "2"]
    about = ["-subj", f"/CN={name}", "-addext", good_for]
    files = ["-keyout", str(made.key), "-out", str(made.path)]
    words = ["openssl", "req", "-x509", *kind, *about, *signed, *files]
    subprocess.run(words, check=True, capture_output=True)
    return made
