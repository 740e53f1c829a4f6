"""Debian's package squall-redis, of what the release has in redis/."""
import gzip
import shutil
import sys
from pathlib import Path
from typing import Any

import redis_programs

NAME = "squall-redis"
UNITS = "usr/lib/systemd/system"
USERS = "usr/lib/sysusers.d"
PAGES = "usr/share/man/man1"
DOCUMENTS = f"usr/share/doc/{NAME}"
MORE = """This package has a proxy, a mover and a node for plain Redis servers, with
 units for systemd, and a load that checks them.\
"""
RELOAD = "if [ -d /run/systemd/system ]; then systemctl daemon-reload; fi"
# A proxy goes on with the old program until its operator starts it again.
SCRIPTS = {
    "postinst": f"""\
if [ "$1" = configure ]; then
  systemd-sysusers squall-redis.conf
  install -d -g squall-redis -m 750 /etc/squall-redis
fi
{RELOAD}
""",
    "prerm": """\
if [ "$1" = remove ] && [ -d /run/systemd/system ]; then
  systemctl stop 'squall-redis-proxy@*' 'squall-redis-node@*'
fi
""",
    "postrm": f"""\
if [ "$1" = purge ]; then
  rm -rf /etc/squall-redis /var/lib/squall-redis
  rm -f /etc/default/squall-redis-proxy-* /etc/default/squall-redis-node-*
  rm -f /etc/systemd/system/*.wants/squall-redis-proxy@*.service
  rm -f /etc/systemd/system/*.wants/squall-redis-node@*.service
  if getent passwd squall-redis > /dev/null; then userdel squall-redis; fi
fi
{RELOAD}
""",
}


def packages(kind: type, folder: Path, whole: Path, version: str) -> list[Any]:
    """The package, of that kind, whose files are put beside those of the others; none if the release has no redis/."""
    source = folder / "redis"
    if not source.is_dir():
        print(f"squall: no package {NAME}, since the release has no redis/", file=sys.stderr)
        return []
    copies = {source / it: f"usr/bin/{it}" for it in redis_programs.NAMES}
    copies |= {it: f"{UNITS}/{it.name}" for it in source.glob("systemd/*.service")}
    copies |= {it: f"{USERS}/{it.name}" for it in source.glob("systemd/*.conf")}
    copies |= {it: f"{DOCUMENTS}/examples/{it.name}" for it in [*source.glob("default/*"), *source.glob("monitoring/*")]}
    for file, name in copies.items():
        (whole / name).parent.mkdir(parents=True, exist_ok=True)
        shutil.copy(file, whole / name)
    pages = [f"{PAGES}/{it.name}.gz" for it in sorted(source.glob("man/*"))]
    for name in pages:
        (whole / name).parent.mkdir(parents=True, exist_ok=True)
        (whole / name).write_bytes(gzip.compress((source / "man" / Path(name).stem).read_bytes(), 9, mtime=0))
    page = (source / "README.md").read_text(encoding="utf-8").replace("](../", "](../squall/")
    (whole / DOCUMENTS / "README.md").write_text(page, encoding="utf-8")
    needs = [f"libc6 (>= {redis_programs.glibc(source)})", "libgcc-s1 (>= 4.2)", "libssl3 (>= 3.0.0) | libssl3t64"]
    needs += ["systemd-standalone-sysusers | systemd-sysusers"]
    fields = [f"Depends: {', '.join(needs)}", f"Recommends: squall (>= {version})", "Suggests: redis-server"]
    title = "proxy and mover of keys for Redis servers"
    programs = [f"usr/bin/{it}" for it in redis_programs.NAMES]
    return [kind(NAME, "database", title, MORE, [*programs, *pages, UNITS, USERS, DOCUMENTS], *fields)]


def add_to(folder: Path, stage: Path, notices: bytes) -> None:
    """The scripts of the package, and the notices of what is linked into its programs."""
    for name, text in SCRIPTS.items():
        (stage / "DEBIAN").mkdir(exist_ok=True)
        (stage / "DEBIAN" / name).write_text(f"#!/bin/sh\nset -e\n{text}", encoding="utf-8")
    own = (folder / "redis/NOTICES").read_bytes()
    (stage / DOCUMENTS / "copyright").write_bytes(notices + b"\n\n" + b"-" * 80 + b"\n\n" + own)
