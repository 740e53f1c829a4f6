"""Servers of NATS, PostgreSQL and etcd on loopback, in a temporary folder."""

from __future__ import annotations

import json
import os
import pwd
import random
import shutil
import signal
import socket
import subprocess
import tempfile
import time
from contextlib import closing
from http.client import HTTPConnection
from pathlib import Path
from typing import Any, Dict, List, Optional, Set

#: How long a start or an answer may take: the machine may be busy with much else.
_PATIENCE = 60.0
#: A program that is started so is ended with the tests, however they end.
_WITH_US = ["setpriv", "--pdeathsig", "KILL"]


_GIVEN: Set[int] = set()


def free_port() -> int:
    """A port on which nobody listens now, and none that the system gives to clients.

    It is given once: a server may begin to listen only after the next port is asked for.
    """
    while True:
        port = random.randrange(20000, 32000)
        with closing(socket.socket()) as it:
            if _is_new(port) and it.connect_ex(("127.0.0.1", port)) != 0:
                return port


def _is_new(port: int) -> bool:
    """Whether no test was given it: here, or in a process that has the same SQUALL_PORTS."""
    folder = os.environ.get("SQUALL_PORTS")
    is_new = port not in _GIVEN
    _GIVEN.add(port)
    try:
        if folder is not None:
            Path(folder, str(port)).mkdir()
    except FileExistsError:
        return False
    return is_new


def find(name: str) -> Optional[str]:
    """Where the program is. Those of PostgreSQL are of one version, the newest."""
    folders = sorted(Path("/usr/lib/postgresql").glob("*/bin/postgres"), reverse=True)
    path = os.pathsep.join(
        [*(str(it.parent) for it in folders[:1]), os.environ["PATH"], "/usr/sbin"]
    )
    return shutil.which(name, path=path)


class Server:
    """A server that may be ended and started again, with its data."""

    #: Its program.
    name = ""

    def __init__(self) -> None:
        self.folder = Path(tempfile.mkdtemp(prefix="squall."))
        self.folder.chmod(0o711)
        self.port = free_port()
        self._process: Optional[subprocess.Popen[bytes]] = None

    def words(self) -> List[str]:
        """What follows the program's name."""
        raise NotImplementedError

    def url(self) -> str:
        """The address of a bus there."""
        raise NotImplementedError

    def start(self) -> None:
        """Starts it, and waits until it listens."""
        until = time.monotonic() + _PATIENCE
        process = self._begin()
        while not self._answers():
            has_ended = process.poll() is not None
            if time.monotonic() > until or (has_ended and not self._may_begin_again()):
                raise AssertionError(self._log())
            time.sleep(0.02)
            if has_ended:
                process = self._begin()

    def _begin(self) -> "subprocess.Popen[bytes]":
        program = find(self.name)
        assert program is not None
        with open(self.folder / "log", "ab") as log:
            self._process = subprocess.Popen(  # pylint: disable=consider-using-with
                [*self._before(), program, *self.words()],
                cwd=self.folder,
                stdout=log,
                stderr=log,
            )
        return self._process

    def _log(self) -> str:
        return (self.folder / "log").read_text("utf-8", "replace")[-2000:]

    def _may_begin_again(self) -> bool:
        """Whether it ended only because processes of the one before had not ended yet."""
        return False

    def _before(self) -> List[str]:
        return _WITH_US

    def _answers(self) -> bool:
        with closing(socket.socket()) as it:
            return it.connect_ex(("127.0.0.1", self.port)) == 0

    def end(self, number: int = signal.SIGKILL) -> None:
        """Ends it by a signal."""
        if self._process is not None:
            self._process.send_signal(number)
            self._process.wait()
            self._process = None

    def remove(self) -> None:
        """Ends it, and removes its folder."""
        self.end()
        shutil.rmtree(self.folder, ignore_errors=True)


class Nats(Server):
    """A NATS server, which keeps nothing."""

    name = "nats-server"

    def __init__(self, *words: str) -> None:
        super().__init__()
        self._more = words

    def words(self) -> List[str]:
        return ["-a", "127.0.0.1", "-p", str(self.port), *self._more]

    def url(self) -> str:
        return f"nats://127.0.0.1:{self.port}"


class NatsWith(Nats):
    """A NATS server with a file of settings."""

    def __init__(self, settings: str) -> None:
        super().__init__("-c", "settings")
        (self.folder / "settings").write_text(settings, "ascii")


class Postgres(Server):
    """A PostgreSQL server, which root starts as the user postgres."""

    name = "postgres"

    def __init__(self) -> None:
        super().__init__()
        data = self.folder / "data"
        data.mkdir(0o700)
        if os.geteuid() == 0:
            user = pwd.getpwnam("postgres")
            os.chown(data, user.pw_uid, user.pw_gid)
        initdb = find("initdb")
        assert initdb is not None
        words = ["-D", str(data), "-U", "squall", "-A", "trust", "-E", "UTF8", "--no-sync"]
        subprocess.run(
            [*self._before(), initdb, *words, "--locale", "C"],
            cwd=data,
            check=True,
            stdout=subprocess.DEVNULL,
        )

    def _before(self) -> List[str]:
        if os.geteuid() != 0:
            return _WITH_US
        return [*_WITH_US, "--reuid", "postgres", "--regid", "postgres", "--clear-groups"]

    def words(self) -> List[str]:
        return [
            *("-D", str(self.folder / "data")),
            *("-p", str(self.port), "-c", "listen_addresses=127.0.0.1"),
            *("-c", "unix_socket_directories="),
            *("-c", "shared_buffers=16MB", "-c", "fsync=off"),
        ]

    def url(self) -> str:
        return f"postgres://squall@127.0.0.1:{self.port}/postgres"

    def _may_begin_again(self) -> bool:
        return "pre-existing shared memory block" in self._log()

    def _answers(self) -> bool:
        ready = find("pg_isready")
        assert ready is not None
        # Without -t it takes a server for one that does not answer after three seconds.
        words = [ready, "-q", "-h", "127.0.0.1", "-p", str(self.port), "-t", f"{_PATIENCE:.0f}"]
        return subprocess.run(words, check=False).returncode == 0


class Etcd(Server):
    """An etcd server of its own."""

    name = "etcd"

    def __init__(self) -> None:
        super().__init__()
        #: Where other members of its cluster find it.
        self.peers = f"http://127.0.0.1:{free_port()}"
        #: All members.
        self.members = [self]

    def words(self) -> List[str]:
        here, peers = f"http://127.0.0.1:{self.port}", self.peers
        all_of_them = [f"{it.port}={it.peers}" for it in self.members]
        return [
            *("--name", str(self.port), "--initial-cluster", ",".join(all_of_them)),
            *("--heartbeat-interval", "50", "--election-timeout", "500"),
            *("--data-dir", str(self.folder / "data"), "--log-level", "error"),
            *("--listen-client-urls", here, "--advertise-client-urls", here),
            *("--listen-peer-urls", peers, "--initial-advertise-peer-urls", peers),
        ]

    def url(self) -> str:
        return f"etcd://127.0.0.1:{self.port}"

    def ask(self, path: str, body: Dict[str, str]) -> Dict[str, Any]:
        """What it answers to a request."""
        with closing(HTTPConnection("127.0.0.1", self.port, timeout=_PATIENCE)) as it:
            it.request("POST", f"/v3/{path}", json.dumps(body))
            answer: Dict[str, Any] = json.loads(it.getresponse().read())
        return answer

    def leads(self) -> bool:
        """Whether it is the leader of its cluster."""
        found = self.ask("maintenance/status", {})
        return bool(found.get("leader") == found["header"]["member_id"])
