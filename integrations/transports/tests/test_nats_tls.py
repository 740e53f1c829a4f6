"""Frames over NATS servers with TLS."""

from __future__ import annotations

import shutil
import tempfile
import unittest
from pathlib import Path
from typing import ClassVar

from squall import Rank, Router, frame
from squall_bus import BusError, Message, Tls, open_bus
from squall_bus.bus import Bus
from squall_bus.pieces import ANY

from .certificates import Certificate, authority
from .programs import heard
from .servers import Nats, NatsWith, find


@unittest.skipUnless(find("nats-server") and find("openssl"), "no nats-server or openssl")
class Secure(unittest.TestCase):
    """Each test has a server of its own, and all have the same certificates."""

    folder: ClassVar[Path]
    #: An authority that nodes trust, and what it has signed for servers and nodes.
    known: ClassVar[Certificate]
    served: ClassVar[Certificate]
    own: ClassVar[Certificate]
    #: Another authority, and one of its certificates.
    foreign: ClassVar[Certificate]
    stranger: ClassVar[Certificate]

    @classmethod
    def setUpClass(cls) -> None:
        cls.folder = Path(tempfile.mkdtemp(prefix="squall."))
        cls.addClassCleanup(shutil.rmtree, cls.folder)
        cls.known = authority(cls.folder, "known")
        cls.served = cls.known.sign("server", "IP:127.0.0.1")
        cls.own = cls.known.sign("own", "DNS:own")
        cls.foreign = authority(cls.folder, "foreign")
        cls.stranger = cls.foreign.sign("stranger", "DNS:stranger")

    def serve(self, server: Nats) -> Nats:
        """Starts it."""
        self.addCleanup(server.remove)
        server.start()
        return server

    def secure(self, *words: str) -> Nats:
        """A server with TLS."""
        files = ["--tlscert", str(self.served.path), "--tlskey", str(self.served.key)]
        return self.serve(Nats("-D", "-V", "--tls", *files, *words))

    def verifying(self) -> Nats:
        """One that asks for certificates."""
        return self.secure("--tlsverify", "--tlscacert", str(self.known.path))

    def bus(self, url: str, tls: Tls) -> Bus:
        """One that is connected."""
        bus = open_bus(url, tls=tls)
        self.addCleanup(bus.close)
        bus.connect()
        return bus

    def refused(self, why: str, url: str, tls: Tls) -> None:
        """Nobody connects so."""
        bus = open_bus(url, tls=tls)
        self.addCleanup(bus.close)
        with self.assertRaisesRegex(BusError, why):
            bus.connect()

    def said(self, server: Nats) -> str:
        """What a server has written, with all that it heard."""
        return (server.folder / "log").read_text("utf-8")

    def is_heard(self, data: bytes, one: Bus, other: Bus) -> None:
        """What one sends comes to the other."""
        one.send(data)
        self.assertEqual(heard(lambda: other.hear(0.1)), [Message(data)])

    def test_frames_arrive(self) -> None:
        server, tls = self.secure(), Tls(ca=self.known.path)
        url = server.url()
        one, two = self.bus(url.replace("nats:", "tls:"), tls), self.bus(url, tls)
        self.is_heard(frame.done(2, 0, 3), one, two)
        self.is_heard(frame.opened(2, 0), two, one)
        # It goes in many records of TLS.
        with Router(1, ANY, ANY) as router:
            for at in range(10_000):
                router.loaded(2, 0, 3, Rank(at, 0), Rank(at, 1))
            (board,) = router.board()
        self.assertGreater(len(board), 100_000)
        self.is_heard(board, one, two)
        self.is_heard(frame.done(2, 0, 3), one, two)
        said = self.said(server)
        self.assertEqual(said.count("TLS handshake complete"), 2)
        self.assertEqual(said.count("CONNECT"), 2)

    def test_the_system_trusts_no_authority_of_a_test(self) -> None:
        server = self.secure()
        why = f"127.0.0.1:{server.port}: TLS: the certificate is refused: unable to get local"
        self.refused(why, server.url(), Tls())
        self.refused(why, server.url(), Tls(ca=self.foreign.path))
        self.assertNotIn("CONNECT", self.said(server))

    def test_a_certificate_has_to_name_the_host(self) -> None:
        server, tls = self.secure(), Tls(ca=self.known.path)
        why = "the certificate is refused: Hostname mismatch.*'localhost'"
        self.refused(why, f"tls://localhost:{server.port}", tls)
        self.assertNotIn("CONNECT", self.said(server))

    def test_a_server_asks_for_certificates(self) -> None:
        server, tls = self.verifying(), Tls(ca=self.known.path)
        self.refused("asks for a certificate, and none is given", server.url(), tls)
        stranger = tls._replace(cert=self.stranger.path, key=self.stranger.key)
        # The alert may be overtaken by the end of the connection.
        self.refused("bad certificate|unknown ca|reset|Broken pipe|ended", server.url(), stranger)
        self.assertNotIn("CONNECT", self.said(server))
        known = tls._replace(cert=self.own.path, key=self.own.key)
        one, two = (self.bus(server.url(), known) for _ in range(2))
        self.is_heard(frame.opened(2, 0), one, two)

    def test_a_server_without_tls_gets_no_word(self) -> None:
        server = self.serve(Nats("-D", "-V"))
        url = server.url()
        for it, tls in ((url.replace("nats:", "tls:"), Tls()), (url, Tls(is_wanted=True))):
            self.refused("the server has no TLS, and nothing is sent", it, tls)
        jetstream = url.replace("nats:", "jetstream:")
        self.refused("the server has no TLS, and nothing is sent", jetstream, Tls(is_wanted=True))
        self.assertNotIn("CONNECT", self.said(server))
        self.bus(url, Tls())
        self.assertIn("CONNECT", self.said(server))

    def settings(self, more: str, verify: str = "") -> str:
        """Those of a server with TLS."""
        files = f'cert_file: "{self.served.path}", key_file: "{self.served.key}"'
        return f"debug: true\ntls {{ {files} {verify} }}\n{more}\n"

    def test_a_certificate_is_a_login(self) -> None:
        verify = f', ca_file: "{self.known.path}", verify_and_map: true'
        users = 'authorization {{ users: [ {{ user: "{}" }} ] }}'
        tls = Tls(True, self.known.path, self.own.path, self.own.key)
        server = self.serve(NatsWith(self.settings(users.format("own"), verify)))
        one, two = (self.bus(server.url(), tls) for _ in range(2))
        self.is_heard(frame.opened(2, 0), one, two)
        other = self.serve(NatsWith(self.settings(users.format("other"), verify)))
        self.refused("Authorization Violation", other.url(), tls)

    def test_a_server_may_take_both(self) -> None:
        server = self.serve(NatsWith(self.settings("allow_non_tls: true")))
        url, tls = server.url(), Tls(ca=self.known.path)
        one = self.bus(url, tls)
        self.assertEqual(self.said(server).count("TLS handshake complete"), 0)
        two = self.bus(url.replace("nats:", "tls:"), tls)
        self.assertEqual(self.said(server).count("TLS handshake complete"), 1)
        self.is_heard(frame.opened(2, 0), one, two)

    def test_a_stream_keeps_frames(self) -> None:
        server = NatsWith("")
        more = f'jetstream {{ store_dir: "{server.folder}/store" }}\nauthorization {{ token: t }}'
        (server.folder / "settings").write_text(self.settings(more), "ascii")
        self.serve(server)
        url, tls = f"jetstream://t@127.0.0.1:{server.port}", Tls(True, self.known.path)
        one, two = self.bus(url, tls), self.bus(url, tls)
        one.setup()  # type: ignore[attr-defined]
        self.is_heard(frame.opened(2, 0), one, two)

    def test_wrong_words_are_named(self) -> None:
        absent, bad = self.folder / "absent", self.folder / "bad"
        bad.write_text("nothing", "ascii")
        for tls, why in (
            (Tls(ca=absent), "absent: No such file"),
            (Tls(ca=bad), "bad: .*certificate"),
            (Tls(cert=bad, key=self.own.key), "bad, .*own.key: "),
            (Tls(cert=self.own.path, key=self.stranger.key), "stranger.key: .*mismatch"),
            (Tls(cert=self.own.path), "needs its key"),
        ):
            with self.assertRaisesRegex(ValueError, why):
                open_bus("nats://127.0.0.1", tls=tls)
        for url in ("etcd://127.0.0.1", "postgres://127.0.0.1/x"):
            with self.assertRaisesRegex(ValueError, "for nats://, tls:// and jetstream://"):
                open_bus(url, tls=Tls(True))
