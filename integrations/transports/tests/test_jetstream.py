"""Frames in a stream of JetStream, which three servers keep."""

from __future__ import annotations

import time
import unittest
from itertools import count
from typing import ClassVar, List, Optional

from squall import frame
from squall_bus import BusError, Message, Node, TooLarge, open_bus
from squall_bus.bus import KeepingBus, Merged
from squall_bus.pieces import joined

from . import kept
from .kept import FRAMES
from .programs import OLD, plan, until
from .servers import NatsWith, Server, find, free_port

NAMES = count()

_SETTINGS = """
server_name: n%(port)d
listen: 127.0.0.1:%(port)d
jetstream { store_dir: "%(folder)s/store", max_file_store: 268435456 }
cluster { name: squall, listen: 127.0.0.1:%(peer)d, routes: [%(routes)s] }
"""


class Cluster(Server):
    """Three servers with JetStream. The second start does nothing, and one ends at a time."""

    def __init__(self) -> None:
        super().__init__()
        peers = [free_port() for _ in range(3)]
        routes = ", ".join(f"nats://127.0.0.1:{it}" for it in peers)
        self.members = [NatsWith("") for _ in peers]
        for it, peer in zip(self.members, peers):
            words = {"port": it.port, "peer": peer, "folder": it.folder, "routes": routes}
            (it.folder / "settings").write_text(_SETTINGS % words, "ascii")
        self._is_new = True
        #: What keeps tests apart.
        self.deployment = "squall"

    def words(self) -> List[str]:
        return []

    def url(self) -> str:
        hosts = ",".join(f"127.0.0.1:{it.port}" for it in self.members)
        return f"jetstream://{hosts}/{self.deployment}"

    def start(self) -> None:
        if self._is_new:
            self._is_new = False
            for it in self.members:
                it.start()

    def end(self, number: int = 9) -> None:
        self.members[0].end(number)

    def remove(self) -> None:
        for it in self.members:
            it.remove()
        super().remove()


class OnThree(kept.Kept):
    """Tests over three servers, with a stream of their own."""

    server: Cluster
    pause = 0.15
    may_choose = True

    def begin(self, cluster: Cluster) -> None:
        """Makes a stream."""
        self.server = cluster
        cluster.deployment = f"test{next(NAMES)}.a"
        self.url = cluster.url()
        # The servers have to find each other first. It is there at the second time.
        for _ in range(2):
            until("the stream is there", self.is_set_up)

    def is_set_up(self) -> bool:
        """Whether the servers have made the stream."""
        try:
            self.bus().setup()
        except BusError:
            return False
        return True


@unittest.skipUnless(find("nats-server"), "no nats-server")
class Killed(OnThree):
    """Servers are killed."""

    def setUp(self) -> None:
        cluster = Cluster()
        self.addCleanup(cluster.remove)
        cluster.start()
        self.begin(cluster)

    def test_a_course_goes_on_without_one_of_three(self) -> None:
        self.works_in_spite_of_mishaps()

    def test_what_was_taken_survives_each_server(self) -> None:
        """One after the other is killed and comes back, while a writer goes on."""
        writer, longest = self.node(), 0.0
        for at, it in enumerate(self.server.members[:2]):
            for data in FRAMES[20 * at : 20 * at + 10]:
                writer.tell(data)
            it.end()
            for data in FRAMES[20 * at + 10 : 20 * at + 20]:
                began = time.monotonic()
                writer.tell(data)
                longest = max(longest, time.monotonic() - began)
            it.start()
        late = self.node()
        until("all is there", lambda: late.turn(0.1) or late.router.board() == joined(FRAMES[:40]))
        print(f"measured: a report waited at most {longest:.1f} s for a leader")


@unittest.skipUnless(find("nats-server"), "no nats-server")
class JetStream(OnThree, kept.Merged):
    """All over the same three servers."""

    cluster: ClassVar[Cluster]

    @classmethod
    def setUpClass(cls) -> None:
        cls.cluster = Cluster()
        cls.addClassCleanup(cls.cluster.remove)
        cls.cluster.start()

    def setUp(self) -> None:
        self.begin(self.cluster)

    def test_nodes_of_core_nats_hear_and_are_kept(self) -> None:
        core = Node(open_bus(self.url.replace("jetstream://", "nats://")), plan(OLD))
        self.addCleanup(core.bus.close)
        core.turn(0.1)
        writer, reader = self.bus(), self.bus()
        writer.send(FRAMES[0])
        until("it hears", lambda: core.turn(0.1))
        core.tell(FRAMES[1])
        self.assertEqual(self.heard(reader, 2), FRAMES[:2])

    def test_what_is_not_sealed_is_passed_over(self) -> None:
        secrets = (b"a" * 16, b"a" * 16, b"b" * 16, None)
        one, same, other, plain = (self.sealed(it) for it in secrets)
        core = open_bus(self.url.replace("jetstream://", "nats://"), secret=b"a" * 16)
        self.addCleanup(core.close)
        core.connect()
        for stranger in (other, plain):
            stranger.send(FRAMES[0])
        for data in FRAMES[1:3]:
            one.send(data)
        self.assertEqual(self.heard(same, 2), FRAMES[1:3])
        self.assertEqual(self.heard(other, 1), FRAMES[:1])
        # Over core NATS it is no matter that the stream has answered the sender.
        self.assertEqual(self.heard(core, 2), FRAMES[1:3])
        # What others have sent goes with a merge, and nothing else.
        self.assertEqual(one.merge(), Merged(2, 0, 1))
        self.assertEqual(self.heard(self.sealed(b"a" * 16), 1), joined(FRAMES[1:3]))

    def sealed(self, secret: Optional[bytes]) -> KeepingBus:
        """A bus with that secret."""
        bus = open_bus(self.url, secret=secret)
        self.addCleanup(bus.close)
        assert isinstance(bus, KeepingBus)
        bus.connect()
        return bus

    def test_faults_are_named(self) -> None:
        bus = self.bus()
        with self.assertRaisesRegex(TooLarge, "takes 2097152 bytes"):
            bus.send(self.digest(2 << 20))
        bus.send(frame.opened(2, 0))
        other = open_bus(self.url.replace("/test", "/none"))
        self.addCleanup(other.close)
        other.connect()
        with self.assertRaisesRegex(BusError, "nobody answers|does not answer"):
            other.send(FRAMES[0])
        with self.assertRaisesRegex(BusError, "there is no stream"):
            other.hear(0.1)

    def digest(self, size: int) -> bytes:
        """What says of itself that it is a digest, and has so many bytes."""
        with self.node().router as router:
            return router.digest().ljust(size, b"\0")

    def test_messages_are_those_of_frames(self) -> None:
        reader, writer = self.bus(), self.bus()
        self.assertEqual(reader.hear(0.0), [])
        writer.send(FRAMES[0])
        until("it comes", lambda: bool(reader.hear(0.2) == [Message(FRAMES[0])]))
