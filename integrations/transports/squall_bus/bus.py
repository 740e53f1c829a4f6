"""What each bus does."""

from __future__ import annotations

from abc import ABC, abstractmethod
from typing import List, NamedTuple, Optional


class BusError(Exception):
    """The server can't be reached, has ended the connection, or says that it can't do this."""


class TooLarge(Exception):
    """The bus takes no message of this length, and the frame can't be cut."""


class Message(NamedTuple):
    """What came from the bus."""

    #: One whole frame, if the sender kept the rules.
    frame: bytes
    #: Where a repair has to go, if the frame is a digest.
    reply: Optional[str] = None
    #: Whether the frame is of a repair, which answers a digest of this node.
    mends: bool = False


class Bus(ABC):
    """Carries frames between nodes. One thread uses it."""

    #: Whether frames may be lost, and nodes have to compare digests.
    loses = False

    #: Up to where the bus was read. 0 is its beginning. A bus that keeps nothing leaves it at 0.
    place: int = 0

    @abstractmethod
    def connect(self) -> None:
        """Connects, if it is not connected. Raises `BusError`."""

    @abstractmethod
    def close(self) -> None:
        """Ends the connection, if there is one. `connect` may begin another one."""

    @abstractmethod
    def send(self, frame: bytes) -> None:
        """Sends reports to all nodes. To send them again changes nothing.

        Raises `BusError`, after which it is not known whether they were sent, and `TooLarge`.
        """

    @abstractmethod
    def hear(self, seconds: float) -> List[Message]:
        """What has come. If nothing has, it waits for at most this time. Raises `BusError`."""

    def ask(self, digest: bytes) -> None:
        """Shows another node a digest, so that it answers what the digest lacks.

        Does nothing if the bus loses nothing. Raises `BusError` and `TooLarge`.
        """

    def answer(self, reply: str, frame: bytes) -> None:
        """Sends a frame of a repair to the node that asked. Raises `BusError` and `TooLarge`."""


class Merged(NamedTuple):
    """What `merge` did."""

    #: How many frames there were, and how many of them were no frames of reports.
    before: int
    bad: int
    #: How many there are now.
    after: int


class KeepingBus(Bus):
    """A bus of which the server keeps all frames."""

    def setup(self) -> None:
        """Makes what the bus needs at the server, if it is not there. Raises `BusError`."""

    @abstractmethod
    def merge(self) -> Merged:
        """Puts the frames of one board into the place of all frames. The bus is connected.

        Messages that are no frames are left out. Raises `BusError`.
        """
