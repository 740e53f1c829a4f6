"""Frames of squall over NATS, JetStream, PostgreSQL and etcd.

A `Bus` carries frames between programs. A `Node` is a router that hears a bus and tells it reports.
`open_bus` makes a bus of an address, as `nats://127.0.0.1:4222`.
"""

from .address import open_bus
from .bus import Bus, BusError, Message, TooLarge
from .node import Node
from .tls import Tls

__all__ = ["Bus", "BusError", "Message", "Node", "Tls", "TooLarge", "open_bus"]
