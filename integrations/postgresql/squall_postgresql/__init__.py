"""Servers of PostgreSQL as partitions.

A `Client` does statements at the partition that has their key, by `Routes` that threads share. A
`Mover` does a course: it moves rows from server to server while clients go on.
"""

from .client import AwayError, Client, UnknownError
from .errors import BusyError, LostError, StepError
from .feeder import Job
from .mover import Mover
from .pace import Pace
from .partition import Partition
from .reports import Reports
from .routes import Routes

__all__ = [
    "AwayError",
    "BusyError",
    "Client",
    "Job",
    "LostError",
    "Mover",
    "Pace",
    "Partition",
    "Reports",
    "Routes",
    "StepError",
    "UnknownError",
]
