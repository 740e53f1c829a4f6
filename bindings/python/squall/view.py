"""Views."""

from __future__ import annotations

from array import array
from functools import partial
from sys import byteorder
from typing import TYPE_CHECKING, Callable, List, Optional, TypeVar

from . import _library as lib
from ._buffers import numbers
from ._fork import REFUSED, refuse
from ._room import PlaceRecord, SpanRecord, ViewRoom
from ._routes import Routes
from ._status import check
from .course import Place, places_of
from .errors import ClosedError
from .keys import END, Rank, Span, rank

if TYPE_CHECKING:
    from ._buffers import ReadableArray, WritableArray

T = TypeVar("T")

#: How many keys are routed in one call. What a batch needs beside its answers stays small.
_AT_ONCE = 1 << 16
#: How many spans one call of C gives.
_SPANS = 256


class View(Routes):
    """What a router said at one moment. It stays the same, whatever the router takes later.

    `Router.view` opens one. Threads may share a view: its calls do not wait for each other.
    """

    # A view that only `clone` calls, with the lock: that call needs a view alone. All other calls
    # only read the room, and any number of them may do so at once.
    __slots__ = ("_spare",)

    _spare: Optional[ViewRoom]

    _kind = ViewRoom
    _call_status = lib.view_status
    _call_route = lib.view_route
    _call_legs = lib.view_legs
    _call_number = lib.view_number
    _call_errand = lib.errand_start_at

    def __new__(cls, *_args: object, **_names: object) -> View:
        self = super().__new__(cls)
        self._spare = None
        return self

    def __init__(self) -> None:
        raise TypeError("Router.view opens views")

    def _prepare(self) -> None:
        spare = ViewRoom.make()
        self._ask(lib.view_again, spare)
        spare.is_open = True
        check(lib.view_status(spare))
        self._spare = spare

    def _ask(self, call: Callable[..., T], *args: object) -> T:
        """What a call answers that only reads. It keeps the room, also if `close` is called."""
        if REFUSED:
            refuse()
        room = self._room
        if room is None:
            raise ClosedError("this View is closed")
        return call(room, *args)

    def clone(self) -> View:
        """One more view of the same, which is closed by itself. No table is copied.

        Raises `NoMemory` if a table has more views than can be counted, and `ClosedError`.
        """
        if REFUSED:
            refuse()
        with self._lock:
            spare = self._spare
            if spare is None:
                raise ClosedError("this View is closed")
            return View._opened(partial(lib.view_again, spare))

    def changes(self, after: View, lo: int = 0, hi: int = END) -> List[Span]:
        """The spans of the keys for which this view and a later one have different routes.

        They come by rising key, each as long as can be, and have only keys from `lo` on, below
        `hi`. There are none if `lo` is not below `hi`. A bound above `END` is as good as `END`.

        >>> before = Router(1, old, new).view()
        >>> for span in before.changes(Router(1, new, new).view()): print(span)
        [0:0,5:0)

        Other threads run meanwhile. Raises `NumberError` if a rank has no 64 bits, and
        `ClosedError`.
        """
        bounds = rank(lo), rank(hi)
        if after is self:
            # The library takes two handles, and a view does not differ from itself.
            return self._ask(lambda _room: [])
        records = self._ask(lambda room: after._ask(partial(_changes, room), *bounds))
        new = int.__new__
        return [Span(new(Rank, it.lo), new(Rank, it.hi)) for it in records]

    def close(self) -> None:
        """Frees the memory, once the calls of other threads that run have returned.

        Each later call but `close` and `closed` raises `ClosedError`. To close it twice is no
        error. What is not closed is closed by the garbage collector.
        """
        super().close()
        self._spare = None

    def routes(self, keys: ReadableArray) -> array[int]:
        """The partitions to ask for many keys: an array of as many unsigned 32-bit numbers.

        `keys` is an array of one dimension with unsigned 64-bit numbers, the ranks: an
        `array('Q')`, an array of NumPy with `dtype=numpy.uint64`, or any other with a buffer.
        `NOWHERE` is the answer for a rank that is no key's. Other threads run meanwhile.

        >>> view.routes(array("Q", [Rank(2, 7), END]))
        array('I', [1, 4294967295])

        Raises `TypeError` if `keys` is no such array, `BufferError` if its numbers do not follow
        each other in memory, and `ClosedError`.
        """
        with numbers(keys, "keys", "QL", 8) as ranks:
            return self._each(lib.view_routes, 1, ranks)

    def routes_into(self, keys: ReadableArray, out: WritableArray) -> int:
        """Writes the partitions to ask for many keys into an array, and says how many it wrote.

        They are what `routes` answers, from the beginning of `out` on, as many as it has room for.
        `out` is a writable array of one dimension with unsigned 32-bit numbers: an `array('I')`,
        or one of NumPy with `dtype=numpy.uint32`.

        Raises what `routes` raises, also for `out`, and `TypeError` if `out` can't be written.
        """
        return self._each_into(lib.view_routes, 1, keys, out)

    def place(self, key: int) -> Optional[Place]:
        """Where a key stands, or None if the rank is no key's.

        A key that is settled stays at its partition until another course begins. So it can be sent
        there, and the partition need not be asked whether it still has the key.

        >>> place = Router(1, old, new).view().place(Rank(2, 7))
        >>> place
        Place(part=1, source=1, dest=3, sub=0)
        >>> place.is_settled
        False

        Raises `NumberError` if the rank has no 64 bits, and `ClosedError`.
        """
        found = PlaceRecord()
        self._ask(lib.view_place, rank(key).to_bytes(8, byteorder), 1, found, 1)
        return places_of(found)[0]

    def locate(self, keys: ReadableArray) -> List[Optional[Place]]:
        """Where many keys stand: of each what `place` says.

        Takes what `routes` takes, and raises what that raises. Other threads run meanwhile.

        >>> view.locate(array("Q", [Rank(5, 0), END]))
        [Place(part=2, source=2, dest=2, sub=None), None]
        """
        with numbers(keys, "keys", "QL", 8) as ranks:
            return places_of(self._each(lib.view_locate, 4, ranks))

    def locate_into(self, keys: ReadableArray, out: WritableArray) -> int:
        """Writes where many keys stand into an array, and says of how many keys it wrote it.

        For each key there are four numbers: the partition to ask, that in the old plan, that in
        the new plan, and the sub-plan in which the key moves. The last is `NOWHERE` if the key
        does not move, and all four are for a rank that is no key's. A key is settled if the first
        number is the third one.

        They are written from the beginning of `out` on, for as many keys as it has room for. `out`
        is an array as for `routes_into`. Raises what that raises.
        """
        return self._each_into(lib.view_locate, 4, keys, out)

    def _each(self, call: Callable[..., int], size: int, ranks: memoryview) -> array[int]:
        """What the call answers for each rank, in `size` numbers."""
        # For no keys too, so that a closed view raises.
        self._ask(lib.view_status)
        answers = array("I", (0,)) * (size * len(ranks))
        at, _ = answers.buffer_info()
        for begin in range(0, len(ranks), _AT_ONCE):
            # The library gets a copy: another thread may change the array.
            end = min(begin + _AT_ONCE, len(ranks))
            some = ranks[begin:end].tobytes()
            self._ask(call, some, end - begin, at + 4 * size * begin, end - begin)
        return answers

    def _each_into(
        self, call: Callable[..., int], size: int, keys: ReadableArray, out: WritableArray
    ) -> int:
        with numbers(keys, "keys", "QL", 8) as ranks, numbers(out, "out", "IL", 4) as room:
            if room.readonly:
                raise TypeError("out can't be written")
            count = min(len(ranks), len(room) // size)
            with ranks[:count] as wanted, room.cast("B") as place:
                place[: 4 * size * count] = memoryview(self._each(call, size, wanted)).cast("B")
        return count


def _changes(before: ViewRoom, after: ViewRoom, lo: int, hi: int) -> List[SpanRecord]:
    """All spans of the changes between two views, block by block."""
    found: List[SpanRecord] = []
    while True:
        block = (SpanRecord * _SPANS)()
        count = lib.view_changes(before, after, lo, hi, block, _SPANS)
        found += block[:count]
        if count < _SPANS:
            return found
        lo = found[-1].hi
