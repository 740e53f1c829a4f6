"""A leader, partitions and a router that send each other frames, until all keys have moved."""

import unittest
from functools import partial
from typing import Callable, Dict, List, Tuple

from squall import (
    END,
    Chunk,
    Leader,
    Next,
    NotDoneError,
    NothingDueError,
    NothingLeftError,
    Part,
    Plan,
    Rank,
    Router,
    frame,
)

from .worked import key

#: What partition 1 and 2 hold changes: the keys between 1:5 and 4:0 go to 2, and those of 4 to 1.
BEFORE = Plan.of([(0, key(4), 1), (key(4), END, 2)])
AFTER = Plan.of(
    [(0, Rank(1, 5), 1), (Rank(1, 5), key(4), 2), (key(4), key(5), 1), (key(5), END, 2)]
)

#: A call of a partition that is in its list.
Call = Callable[[Part], object]


class World:
    """A leader, partitions 1 and 2, and a router. Each partition has a list of its calls."""

    def __init__(self, old: Plan, new: Plan) -> None:
        # Course 1 is that of the router, in which nothing moves.
        self.leader = Leader(old, 1)
        self.leader.begin(new)
        self.course = self.leader.course()
        self.parts = {it: Part(it, self.course) for it in [1, 2]}
        self.calls: Dict[int, List[Call]] = {1: [], 2: []}
        # It knows the first plan alone, and hears of course 2.
        self.router = Router(1, old, old)

    def make(self, part: int, call: Call) -> object:
        """What a call of a partition answers. It is added to the list, unless it raises."""
        answer = call(self.parts[part])
        self.calls[part].append(call)
        return answer

    def send(self, frames: List[bytes]) -> None:
        """Lets all hear these frames."""
        for sent in frames:
            self.leader.hear(sent)
            self.router.hear(sent)
            for part in self.parts:
                self.make(part, partial(Part.hear, frame=sent))

    def load(self, chunk: Chunk) -> None:
        """Loads a chunk at its partition, twice."""
        self.make(chunk.dest, lambda it: it.load(chunk))
        assert self.parts[chunk.dest].load(chunk) is False
        self.send([frame.loaded(chunk.number, chunk.sub, chunk.dest, chunk.lo, chunk.hi)])

    def rebuild(self, part: int) -> None:
        """Ends a partition, as if its process had died, and rebuilds it from its list."""
        self.parts[part].close()
        self.parts[part] = Part(part, self.course)
        for call in self.calls[part]:
            call(self.parts[part])

    def find(self, rank: int) -> Tuple[Next, int]:
        """The last reply for a key, and the partition that gave it."""
        with self.router.errand(rank) as errand:
            following = Next.ASK
            while following is Next.ASK:
                answer = self.parts[errand.asked].serve(rank, errand.number)
                following = errand.heed(*answer)
            return following, errand.asked

    def gives(self, part: int, most: int) -> bool:
        """Whether the partition gave a chunk, which was loaded then."""
        try:
            chunk = self.make(part, lambda it: it.give(most))
        except NothingLeftError:
            return False
        assert isinstance(chunk, Chunk)
        self.load(chunk)
        return True

    def finish(self, part: int, sub: int) -> None:
        """Lets a partition report that it has all, if keys came to it."""
        try:
            self.make(part, lambda it: it.finish(sub))
        except NothingDueError:
            return
        self.send([frame.done(self.course.number, sub, part)])


class Moving(unittest.TestCase):
    """A whole course, as programs work it off."""

    def keys(self) -> List[Rank]:
        """Keys of both partitions, next to each bound."""
        bounds = [Rank(1, 5), key(4), key(5)]
        return [Rank.of(it) for it in [0] + [int(at) + by for at in bounds for by in (-1, 0)]]

    def test_a_whole_course(self) -> None:
        world = World(BEFORE, AFTER)
        self.assertEqual((world.course.number, world.router.number), (2, 1))
        opened = []
        while not world.leader.finished:
            opened.append(world.leader.open_next())
            world.send(world.leader.board())
            with self.assertRaises(NotDoneError) as raised:
                world.leader.open_next()
            self.assertEqual(raised.exception.sub, opened[-1])
            self.work_off(world, opened[-1])
        self.assertEqual(opened, list(range(world.course.subplans)))
        self.ended(world)

    def work_off(self, world: World, sub: int) -> None:
        """All chunks of a sub-plan. Partitions die now and then, and clients find keys."""
        while sum(world.gives(part, 1 << 31) for part in world.parts):
            world.rebuild(1)
            for rank in self.keys():
                self.assertIs(world.find(rank)[0], Next.SERVED)
            world.rebuild(2)
        for part in world.parts:
            world.finish(part, sub)

    def ended(self, world: World) -> None:
        """Looks whether each key is at its partition of the new plan."""
        legs = world.course.new_plan()
        for part in world.parts:
            wanted = [(it.lo, it.hi) for it in legs if it.part == part]
            self.assertEqual(world.parts[part].held(), wanted)
            world.rebuild(part)
            self.assertEqual(world.parts[part].held(), wanted)
        self.assertEqual(world.router.legs(0, END), legs)
        self.assertEqual(world.router.number, world.course.number)
        for rank in self.keys():
            place = world.router.view().place(rank)
            assert place is not None and place.is_settled
            self.assertEqual(world.find(rank), (Next.SERVED, place.part))
        self.assertEqual(world.router.board(), world.leader.board())

    def test_a_chunk_that_is_on_its_way(self) -> None:
        world = World(BEFORE, AFTER)
        world.leader.open_next()
        world.send(world.leader.board())
        chunk = world.make(1, lambda it: it.give_at(Rank(1, 7)))
        assert isinstance(chunk, Chunk)
        self.assertEqual(world.find(Rank(1, 7)), (Next.AGAIN, 2))
        world.load(chunk)
        self.assertEqual(world.find(Rank(1, 7)), (Next.SERVED, 2))
        self.assertEqual(world.router.route(Rank(1, 7)), 2)

    def test_frames_that_were_lost(self) -> None:
        world = World(BEFORE, AFTER)
        world.leader.open_next()
        part = world.parts[1]
        world.leader.hear(part.digest())
        for sent in world.leader.repair():
            part.hear(sent)
        self.assertEqual(part.board(), world.leader.board())
        self.assertEqual(part.give(1).lo, Rank(1, 5))


if __name__ == "__main__":
    unittest.main()
