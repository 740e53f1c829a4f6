"""Two partitions of one process. `bindings/c/examples/node` has processes with logs on disk.

Partition 1 gives the keys of root 2 in chunks, partition 3 loads them, and a client asks for a key
before, while and after it moves. Partition 3 keeps a list of its calls. At the end it is closed, as
if its process had died, and rebuilt from the list.
"""

from functools import partial
from typing import Callable, List

from squall import END, Course, NothingLeftError, Part, Plan, Rank, Reply, frame

OLD = Plan.of([(0, Rank(3, 0), 1), (Rank(3, 0), END, 3)])
NEW = Plan.of([(0, Rank(2, 0), 1), (Rank(2, 0), END, 3)])
#: The key for which the client asks.
KEY = Rank(2, 5)
#: The most keys of a chunk.
MOST = 1 << 30


def ask(source: Part, dest: Part) -> None:
    """Prints what the partitions reply to a client."""
    first = source.serve(KEY)
    words = f"1 says {first.reply.name.lower()}"
    if first.reply is Reply.MOVED and first.number is not None:
        second = dest.serve(KEY, first.number)
        words += f", {first.part} says {second.reply.name.lower()}"
    print(words)


def main() -> None:
    """Moves the keys, and rebuilds a partition."""
    course = Course(1, OLD, NEW)
    source, dest = Part(1, course), Part(3, course)
    opening = frame.opened(1, 0)
    calls: List[Callable[[Part], object]] = [partial(Part.hear, frame=opening)]
    source.hear(opening)
    dest.hear(opening)
    ask(source, dest)
    while True:
        try:
            chunk = source.give(MOST)
        except NothingLeftError:
            break
        ask(source, dest)
        if dest.load(chunk):
            calls.append(partial(Part.load, chunk=chunk))
    ask(source, dest)
    dest.close()
    dest = Part(3, course)
    for call in calls:
        call(dest)
    for span in dest.held():
        print("3 holds", span.lo.root, "up to", span.hi.root)
    dest.finish(0)
    print("3 has all")


if __name__ == "__main__":
    main()
