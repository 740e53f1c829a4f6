"""A routing proxy in small: says for each key which partition to ask, and hears frames from others.

    proxy.py OLD NEW

OLD and NEW are files with the text of a plan. Each line of standard input is answered by one:

    key R:S      the partition to ask for the key
    frame HEX    its bytes, two digits each: `taken`, or `fault N` with the library's status if the
                 bytes are no frame
"""

import re
import sys
from pathlib import Path

from squall import FrameError, NumberError, PlanError, Rank, Router, StreamError


def answer_key(router: Router, word: str) -> str:
    """The partition to ask."""
    try:
        part = router.route(Rank.parse(word))
    except NumberError:
        part = None
    return "no key" if part is None else str(part)


def answer_frame(router: Router, word: str) -> str:
    """Whether the bytes of a stream were taken. They may end within a frame."""
    digits = re.match("(?:[0-9a-f]{2})*", word)
    try:
        router.feed(bytes.fromhex(digits[0] if digits else ""))
    except (FrameError, StreamError) as error:
        return f"fault {error.status}"
    return "taken"


def answer(router: Router, line: str) -> str:
    """The answer to a line."""
    name, _, word = line.rstrip("\n").partition(" ")
    if name == "key":
        return answer_key(router, word)
    if name == "frame":
        return answer_frame(router, word)
    return "no such line"


def main() -> int:
    """The status of the program."""
    if len(sys.argv) != 3:
        print("usage: proxy.py OLD NEW", file=sys.stderr)
        return 2
    try:
        old, new = (Path(it).read_bytes() for it in sys.argv[1:])
    except OSError as error:
        print(f"proxy.py: {error}", file=sys.stderr)
        return 2
    try:
        router = Router(1, old, new)
    except PlanError as error:
        print(f"no router: {error}", file=sys.stderr)
        return 1
    with router:
        for line in sys.stdin:
            print(answer(router, line), flush=True)
    return 0


if __name__ == "__main__":
    sys.exit(main())
