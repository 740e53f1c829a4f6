"""A load that knows each right answer: `python3 -m checks.load` runs it as a program."""

from __future__ import annotations

import argparse
import json
import random
import sys
import threading
import time
from functools import partial
from pathlib import Path
from typing import Any, Callable, Dict, List, NamedTuple, Optional, Tuple, TypeVar

import psycopg2

from squall import Plan, Rank
from squall_bus import open_bus
from squall_postgresql import AwayError, Client, Routes, UnknownError

from .history import State, all_of, any_statement, count_slowly, counted

#: Keys whose count all threads raise.
_SHARED = 10
_ROOTS = 1000
#: How long a partition may be away.
_PATIENCE = 120.0

T = TypeVar("T")


class Loose(NamedTuple):
    """A key of which it is not known what was done: it holds one of these in the end."""

    key: Rank
    states: Tuple[State, ...]


class Tally:
    """What all threads have counted."""

    def __init__(self) -> None:
        self._lock = threading.Lock()
        self.counts: Dict[str, int] = dict.fromkeys(
            ("statements", "refusals", "away", "unknown", "wrong", "lost"), 0
        )
        #: What the shared keys have answered, and how often it is not known.
        self.shared: Dict[Rank, List[int]] = {}
        self.unknown: Dict[Rank, int] = {}

    def add(self, name: str, count: int = 1) -> None:
        """Counts."""
        with self._lock:
            self.counts[name] += count

    def fault(self, name: str, said: str) -> None:
        """Counts a fault, and shows the first ones."""
        self.add(name)
        if self.counts[name] <= 10:
            print(f"{name}: {said}"[:300], file=sys.stderr, flush=True)

    def text(self) -> str:
        """All of it, for another process."""
        with self._lock:
            shared, unknown = _plain(self.shared), _plain(self.unknown)
            return json.dumps({"counts": self.counts, "shared": shared, "unknown": unknown})

    @classmethod
    def read(cls, text: str) -> "Tally":
        """What a process has counted."""
        found, it = json.loads(text), cls()
        it.counts = found["counts"]
        it.shared = {Rank.of(int(key)): answers for key, answers in found["shared"].items()}
        it.unknown = {Rank.of(int(key)): count for key, count in found["unknown"].items()}
        return it

    def share(self, key: Rank, answer: Optional[int]) -> None:
        """What a shared key has answered, or that it is not known."""
        with self._lock:
            if answer is None:
                self.unknown[key] = self.unknown.get(key, 0) + 1
            else:
                self.shared.setdefault(key, []).append(answer)


class Session(threading.Thread):
    """One thread, with keys of its own and some that all share."""

    #: How many of its statements are a transaction that takes a while.
    slow = 0.03

    def __init__(self, own: int, client: Client, tally: Tally, goes_on: Callable[[], bool]) -> None:
        super().__init__(daemon=True)
        self._own = own
        self._client = client
        self._tally = tally
        self._goes_on = goes_on
        self._dice = random.Random(own)
        self._turn = 0
        self._states = {self._key(): State() for _ in range(60)}
        self._loose: List[Loose] = []

    def _key(self) -> Rank:
        """A key that no other thread has."""
        self._turn += 1
        return Rank(self._dice.randrange(_ROOTS), 100 + self._own * 1_000_000 + self._turn)

    def run(self) -> None:
        while self._goes_on():
            if self._dice.random() < 0.05:
                self._share()
            else:
                key = self._dice.choice(list(self._states))
                self._state(key)
            self._tally.add("statements")
        for key, state in self._states.items():
            self._verify(Loose(key, (state,)))
        for it in self._loose:
            self._verify(it)
        self._tally.add("refusals", self._client.refusals)
        self._client.close()

    def _state(self, key: Rank) -> None:
        """Does a statement, and judges its answer."""
        state = self._states[key]
        if self._dice.random() < self.slow:
            after = counted(state)
            seconds = self._dice.uniform(0, 0.02)
            self._judge(key, [after.note], after, lambda: count_slowly(self._client, key, seconds))
        else:
            it = any_statement(self._dice, state, key)
            self._judge(key, it.answer, it.after, partial(self._client.execute, key, *it[:3]))

    def _judge(
        self, key: Rank, answer: object, after: State, act: Callable[[], List[Tuple[Any, ...]]]
    ) -> None:
        state = self._states[key]
        try:
            found = sorted(act())
        except AwayError:
            self._tally.add("away")
        except UnknownError:
            # It may still be done, so that key is left alone.
            self._tally.add("unknown")
            self._give_up(key, (state, after))
        except psycopg2.Error as error:
            self._tally.fault("wrong", f"{key}: {error}")
            self._give_up(key, (state, after))
        else:
            self._states[key] = after
            if found != answer:
                self._tally.fault("wrong", f"{key}: {found}, and not {answer}")
                # A count that is wrong once would be wrong for ever.
                del self._states[key]
                self._states[self._key()] = State()

    def _give_up(self, key: Rank, states: Tuple[State, ...]) -> None:
        del self._states[key]
        self._loose.append(Loose(key, states))
        self._states[self._key()] = State()

    def _share(self) -> None:
        key = shared_key(self._dice.randrange(_SHARED))
        words = (
            "insert into public.notes values (%s, %s, '', 1)"
            " on conflict (root, second) do update set n = notes.n + 1 returning n"
        )
        try:
            ((count,),) = self._client.execute(key, "write", words, (key.root, key.second))
            self._tally.share(key, count)
        except AwayError:
            self._tally.add("away")
        except UnknownError:
            self._tally.share(key, None)

    def _verify(self, it: Loose) -> None:
        """Reads a key once more, after all courses."""
        found = all_of(self._client, it.key)
        if found not in it.states:
            self._tally.fault("lost", f"{it.key}: {found}, and not {it.states}")


def shared_key(at: int) -> Rank:
    """A key that all threads have."""
    return Rank(at * _ROOTS // _SHARED + 7, 1)


def run(
    apps: Dict[int, str],
    routes: Routes,
    owns: range,
    goes_on: Callable[[], bool],
    tally: Tally,
    slow: float = 0.03,
) -> None:
    """The load of one process. `slow`: how many statements are slow transactions instead."""
    clients = [Client(apps, routes, _PATIENCE) for _ in owns]
    threads = [Session(own, it, tally, goes_on) for own, it in zip(owns, clients)]
    for thread in threads:
        thread.slow = slow
        thread.start()
    for thread in threads:
        thread.join()


def judge_shared(tallies: List[Tally], client: Client) -> List[str]:
    """What is wrong of the keys that all threads of all processes share."""
    faults = []
    for key in map(shared_key, range(_SHARED)):
        answers = [it for tally in tallies for it in tally.shared.get(key, [])]
        unknown = sum(tally.unknown.get(key, 0) for tally in tallies)
        note = all_of(client, key).note
        count = note[1] if note else 0
        if len(set(answers)) < len(answers):
            faults.append(f"{key} has answered a count twice")
        if not len(answers) <= count <= len(answers) + unknown:
            faults.append(f"{key} is {count} after {len(answers)} counts, and {unknown} in doubt")
    return faults


def main() -> None:
    """Runs a load as long as a file is there, and prints what it has counted."""
    parser = argparse.ArgumentParser()
    for name in ("apps", "bus", "first", "file", "out"):
        parser.add_argument(f"--{name}", required=True)
    parser.add_argument("--own", type=int, nargs=2, required=True)
    words = parser.parse_args()
    apps = {int(part): url for part, url in json.loads(words.apps).items()}
    routes = Routes(Plan(Path(words.first).read_bytes()), open_bus(words.bus))
    file, out, tally = Path(words.file), Path(words.out), Tally()
    show = threading.Thread(target=_show, args=[tally, file, out], daemon=True)
    show.start()
    run(apps, routes, range(*words.own), file.exists, tally)
    routes.close()
    show.join()
    out.write_text(tally.text(), "ascii")


def _show(tally: Tally, file: Path, out: Path) -> None:
    """Writes how many statements there were, as long as the file is there."""
    while file.exists():
        time.sleep(0.5)
        out.with_suffix(".now").write_text(str(tally.counts["statements"]), "ascii")


def _plain(of_keys: Dict[Rank, T]) -> Dict[int, T]:
    return {int(key): it for key, it in of_keys.items()}


if __name__ == "__main__":
    main()
