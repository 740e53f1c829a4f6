"""Statements on one key, and what each right answer is."""

from __future__ import annotations

import random
import time
from typing import Any, List, NamedTuple, Optional, Sequence, Tuple

from squall import Rank
from squall_postgresql import Client

_WHERE = "where root = %s and second = %s"
_MOST = 400


class State(NamedTuple):
    """What is there of a key."""

    #: Its note, if there is one: the text and the count.
    note: Optional[Tuple[str, int]] = None
    #: How many entries it has.
    entries: int = 0


class Statement(NamedTuple):
    """What is asked, the right answer, and what is there afterwards."""

    mode: str
    words: str
    values: Tuple[object, ...]
    answer: Sequence[Tuple[Any, ...]]
    after: State


def any_statement(dice: random.Random, state: State, key: Rank) -> Statement:
    """One of all kinds."""
    make = dice.choices(
        [_read, _write, _append, _count, _delete, _enter, _entries], [30, 15, 15, 20, 2, 10, 8]
    )[0]
    return make(dice, state, (key.root, key.second))


def _read(_dice: random.Random, state: State, key: Tuple[int, int]) -> Statement:
    answer = [state.note] if state.note else []
    return Statement("read", f"select v, n from public.notes {_WHERE}", key, answer, state)


def _write(dice: random.Random, state: State, key: Tuple[int, int]) -> Statement:
    note = (f"w{dice.randrange(1 << 30)}", state.note[1] if state.note else 0)
    words = (
        "insert into public.notes values (%s, %s, %s, 0)"
        " on conflict (root, second) do update set v = excluded.v returning v, n"
    )
    return Statement("write", words, (*key, note[0]), [note], state._replace(note=note))


def _append(dice: random.Random, state: State, key: Tuple[int, int]) -> Statement:
    words = f"update public.notes set v = v || %s {_WHERE} returning v, n"
    more = f",{dice.randrange(100)}"
    if state.note is None:
        return Statement("write", words, (more, *key), [], state)
    if len(state.note[0]) > _MOST:
        return _write(dice, state, key)
    note = (state.note[0] + more, state.note[1])
    return Statement("write", words, (more, *key), [note], state._replace(note=note))


def _count(_dice: random.Random, state: State, key: Tuple[int, int]) -> Statement:
    words = f"update public.notes set n = n + 1 {_WHERE} returning v, n"
    if state.note is None:
        return Statement("write", words, key, [], state)
    note = (state.note[0], state.note[1] + 1)
    return Statement("write", words, key, [note], state._replace(note=note))


def _delete(_dice: random.Random, state: State, key: Tuple[int, int]) -> Statement:
    words = f"delete from public.notes {_WHERE} returning v, n"
    answer = [state.note] if state.note else []
    return Statement("write", words, key, answer, state._replace(note=None))


def _enter(_dice: random.Random, state: State, key: Tuple[int, int]) -> Statement:
    if state.entries >= 9:
        words = f"delete from public.entries {_WHERE} returning at"
        answer = [(at,) for at in range(state.entries)]
        return Statement("write", words, key, answer, state._replace(entries=0))
    words = "insert into public.entries values (%s, %s, %s, 'x') returning at"
    after = state._replace(entries=state.entries + 1)
    return Statement("write", words, (*key, state.entries), [(state.entries,)], after)


def _entries(_dice: random.Random, state: State, key: Tuple[int, int]) -> Statement:
    words = f"select count(*) from public.entries {_WHERE}"
    return Statement("read", words, key, [(state.entries,)], state)


def count_slowly(client: Client, key: Rank, seconds: float) -> List[Tuple[Any, ...]]:
    """Counts in a transaction that takes a while, and makes a note if there is none."""

    def act(cursor: Any) -> List[Tuple[Any, ...]]:
        cursor.execute(f"select v, n from public.notes {_WHERE}", [*key_words(key)])
        found = cursor.fetchall()
        time.sleep(seconds)
        text, count = found[0] if found else ("slow", 0)
        cursor.execute(
            "insert into public.notes values (%s, %s, %s, %s)"
            " on conflict (root, second) do update set n = excluded.n returning v, n",
            [*key_words(key), text, count + 1],
        )
        answer = list(cursor.fetchall())
        # A give that does not wait for the commit would leave the count behind.
        time.sleep(seconds)
        return answer

    return client.transact([key], act)


def counted(state: State) -> State:
    """What is there after `count_slowly`."""
    text, count = state.note or ("slow", 0)
    return state._replace(note=(text, count + 1))


def all_of(client: Client, key: Rank) -> State:
    """What there is of a key."""

    def act(cursor: Any) -> State:
        cursor.execute(f"select v, n from public.notes {_WHERE}", [*key_words(key)])
        notes = cursor.fetchall()
        cursor.execute(f"select count(*) from public.entries {_WHERE}", [*key_words(key)])
        ((entries,),) = cursor.fetchall()
        return State(notes[0] if notes else None, entries)

    return client.transact([key], act, "read")


def key_words(key: Rank) -> Tuple[int, int]:
    """The key as columns have it."""
    return key.root, key.second
