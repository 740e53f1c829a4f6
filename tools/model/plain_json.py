"""What the commands write with --json, as docs/SCENARIOS.md says: the object that has what their lines say."""
import json
import re

from plain_board import rank_of

SPAN = r"\[([^,]+),([^)]+)\)"
MOVE = rf"move {SPAN} (\d+) to (\d+) sub (\d+)(?: (complete|not started|loaded (\d+) of \d+ missing {SPAN}))?"
COURSE = (r"course (\d+) moves (\d+) of (\d+) sub-plans (\d+) of (\d+) open (\w+) "
          r"loaded (\d+) of (\d+) keys share (\d+)/1000")


def span(lo, hi):
    return {"lo": lo, "hi": hi}


def matches(pattern, lines):
    """What the groups of the pattern are in each line that is of it."""
    found = (re.fullmatch(pattern, line) for line in lines)
    return [it.groups() for it in found if it]


def range_of(lo, hi, part):
    return {**span(lo, hi), "part": int(part)}


def move(lo, hi, source, dest, sub, how=None, loaded=None, *missing):
    """A move, and how far it has come if its line says so."""
    told = {**span(lo, hi), "from": int(source), "to": int(dest), "sub": int(sub)}
    if how is None:
        return told
    keys = rank_of(hi) - rank_of(lo)
    come = {"complete": keys, "not started": 0}.get(how, loaded)
    state = "partial" if loaded else how
    return {**told, "keys": keys, "loaded": int(come), "state": state, "missing": span(*missing) if loaded else None}


def status(lines):
    number, over, moves, ended, subs, last, loaded, keys, share = matches(COURSE, lines)[0]
    opened = -1 if last == "none" else int(last)
    rows = matches(r"sub-plan (\d+) receivers (\d+) of (\d+) done", lines)
    shown = [move(*it) for it in matches(MOVE, lines)]
    return {
        "course": int(number), "move_count": int(moves), "subplan_count": int(subs),
        "open": None if last == "none" else opened, "loaded": int(loaded), "keys": int(keys),
        "thousandths": int(loaded) * 1000 // int(keys) if int(keys) else 1000, "moves": shown,
        "complete": over == moves, "moves_complete": int(over),
        "share": int(share), "subplans_complete": int(ended),
        "subplans": [{"sub": int(sub), "opened": int(sub) <= opened, "receivers": int(due), "done": int(done)}
                     for sub, done, due in rows]
    }


def board(lines):
    cells = [(*row[:4], [span(*it) for it in re.findall(SPAN, row[4])])
             for row in matches(r"cell (\d+) (\d+) (\d+) (done|open)(.*)", lines)]
    return {
        "opened": [{"course": int(it), "subplans": int(count)} for it, count in matches(r"opened (\d+) (\d+)", lines)],
        "issued": [{"course": int(it), "clash": kind == "clash"} for it, kind in matches(r"issue (\d+) (\w+)", lines)],
        "cells": [{"course": int(number), "sub": int(sub), "part": int(part), "done": how == "done", "loaded": spans}
                  for number, sub, part, how, spans in cells]
    }


def course(lines):
    moves = [move(*it) for it in matches(MOVE, lines)]
    return {"moves": moves, "subplan_count": int(matches(r"sub-plans (\d+)", lines)[0][0])}


def check(lines):
    return {"ranges": [range_of(lo, hi, part) for part, lo, hi in matches(rf"range (\d+) {SPAN}", lines)]}


def legs(lines):
    return {"legs": [range_of(*it) for it in matches(rf"leg {SPAN} (\d+)", lines)]}


def refusal(command, line):
    """Why a line refuses what was given."""
    words = line.split(" ")
    if words[-1] in ("NoBound", "NoSpan"):
        return {"refused": " ".join(words[1:-1]), "fault": words[-1]}
    if command == "check":
        return {"refused": "plan", "fault": " ".join(words[1:])}
    return {"refused": words[1], "fault": " ".join(words[2:])}


def object_of(command, lines):
    """The object for the lines of a command, as it is written, without its LF."""
    ends = lines[-1].startswith("refused ")
    told = {"status": status, "board": board, "course": course, "check": check, "legs": legs}[command]
    value = refusal(command, lines[-1]) if ends else told(lines)
    return json.dumps(value, sort_keys=True, separators=(",", ":"), ensure_ascii=False)
