"""The key of a row as docs/SCENARIOS.md says."""
from plain_board import HALF, number_of
from plain_frames import TOP

WORD = 2 ** 64


def hash_of(data):
    """FNV-1a of 64 bits, with its bits mixed."""
    value = 14695981039346656037
    for byte in data:
        value = (value ^ byte) * 1099511628211 % WORD
    value = (value ^ value >> 32) * 11400714819323198485 % WORD
    return value ^ value >> 29


def key_of(name):
    """The rank of the key of the row of this name."""
    words = [number_of(it) for it in name.decode().split(":")[:2]]
    if len(words) == 2 and None not in words and words[0] < HALF - 1:
        return words[0] * HALF + words[1]
    tag = name.partition(b"{")[2].partition(b"}")
    return hash_of(tag[0] if tag[0] and tag[1] else name) * TOP // WORD
