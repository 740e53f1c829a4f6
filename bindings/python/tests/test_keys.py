"""Keys, bounds and legs."""

import copy
import pickle
import unittest
from pathlib import Path

from squall import END, Leg, NumberError, Rank, key_of

VECTORS = Path(__file__).resolve().parents[3] / "integrations" / "keymap.txt"


class Ranks(unittest.TestCase):
    """The class `Rank`."""

    def test_a_rank_is_the_number_of_its_pair(self) -> None:
        for root, second, number in [
            (0, 0, 0),
            (0, 7, 7),
            (2, 7, 8589934599),
            (4294967294, 4294967295, 18446744069414584319),
            (4294967295, 4294967295, 18446744073709551615),
        ]:
            with self.subTest(root=root, second=second):
                rank = Rank(root, second)
                self.assertEqual(rank, number)
                self.assertEqual(Rank.of(number), rank)
                self.assertIs(type(Rank.of(number)), Rank)
                self.assertEqual((rank.root, rank.second), (root, second))
                self.assertEqual(hash(rank), hash(number))

    def test_texts(self) -> None:
        self.assertEqual(str(Rank(2, 7)), "2:7")
        self.assertEqual(f"{Rank(2, 7)}", "2:7")
        self.assertEqual(repr(Rank(2, 7)), "Rank(2, 7)")
        self.assertEqual(str(END), "end")
        self.assertEqual(str(Rank(4294967295, 1)), "4294967295:1")
        for text in ["0:0", "2:7", "4294967294:4294967295", "end"]:
            self.assertEqual(str(Rank.parse(text)), text)

    def test_texts_that_are_no_ranks(self) -> None:
        for text in ["", "2", "2:", ":7", "2:7 ", "-1:0", "2:7:1", "4294967296:0", "0:4294967296"]:
            with self.subTest(text=text), self.assertRaises(NumberError):
                Rank.parse(text)
        with self.assertRaises(NumberError):
            Rank.parse("\u0663:0")
        with self.assertRaises(NumberError):
            Rank.parse("9" * 5000 + ":0")

    def test_numbers_that_are_none(self) -> None:
        for root, second in [(-1, 0), (0, -1), (4294967296, 0), (0, 4294967296)]:
            with self.subTest(root=root, second=second), self.assertRaises(NumberError):
                Rank(root, second)
        for number in [-1, 2**64]:
            with self.subTest(number=number), self.assertRaises(ValueError):
                Rank.of(number)
        with self.assertRaises(TypeError):
            Rank(2.0, 0)  # type: ignore[arg-type]
        with self.assertRaises(TypeError):
            Rank.of("7")  # type: ignore[arg-type]

    def test_copies(self) -> None:
        for made in [pickle.loads(pickle.dumps(Rank(2, 7))), copy.deepcopy(Rank(2, 7))]:
            self.assertEqual(made, Rank(2, 7))
            self.assertIs(type(made), Rank)

    def test_a_leg_is_a_triple(self) -> None:
        leg = Leg(Rank(5, 0), END, 2)
        self.assertEqual(leg, (Rank(5, 0), END, 2))
        self.assertEqual(str(leg), "[5:0,end) 2")


class Rows(unittest.TestCase):
    """The function `key_of`."""

    def test_vectors(self) -> None:
        lines = [it for it in VECTORS.read_text("utf-8").splitlines() if it[0] != "#"]
        self.assertGreaterEqual(len(lines), 50)
        for line in lines:
            digits, key = line.split()[:2]
            row = bytes.fromhex(digits.lstrip("-"))
            with self.subTest(row=row):
                self.assertEqual(str(key_of(row)), key)
                self.assertEqual(key_of(bytearray(row)), key_of(memoryview(row)))
                self.assertIs(type(key_of(row)), Rank)

    def test_what_has_no_bytes(self) -> None:
        for row in ["2:7", 7, None]:
            with self.subTest(row=row), self.assertRaises(TypeError):
                key_of(row)  # type: ignore[arg-type]
        with self.assertRaises((BufferError, ValueError)):
            key_of(memoryview(b"2:7:cart")[::2])


if __name__ == "__main__":
    unittest.main()
