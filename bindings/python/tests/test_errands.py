"""Errands."""

import unittest

from squall import END, Errand, Next, NumberError, Reply

from .worked import fresh, key


class Errands(unittest.TestCase):
    """What errands do with replies."""

    def test_an_errand_that_finds_its_key(self) -> None:
        errand = fresh().errand(key(2))
        self.assertEqual((errand.asked, errand.number), (1, 0))
        self.assertIs(errand.heed(Reply.MOVED, 3, 1), Next.ASK)
        self.assertEqual((errand.asked, errand.number), (3, 1))
        self.assertIs(errand.heed(Reply.PENDING, part=1), Next.AGAIN)
        self.assertIs(errand.heed(Reply.BEHIND), Next.AGAIN)
        self.assertEqual((errand.asked, errand.number), (3, 1))
        self.assertIs(errand.heed(Reply.HELD), Next.SERVED)
        self.assertIs(errand.heed(Reply.ELSEWHERE, 1), Next.SERVED)

    def test_errands_that_are_lost(self) -> None:
        errand = fresh().errand(key(2))
        self.assertIs(errand.heed(Reply.MOVED, 3, 1), Next.ASK)
        self.assertIs(errand.heed(Reply.MOVED, 3, 1), Next.LOST)
        self.assertIs(errand.heed(Reply.HELD), Next.LOST)
        self.assertIs(fresh().errand(key(2)).heed(Reply.ELSEWHERE, 3), Next.LOST)

    def test_replies_that_are_none(self) -> None:
        errand = fresh().errand(key(2))
        for reply, part, number in [
            (5, 0, 0),
            (-1, 0, 0),
            (2**32, 0, 0),
            (Reply.MOVED, 10000, 2),
            (Reply.MOVED, 2**32 + 3, 2),
            (Reply.MOVED, 3, 2**32 + 1),
            (Reply.PENDING, 10000, 0),
            (Reply.ELSEWHERE, 10000, 0),
        ]:
            with self.subTest(reply=reply, part=part), self.assertRaises(NumberError):
                errand.heed(reply, part, number)
        for reply in [Reply.MOVED, Reply.PENDING, Reply.ELSEWHERE]:
            with self.subTest(reply=reply), self.assertRaises(TypeError):
                errand.heed(reply)
        with self.assertRaises(TypeError):
            errand.heed(Reply.MOVED, 3)
        self.assertEqual((errand.asked, errand.number), (1, 0))
        self.assertIs(errand.heed(Reply.MOVED, 3, 1), Next.ASK)

    def test_replies_may_be_plain_numbers(self) -> None:
        errand = fresh().errand(key(2))
        self.assertIs(errand.heed(1, 3, 1), Next.ASK)
        self.assertIs(errand.heed(0), Next.SERVED)

    def test_ranks_that_are_no_keys(self) -> None:
        router = fresh()
        for source in [router, router.view()]:
            for rank in [END, 2**64 - 1, -1, 2**64]:
                with self.subTest(rank=rank), self.assertRaises(NumberError):
                    source.errand(rank)

    def test_only_routers_and_views_start_errands(self) -> None:
        with self.assertRaises(TypeError):
            Errand()


if __name__ == "__main__":
    unittest.main()
