"""Unit tests of trials at vectors: they say what all contents say, tried one by one."""
import random
import unittest

from bbeq_tools.developing.drawn import drawn_pair, drawn_shared
from bbeq_tools.report.possible import (Possible, TooMany, can_join, column, connected, joined,
                                        numbers_in)
from bbeq_tools.verilog.language import Reader, top_of
from bbeq_tools.verilog.values import Design
from tests.test_why import agreeing

MOST_BITS = 8  # Of contents that are tried.


def designs_of(texts):
    found = []
    for text in texts:
        modules = {module.name: module for module in Reader(text).modules()}
        found.append(Design(modules, top_of("a text", modules, None)))
    return found


class Trials(unittest.TestCase):
    def compare(self, seed, texts, shared):
        """Whether the trials agree at vectors that are drawn, or nothing where the contents are
        many; and whether some contents are right."""
        designs, draw = designs_of(texts), random.Random(seed)
        boxes, ports = designs[1].boxes, [name for name in designs[0].inputs if name[0] == "input"]
        pins = [(draw.choice(boxes).path, draw.choice(ports))
                ] if boxes and ports and not shared and seed % 2 else []
        bits = sum(len(box.outs) << len(box.ins) + len(pins) for box in boxes)
        if not boxes or bits > MOST_BITS:
            return None
        vectors = [{name: draw.choice("01") for name in designs[0].inputs} for _ in range(4)]
        names = [name for name, _ in designs[0].outputs]
        kept = draw.sample(names, 1 + draw.randrange(len(names)))
        found = [{text: bit for (_, text), bit in vector.items()} for vector in vectors]
        masks = agreeing(designs, kept, found, [(path, text) for path, (_, text) in pins], shared)
        wanted = 15 in masks
        self.assertEqual(Possible(designs, shared).fits(kept, vectors, pins), wanted, seed)
        return wanted

    def test_drawn(self):
        told = [self.compare(seed, drawn_pair(seed), False) for seed in range(120)]
        told += [self.compare(seed, drawn_shared(seed), True) for seed in range(40)]
        self.assertGreater(min(told.count(True), told.count(False)), 5)

    def test_columns(self):
        self.assertEqual([column(place, 3) for place in range(3)], [0b11110000, 0b11001100,
                                                                    0b10101010])
        self.assertEqual(numbers_in(0b10010), [1, 4])


A, B, C = (("u", "0", 0), ("u", "1", 0), ("v", "0", 0))


class Relations(unittest.TestCase):
    def test_joined(self):
        both = joined({(A, B): {(0, 0), (1, 1)}}, {(B, C): {(1, 0)}}, {A, C})
        self.assertEqual(both, {(A, C): {(1, 0)}})
        self.assertEqual(joined({(A,): {(0,)}}, {(A,): {(1,)}}, set()), {})

    def test_fits(self):
        self.assertTrue(can_join([{(A,): {(0,), (1,)}}, {(A,): {(1,)}}, {(B,): {(0,)}}]))
        self.assertFalse(can_join([{(A,): {(0,)}}, {(A,): {(1,)}}]))
        self.assertFalse(can_join([{}, {(A,): {(1,)}}]))
        # Either of the two alone fits the third, and both together do not.
        same, other = {(A, B): {(0, 0), (1, 1)}}, {(B, C): {(0, 0), (1, 1)}}
        self.assertTrue(can_join([same, other]))
        self.assertFalse(can_join([same, other, {(A, C): {(0, 1), (1, 0)}}]))

    def test_connected(self):
        first, second, apart = ({(A,): {(0,)}}, {(A,): {(0,), (1,)}}, {(C,): {(0,)}})
        self.assertEqual(list(connected([second, apart, first])), [[apart], [first, second]])

    def test_bound(self):
        wide = [{tuple((path, str(row), 0) for row in range(9)):
                 {tuple(number >> at & 1 for at in range(9)) for number in range(512)}}
                for path in "uv"]
        with self.assertRaises(TooMany):
            joined(*wide, set())
