"""Unit tests of what draws the crates."""
import shutil
import unittest

from bbeq_tools.developing.crate_map import (MAP, all_crates, arrows_in, arrows_of, crates_in,
                                             dot_text, drawn, reduced, sentence_of)

LIST = """# crate: the libraries that it uses

# base
bb_bits:
bb_net: bb_bits

# top
bb_pair: bb_bits bb_net indexmap
bbeq: bb_pair bb_bits
"""


class CrateMap(unittest.TestCase):
    def test_list(self):
        """Blocks are those of the comments before them; libraries of the kit are left out."""
        found = crates_in(LIST)
        self.assertEqual([(crate.name, crate.block) for crate in found],
                         [("bb_bits", "base"), ("bb_net", "base"), ("bb_pair", "top"),
                          ("bbeq", "top")])
        self.assertEqual(found[2].uses, ["bb_bits", "bb_net"])

    def test_reduced(self):
        """What another library brings is no arrow of its own."""
        self.assertEqual([crate.uses for crate in reduced(crates_in(LIST))],
                         [[], ["bb_bits"], ["bb_net"], ["bb_pair"]])

    def test_text(self):
        text = dot_text(crates_in(LIST))
        self.assertEqual(text.count("subgraph cluster_"), 2)
        self.assertIn('label="top"', text)
        self.assertIn("bb_pair -> bb_net;", text)
        self.assertNotIn("indexmap", text)

    def test_sentences(self):
        self.assertEqual(sentence_of("no_such_crate"), "no_such_crate")
        self.assertNotIn("\n", sentence_of("bb_net"))

    @unittest.skipUnless(shutil.which("dot"), "dot is not installed")
    def test_drawn(self):
        svg = drawn(dot_text(crates_in(LIST)))
        self.assertEqual(arrows_in(svg), {"bb_net->bb_bits", "bb_pair->bb_net", "bbeq->bb_pair"})
        self.assertNotIn("<!--", svg)

    def test_kept(self):
        """The drawing in docs/ is that of crates.txt: else `contrib/crate-map` draws it anew."""
        self.assertEqual(arrows_in(MAP.read_text(encoding="utf-8")), arrows_of(all_crates()))
