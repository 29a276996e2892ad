"""Unit tests of what finds lemmas that are proved twice."""
import unittest

from bbeq_tools.developing.definitions import CRATES
from bbeq_tools.developing.lemmas import lemmas_in, proved_twice, same_words

FIRST = """-- bits
use Rattle.std.proofs.Common.{Bool}
use Rattle.bb_net.specs.Netlists.{Netlist}

pub and_true : (x y : Bool) → (x && y) ≡ true
    → (x ≡ true) × (y ≡ true)
and_true true y h = (refl, h)

abbrev pub Both : Bool → Type 0
Both x = x ≡ true

module _ (n : ℕ) where
  in_module : n ≡ n
  in_module = refl

pub of_nets : (net : Netlist) → net ≡ net
of_nets net = refl
"""
SECOND = """both : (a b : Bool) → (a && b) ≡ true → (a ≡ true) × (b ≡ true)
both true b h = (refl, h)

other : (a b : Bool) → (a && a) ≡ true → (a ≡ true) × (b ≡ true)
other a b h = (h, h)
"""


def lemmas(crate, text):
    return list(lemmas_in(CRATES / crate / "proofs" / "Lemmas.antt", text))


class Lemmas(unittest.TestCase):
    def test_read(self):
        """Lemmas are read over several lines; definitions and those of modules are not."""
        found = lemmas("bb_one", FIRST)
        self.assertEqual([(lemma.name, lemma.line, lemma.plain) for lemma in found],
                         [("and_true", 5, True), ("of_nets", 16, False)])
        self.assertEqual(found[0].statement,
                         "(x y : Bool) → (x && y) ≡ true → (x ≡ true) × (y ≡ true)")

    def test_words(self):
        self.assertEqual(same_words("{n : ℕ} → bb_one.f n (λ k. k)"),
                         same_words("{m : ℕ} → bb_two.f m (λ i. i)"))
        self.assertNotEqual(same_words("(a b : ℕ) → a ≡ b"), same_words("(a b : ℕ) → b ≡ a"))

    def test_twice(self):
        """One statement in two crates is found, and in one crate it is not."""
        found = proved_twice(lemmas("bb_one", FIRST) + lemmas("bb_two", SECOND))
        self.assertEqual([[str(lemma) for lemma in group] for group in found],
                         [["bb_one/proofs/Lemmas.antt:5 and_true",
                           "bb_two/proofs/Lemmas.antt:1 both"]])
        self.assertEqual(proved_twice(lemmas("bb_one", FIRST) + lemmas("bb_one", FIRST)), [])


if __name__ == "__main__":
    unittest.main()
