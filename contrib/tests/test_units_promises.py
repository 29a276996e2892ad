"""Unit tests of what prints the promises of crates."""
import contextlib
import io
import unittest

from bbeq_tools.developing.promises import Crate, calls_in, show_crate

CODE = """//! A crate.

/// The sum.
///
/// It is named by a word
/// of its own.
///
/// # Errors
/// None.
// Its words are read.
#[inline]
pub fn add(a: u32, b: u32) -> u64
    requires small { a < b }
    ensures sum { result ≡ a + b }

    // Where b is large.
    ensures { b
        ≤ result }
{
    a as u64 + b as u64
}

/// Sums go both ways.
pub fn sums()
    ensures { SumsGoBothWays }
{
    others();
}

fn other() -> u32 {
    1
}

impl<F: Fn(u8) -> bool> Net<F> {
    /// Its size.
    pub(crate) fn size(&self) -> u32 {
        0
    }

    /// Its inputs.
    pub fn inputs(
        &self,
        first: u32,
    ) -> u32 {
        match first {
            _ => self.inputs,
        }
    }
}

/// Something that holds files.
pub trait Files {
    /// The bytes of a file.
    fn read(&mut self, name: &str) -> Vec<u8>
        ensures bytes { result ≡ name.now };
}

impl<F: Files> Files for Kept<F> {
    fn read(&mut self, name: &str) -> Vec<u8>
        ensures told { result ≡ name.now }
    {
        self.read_of(name)
    }
}

impl Debug for Net {
    fn fmt(&self) -> bool {
        true
    }
}
"""


def shown(name, *names, whole=False):
    out = io.StringIO()
    with contextlib.redirect_stdout(out):
        found = show_crate(name, set(names), whole)
    return out.getvalue(), [call.name for call in found]


class Promises(unittest.TestCase):
    def test_read(self):
        """Public calls, and those that keep a trait, with their comments and contracts."""
        found = list(calls_in(CODE))
        self.assertEqual([(call.name, call.clauses("ensures"), call.is_law) for call in found],
                         [("add", ["sum", "the result"], False), ("sums", ["the result"], True),
                          ("Net::inputs", [], False), ("Files::read", ["bytes"], False),
                          ("Kept::read", ["told"], False)])
        self.assertEqual(found[0].comment, ["The sum.", "It is named by a word of its own.",
                                            "# Errors", "None."])
        self.assertEqual(found[0].clauses("requires"), ["small"])
        self.assertEqual(found[0].contract[-1].strip(), "≤ result }")
        self.assertEqual(found[2].contract, [])
        self.assertEqual(found[2].signature, "pub fn inputs( &self, first: u32, ) -> u32")

    def test_crates(self):
        """What other crates can call, laws, and what is passed on."""
        names = {call.name for call in Crate("bb_outside").calls()}
        self.assertLessEqual({"Files::read", "KeptFiles::read", "put_all", "rose_is_growth"}, names)
        self.assertNotIn("outcome", names)
        self.assertEqual(shown("bb_sym", "plain_cells")[1], ["plain_cells"])
        self.assertEqual(shown("bb_ladder", "judge_pair")[1], ["judge_pair"])
        self.assertEqual(shown("bbeq")[0], "bbeq: no public call\n")
        self.assertIn("    no contract\n", shown("bb_watch", "Propagator::next", whole=True)[0])
        self.assertNotIn("match", shown("bb_watch", whole=True)[0])
