"""The tests of what is kept of compiled modules."""
import os
import tempfile
import unittest

from bbeq_tools.compiled import UNUSED, drop_unused


class Compiled(unittest.TestCase):
    def test_drop(self):
        """What was compiled from a place that is there and not long ago stays, and so does all that
        is no package of ours; of the rest no folder is left."""
        with tempfile.TemporaryDirectory() as top:
            cache, place = os.path.join(top, "cache"), os.path.join(top, "place")
            folders = {name: f"{cache}{place}/{name}/bbeq_tools"
                       for name in ("here", "gone", "old")}
            for name, folder in folders.items():
                os.makedirs(os.path.join(folder, "runs"))
                if name != "gone":
                    os.makedirs(os.path.join(place, name, "bbeq_tools"))
            os.makedirs(f"{cache}/usr/lib")
            at = os.stat(folders["old"]).st_mtime - UNUSED - 60
            os.utime(folders["old"], (at, at))
            drop_unused(cache)
            self.assertEqual(os.listdir(f"{cache}{place}"), ["here"])
            self.assertEqual(os.listdir(folders["here"]), ["runs"])
            self.assertEqual(os.listdir(f"{cache}/usr"), ["lib"])
