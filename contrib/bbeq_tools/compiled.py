"""Bounds what compiled modules take in the user's cache: about 1 MB for each place that the scripts
were started from."""
import os
import shutil
import time

PACKAGE = "bbeq_tools"
UNUSED = 60 * 24 * 3600  # Seconds after which modules are compiled anew.


def drop_unused(cache):
    """Deletes the modules of places that are gone, or that were compiled long ago: a place that is
    there compiles its own anew. What cannot be deleted stays."""
    for folder, below, _ in os.walk(cache):
        if os.path.basename(folder) == PACKAGE:
            below.clear()
            if is_unused(folder, folder[len(cache):]):
                shutil.rmtree(folder, ignore_errors=True)
                drop_empty(os.path.dirname(folder), cache)


def is_unused(folder, source):
    """`source` is the folder that the modules were compiled from."""
    if not os.path.isdir(source):
        return True
    try:
        return os.stat(folder).st_mtime < time.time() - UNUSED
    except OSError:
        return False


def drop_empty(folder, cache):
    """Deletes a folder, and those that it is in, as far as nothing is in them."""
    while folder.startswith(cache + "/"):
        try:
            os.rmdir(folder)
        except OSError:
            return
        folder = os.path.dirname(folder)
