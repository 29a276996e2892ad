"""Runs `main` of a module. The words are the module's name, the script's path and the script's
words (start.sh)."""
import os
import sys

module = sys.argv[1]
del sys.argv[:2]
tools = __file__.rpartition("/")[0]
sys.path.insert(0, tools.rpartition("/")[0])
# Whether the first start from here is about to write to the user's cache.
is_new = sys.pycache_prefix and not os.path.isdir(sys.pycache_prefix + tools)
__import__(module)
if is_new:
    from bbeq_tools.compiled import drop_unused
    drop_unused(sys.pycache_prefix)
sys.modules[module].main()
