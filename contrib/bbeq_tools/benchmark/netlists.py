"""What yosys makes of a text: a netlist of its own gates, and BLIF for abc."""
import os
import shutil
import subprocess
import tempfile

from bbeq_tools.cli import Fault

# The states of machines are kept, and registers are plain ones. The second abc works harder than
# that of synth.
SYNTHESISE = """read_verilog "{source}"
synth -flatten -nofsm -top {top}
dfflegalize -cell $_DFF_P_ x
abc
opt_clean
write_verilog -noattr "{goal}"
"""
TO_BLIF = """read_verilog "{source}"
hierarchy -auto-top
proc
techmap
opt_clean
write_blif "{goal}"
"""


def made_by_yosys(script: str, source: str, top: str, goal: str) -> None:
    """Runs a script from one file to another, which gets its name when it is whole."""
    if not shutil.which("yosys"):
        raise Fault("yosys is not installed (Debian: apt-get install yosys)")
    with tempfile.TemporaryDirectory(dir=os.path.dirname(goal), prefix=".yosys") as folder:
        half, commands = os.path.join(folder, "half"), os.path.join(folder, "script")
        with open(commands, "w", encoding="utf-8") as file:
            file.write(script.format(source=os.path.abspath(source), top=top, goal=half))
        done = subprocess.run(["yosys", "-q", "-s", commands], capture_output=True, text=True,
                              errors="replace", stdin=subprocess.DEVNULL, check=False)
        if done.returncode or not os.path.exists(half):
            raise Fault(f"{source}: yosys says {(done.stdout + done.stderr).strip()[:300]}")
        os.replace(half, goal)
