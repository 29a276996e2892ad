"""What yosys does not read of SystemVerilog, or reads wrongly, and what is told of it."""
import json
import os
import re
import subprocess

SV2V = "--sv2v has sv2v turn it into Verilog"
CAST = "a cast to a type", "leave it out"
# What stands on a line that is not read, and what to write there.
UNREAD = ((r"\bimport\b", "an import", "write PACKAGE::NAME for each name"),
          (r"\]\s*\[[^;]*\]\s*\w", "a packed array of several ranges", "give it one range"),
          (r"'\{", "an assignment pattern", "assign each part"),
          (r"\w'\(", *CAST),
          (r"\b(interface|modport)\b", "an interface", "make its signals ports"),
          (r"\binside\b", "an `inside`", "compare with each value"))
COMMENT = re.compile(r"//[^\n]*|/\*.*?\*/", re.DOTALL)
# In yosys 0.23 the range of `a` takes the place of that of its type.
ARRAY = ("module m(input t_in, output y); typedef logic [3:0] t; t [1:0] a; assign y = "
         "a[0]; endmodule\n")


def version():
    done = subprocess.run(["yosys", "-V"], capture_output=True, text=True, check=False)
    return "".join(re.findall(r"^Yosys (\S+)", done.stdout)) or "without a version"


def unread(text):
    """What stands on the line of an error, where it is known not to be read, and what to do."""
    source = re.match(r"(.*\.sv):(\d+): ", text)
    try:
        with open(source.group(1), encoding="latin-1") as file:
            line = file.read().splitlines()[int(source.group(2)) - 1]
    except (OSError, IndexError):
        line = ""
    return next((instead_of(what, instead) for form, what, instead in UNREAD
                 if re.search(form, line)), f"this of SystemVerilog: {SV2V}")


def instead_of(what, instead):
    return f"{what} of SystemVerilog: {instead}, or {SV2V}"


def advice(text):
    """An error of yosys; where a file of SystemVerilog is not read, what can be done."""
    unknown = re.match(r".*\.sv:\d+: Failed to resolve identifier \\?(\w+)", text)
    if unknown:
        return (f"{text.split(' for width detection')[0]}; yosys does not import names of "
                f"packages: where it stands in one, write PACKAGE::{unknown.group(1)}, or {SV2V}")
    if re.match(r".*\.sv:\d+: syntax error", text):
        return f"{text}; yosys {version()} does not read {unread(text)}"
    # This it says of a cast where it does not know the type either.
    if re.match(r".*\.sv:\d+: Static cast with non constant expression", text):
        return f"{text}; yosys {version()} does not read {instead_of(*CAST)}"
    return text


def blanked(comment):
    return re.sub(r"[^\n]", " ", comment.group())


def array_of_type(text):
    """The line of the first array of a named type, and the name."""
    text = COMMENT.sub(blanked, text)
    for name in re.findall(r"\btypedef\b[^;{]*(?:\{[^}]*\})?[^;]*?\b(\w+)\s*;", text):
        array = re.search(rf"\b{name}\s*\[[^\]]*\]\s*\w", text)
        if array:
            return text.count("\n", 0, array.start()) + 1, name
    return None


def misread_arrays(path, folder):
    """What is told of a packed array of a named type, where this yosys reads it with too few bits,
    and says nothing."""
    with open(path, encoding="latin-1") as file:
        found = array_of_type(file.read())
    if not found:
        return None
    probe, made = os.path.join(folder, "array.sv"), os.path.join(folder, "array.json")
    with open(probe, "w", encoding="utf-8") as file:
        file.write(ARRAY)
    subprocess.run(["yosys", "-q", "-p", f'read_verilog -sv "{probe}"; write_json "{made}"'],
                   capture_output=True, check=False)
    with open(made, encoding="utf-8") as file:
        width = len(json.load(file)["modules"]["m"]["netnames"]["a"]["bits"])
    if width == 8:
        return None
    return (f"{path}:{found[0]}: yosys {version()} reads a packed array of {found[1]}, a named "
            f"type, with too few bits; {SV2V}")
