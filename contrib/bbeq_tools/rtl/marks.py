"""What `gates` writes into yosys' text of a design between two runs: undefined values as a net of
their own, boxes as black, the nets by which registers are known, what registers with an
asynchronous set or reset store, and which operators on words stay."""
import os
import re

from bbeq_tools.rtl.sources import natural, place

MARK = "\\bbeq.undefined"
UNDEFINED = re.compile(r"\b(\d+)'([01zm-]*x[01xzm-]*)")


def marked_bits(constant):
    """A constant with undefined bits as a concatenation; the leftmost digit stands for the bits
    that are not written."""
    digits = constant.group(2)
    first = digits[0] if digits[0] in "xz" else "0"
    bits = digits.rjust(int(constant.group(1)), first)
    return "{ " + " ".join(MARK if bit == "x" else f"1'{bit}" for bit in bits) + " }"


def mark_undefined(folder):
    """Has each undefined value that the source writes come from a net of its own, which no later
    step takes for a free choice. Those that yosys itself writes for the ports of memories,
    comparisons with x, and initial values stay."""
    kind, is_initial = "", False
    with open(os.path.join(folder, "raw.il"), encoding="utf-8", errors="replace") as file:
        lines = file.readlines()
    with open(os.path.join(folder, "marked.il"), "w", encoding="utf-8") as marked:
        for at, line in enumerate(lines):
            first = line.split(None, 1)[0] if line.strip() else ""
            if first in ("cell", "sync", "process"):
                kind = line.split()[1] if first == "cell" else ""
            if first == "process":
                is_initial = "    sync init\n" in lines[at:lines.index("  end\n", at)]
            if (first in ("assign", "connect", "update") and "$memwr$" not in line
                and not is_initial and kind not in ("$eqx", "$nex")
                    and not kind.startswith("$mem")):
                line = UNDEFINED.sub(marked_bits, line)
            if first == "end":
                kind = ""
            if line == "  end\n":
                is_initial = False
            marked.write(line)
            if first == "module":
                marked.write(f"  wire {MARK}\n")


def register_ports(modules, cells):
    """For each cell of a library the output ports that a flip-flop drives."""
    found = {}
    for name in cells:
        stored = {bit for cell in modules[name]["cells"].values()
                  if re.match(r"\$\w*dff", cell["type"]) for bit in cell["connections"]["Q"]}
        found[name] = {port for port, shape in modules[name]["ports"].items()
                       if shape["direction"] == "output" and stored & set(shape["bits"])}
    return found


def driven_nets(lines, ports):
    """The nets that registers of cells drive, as (module, net)."""
    found, module, kind = set(), None, None
    for line in lines:
        parts = line.split()
        if line.startswith("module "):
            module = parts[1]
        elif parts[:1] == ["cell"]:
            kind = parts[1].removeprefix("\\")
        elif (parts[:1] == ["connect"] and len(parts) > 2
              and parts[1].removeprefix("\\") in ports.get(kind, ())):
            found.add((module, parts[2]))
        elif parts[:1] == ["end"]:
            kind = None
    return found


MADE = "$auto$async2sync"  # The names of what async2sync makes begin so.


def name_stored(folder):
    """Gives the wires by which async2sync has a flip-flop store its bits the register's name with
    `.stored` behind it; the register's own net is what is read of it, and that has the value of the
    set or reset while this is active."""
    path = os.path.join(folder, "read.il")
    with open(path, encoding="utf-8", errors="replace") as file:
        modules = re.split(r"(?=^module )", file.read(), flags=re.MULTILINE)
    with open(path, "w", encoding="utf-8") as file:
        for module in modules:
            reads, target = dict(made_cells(module)), {}
            for wire in re.findall(rf"^  wire .*?({re.escape(MADE)}\S*)$", module, re.MULTILINE):
                found = wire
                while found in reads:
                    found = reads[found]
                if named := re.fullmatch(r"(\\\S+?)(?: (\[\d+(?::\d+)?\]))?", found):
                    target[wire] = named.group(1) + (named.group(2) or "") + ".stored"
                    own = re.search(rf"^  wire (.*?){re.escape(named.group(1))}$", module,
                                    re.MULTILINE)
                    shape = re.findall(r"offset -?\d+ |upto ",
                                       own.group(1)) if own and not named.group(2) else []
                    module = module.replace(f" {wire}\n", f" {''.join(shape)}{wire}\n", 1)
            file.write(re.sub(rf"{re.escape(MADE)}\S*", lambda made: target.get(made.group(),
                                                                                made.group()),
                              module))


def made_cells(module):
    """For each wire that a cell of async2sync reads, what that cell writes."""
    for cell in re.findall(rf"^  cell \S+ {re.escape(MADE)}.*?^  end$", module,
                           re.MULTILINE | re.DOTALL):
        pins = dict(re.findall(r"^    connect \\(\S+) (.*)$", cell, re.MULTILINE))
        for pin, value in pins.items():
            if pin != "Y" and value.startswith("$auto"):
                yield value, pins["Y"]


def mark_modules(folder, boxes, ports):
    """Makes the boxes black for yosys, so that flattening leaves them. A register of a cell is
    known by the net that the cell drives, and not by its own."""
    with open(os.path.join(folder, "read.il"), encoding="utf-8", errors="replace") as file:
        lines = file.readlines()
    with open(os.path.join(folder, "boxed.il"), "w", encoding="utf-8") as file:
        name, driven = None, driven_nets(lines, ports)
        for line in lines:
            if line.startswith("module "):
                name = line.split()[1]
                if name.removeprefix("\\") in boxes:
                    file.write("attribute \\blackbox 1\n")
            if line.startswith("  wire ") and (name, line.split()[-1]) in driven:
                file.write("  attribute \\bbeq_register 1\n")
            if (name is None or name.removeprefix("\\") not in ports
                    or line.split() != ["attribute", "\\bbeq_register", "1"]):
                file.write(line)


WORD = "bbeq."  # The kinds of operators on words that stay begin so.
# A sign counts in these alone.
SIGNED = ("add", "sub", "lt", "le", "gt", "ge", "eq", "ne", "shl", "shr")
UNSIGNED = ("reduce_and", "reduce_or", "reduce_xor", "reduce_xnor", "reduce_bool", "logic_not",
            "logic_and", "logic_or")
OPERATION = re.compile(
    rf"((?:^  attribute [^\n]*\n)*)^  cell \$({'|'.join(SIGNED + UNSIGNED)}) (.*?^  end\n)",
    re.MULTILINE | re.DOTALL)
BY_NUMBER = re.compile(r"^    connect \\B (\d+'[01]+|\d+)$", re.MULTILINE)


def mark_words(folder):
    """Calls unsigned operators on words so that they stay, but for shifts by a number, which need
    no cells, and for what an index is made of. The result is the place and the kind of each signed
    one."""
    told = []

    def marked(cell):
        attributes, kind, rest = cell.groups()
        if kind in SIGNED and re.search(r"^    parameter \\A_SIGNED (1'|32'0*)?1$", rest,
                                        re.MULTILINE):
            source = re.search(r'attribute \\src "([^\n"]*)"', attributes)
            told.append((place({"src": source.group(1) if source else ""}), kind))
            return cell.group()
        if "\\bbeq_index " in attributes or kind in ("shl", "shr") and BY_NUMBER.search(rest):
            return cell.group()
        return f"{attributes}  cell \\{WORD}{kind} {rest}"

    with open(os.path.join(folder, "words.il"), encoding="utf-8", errors="replace") as file:
        text = OPERATION.sub(marked, file.read())
    with open(os.path.join(folder, "left.il"), "w", encoding="utf-8") as file:
        file.write(text)
    return sorted(set(told), key=lambda one: (natural(one[0]), one[1]))
