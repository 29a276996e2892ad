"""What yosys reads for `gates`: the run over the sources, its warnings and errors as lines of one
form, and the top module."""
import json
import os
import re
import shutil
import subprocess
from typing import Dict

from bbeq_tools.cli import Fault
from bbeq_tools.rtl.dialect import advice, misread_arrays


UNKNOWN = "a line that yosys does not know"
READ = """{reads}
setattr -mod -unset blackbox =A:blackbox
setattr -mod -unset whitebox =A:whitebox
{parameters}
{modules}
hierarchy -check {top}
write_rtlil "{folder}/raw.il"
proc -norom
tribuf
write_json "{folder}/read.json"
"""
# What gates tells itself with its line, or what changes nothing that is compared: words of a memory
# are registers in either case.
TOLD_ELSEWHERE = ("Yosys has only limited support for tri-state", "Complex async reset",
                  "Replacing memory")


def place(attributes, fallback=UNKNOWN):
    """The first source line of a cell or a net that is not one of yosys' own files."""
    for source in attributes.get("src", "").split("|"):
        found = re.match(r"(.*):(\d+)(\.\d+.*)?$", source)
        if found and int(found.group(2)) and "/share/yosys/techmap" not in source:
            return f"{told(found.group(1))}:{found.group(2)}"
    return fallback


def natural(name):
    """A key that sorts names with numbers as a person would."""
    return [(1, int(part), "") if part.isdigit() else (0, 0, part)
            for part in re.split(r"(\d+)", name) if part]


def run_yosys(script, folder):
    """Runs yosys on a script and gives its log; its error is the fault."""
    path = os.path.join(folder, "script.ys")
    with open(path, "w", encoding="utf-8") as file:
        file.write(script)
    done = subprocess.run(["yosys", "-Q", "-T", "-s", path], capture_output=True, text=True,
                          errors="replace", check=False)
    if done.returncode:
        lines = [line for line in (done.stderr + done.stdout).splitlines() if "ERROR" in line]
        missing = re.search(r"Module `\\\\?(\S+)' referenced in module", lines[0] if lines else "")
        if missing:
            raise Fault(f"module {missing.group(1)} is not in the sources; an empty module with "
                        "its ports makes it a box")
        parameter = re.search(r"Can't find object for defparam `(.*)`", lines[0] if lines else "")
        if parameter:
            raise Fault(f"the top has no parameter {parameter.group(1)}")
        given = re.search(r"Module `(\S+)' referenced in .* not have a parameter named '(\w+)'",
                          lines[0] if lines else "")
        if given:
            raise Fault(f"module {given.group(1)} has no parameter {given.group(2)}, which an "
                        "instance gives; `fill --rtl FILE` writes it with those of the RTL")
        if done.returncode < 0:
            raise Fault(f"yosys was ended by signal {-done.returncode}, as where modules "
                        "instantiate each other without end")
        raise Fault(advice(told(re.sub(r"\s*ERROR:\s*", " ", lines[0]).strip())) if lines
                    else f"yosys ended with {done.returncode}")
    return done.stdout + done.stderr


# The user's names of what stands in the folder of the script.
NAMES: Dict[str, str] = {}
# A name in which yosys sees no pattern, quotation or option.
PLAIN = re.compile(r"[A-Za-z0-9_.+][A-Za-z0-9_.+-]*")
# So far below the folder that no path of a source leads out of it.
INNER = os.path.join(*["inner"] * 16)


def told(text):
    """A text of yosys with the user's names in it."""
    for own in sorted(NAMES, key=len, reverse=True):
        text = text.replace(own, NAMES[own])
    return text


class Files:
    """The sources and folders under names of the script's own making, since yosys expands patterns
    in the names that it is given, and would read another file than the one named. A source is
    reached through a link to its folder, so that what it includes is found beside it as ever; one
    whose own name yosys would not take, through a link of its own, with its folder as the first to
    look in."""

    def __init__(self, words, folder):
        NAMES.clear()
        self.folder, self.count = folder, 0
        os.makedirs(os.path.join(folder, INNER))
        self.files = [self.stand_in(path) for path in words.files]
        self.cells = [self.stand_in(path) for path in words.cells]
        self.options = [f"-I{self.link_folder(path)}" for path in words.include]

    def own(self, name):
        self.count += 1
        return os.path.join(self.folder, name.format(self.count))

    def link_folder(self, path):
        if path and not os.path.isdir(path):
            raise Fault(f"{path}: there is no such folder")
        own = self.own("folder{}")
        os.symlink(os.path.abspath(path), own)
        NAMES[own + "/"] = os.path.join(path, "")
        return own

    def stand_in(self, path):
        """The name by which yosys reads a source, and the options that it needs."""
        name = "standard input" if path == "-" else path
        if path != "-" and os.path.isdir(path):
            raise Fault(f"{path}: this is a folder, and a file is needed")
        if path != "-" and not os.path.exists(path):
            raise Fault(f"{path}: there is no such file")
        folder, base = os.path.split(path)
        options = []
        if path == "-" or not os.path.isfile(path):  # A pipe or a device is read once.
            own = self.own(os.path.join(INNER, "source{}"))
            with open(0 if path == "-" else path, "rb",
                      closefd=path != "-") as source, open(own, "wb") as copy:
                shutil.copyfileobj(source, copy)
        elif PLAIN.fullmatch(base):
            own = os.path.join(self.link_folder(folder), base)
        else:
            options.append(f"-I{self.link_folder(folder)}")
            own = self.own(os.path.join(INNER,
                                        "source{}.sv" if path.endswith(".sv") else "source{}.v"))
            os.symlink(os.path.abspath(path), own)
        NAMES[own] = name
        with open(own, "rb") as file:
            front = file.read(4)
        if not front:
            raise Fault(f"{name}: the file is empty")
        if front.startswith((b"\xef\xbb\xbf", b"\xff\xfe", b"\xfe\xff")):
            raise Fault(f"{name}: it begins with a byte order mark, which is no Verilog; save it "
                        "as plain text without one")
        return own, options

    def turned(self, options):
        """All sources as one file of Verilog, which sv2v writes."""
        if not shutil.which("sv2v"):
            raise Fault("sv2v is not installed (it stands at github.com/zachjs/sv2v)")
        both = self.files + self.cells
        words = [*options, *[option for _, more in both for option in more],
                 *[own for own, _ in both]]
        done = subprocess.run(["sv2v", *words], capture_output=True, text=True, errors="replace",
                              check=False)
        if done.returncode:
            raise Fault("sv2v: " + told((done.stderr.strip() or "no word").splitlines()[0]))
        own = self.own("turned{}.v")
        NAMES[own] = "what sv2v wrote"
        with open(own, "w", encoding="utf-8") as file:
            file.write(done.stdout)
        self.files, self.cells = [(own, [])], []


def read_script(words, files, folder):
    options = [f"-D{name}" for name in words.define] + files.options
    if words.sv2v:
        files.turned(options)
    elif any(path.endswith(".sv") for path in words.files + words.cells):
        options.append("-sv")
    if words.top and not words.parameter:
        options.append("-defer")  # Other modules of a library are not looked at.
    reads = [f'read_verilog -icells {" ".join(more + options)} "{own}"'
             for own, more in files.files + files.cells]
    parameters = [f"chparam -set {' '.join(setting.split('=', 1))} {words.top}"
                  for setting in words.parameter]
    return READ.format(reads="\n".join(reads), folder=folder, parameters="\n".join(parameters),
                       top=f"-top {words.top}" if words.top else "-auto-top",
                       modules="" if words.top else f'write_rtlil "{folder}/modules.il"')


def load(folder, name):
    with open(os.path.join(folder, name), encoding="utf-8", errors="replace") as file:
        return json.load(file)["modules"]


class Sources:
    """What yosys read: the modules that the top needs, the top's name, those that are cells, and
    the warnings, a line each."""

    def __init__(self, words, folder):
        files = Files(words, folder)
        script = read_script(words, files, folder)
        for own, _ in [] if words.sv2v else files.files + files.cells:
            misread = misread_arrays(own, folder) if own.endswith(".sv") else None
            if misread:
                raise Fault(told(misread))
        log = run_yosys(script, folder)
        modules = load(folder, "read.json")
        if not modules:
            raise Fault(f"no module stands in {', '.join(words.files)}")
        self.top = find_top(modules)
        used = reachable(modules, self.top)
        if not words.top:
            others = other_tops(used, folder)
            if others:
                names = ", ".join([self.top, *others])
                raise Fault("several modules could be the top, since no module instantiates them: "
                            f"{names}; choose one by --top, as in --top {self.top}")
        self.modules = {name: module for name, module in modules.items() if name in used}
        self.cells = {name for name, module in self.modules.items() if module["attributes"].get(
            "src", "").rsplit(":", 1)[0] in {own for own, _ in files.cells}}
        self.warnings = warnings(log, modules)


def find_top(modules):
    tops = [name
            for name, module in modules.items() if int(module["attributes"].get("top", "0"), 2)]
    if not tops:
        raise Fault("there is no top module; name one by --top")
    return tops[0]


def base(kind):
    """The name that the source gives to a module of which parameters made this one."""
    return kind.split("\\")[1] if kind.startswith("$paramod") else kind


def reachable(modules, top):
    """The top and the modules below it."""
    found, open_ones = {top}, [top]
    while open_ones:
        kinds = {cell["type"] for cell in modules[open_ones.pop()]["cells"].values()}
        open_ones += [kind for kind in kinds if kind in modules and kind not in found]
        found |= kinds
    return found


def other_tops(used, folder):
    """The modules with content that nothing instantiates and the top does not use; none where the
    source marks its top."""
    content, instantiated = set(), set()
    with open(os.path.join(folder, "modules.il"), encoding="utf-8", errors="replace") as file:
        name, attributes = None, set()
        for line in file:
            parts = line.split(None, 2)
            if line.startswith("attribute "):
                attributes.add(parts[1])
            elif parts[:1] == ["module"]:
                name = parts[1].removeprefix("\\")
                if "\\top" in attributes:
                    return []
                is_none, attributes = "\\is_interface" in attributes, set()
            elif parts[:1] in (["cell"], ["connect"], ["process"], ["memory"]):
                if not is_none:
                    content.add(name)
                if parts[0] == "cell" and parts[1] != "\\" + name:
                    instantiated.add(parts[1].removeprefix("\\"))
    return sorted(content - instantiated - {base(kind) for kind in used}, key=natural)


def warnings(log, modules):
    """What yosys warned of while it read the sources, with the line where it knows it."""
    found = []
    for line in log.splitlines():
        warned = re.match(r"(?:(.*):(\d+)(?:\.\d+\S*)?: )?Warning: (.*)$", line)
        if warned and not warned.group(3).startswith(TOLD_ELSEWHERE):
            source = f"{told(warned.group(1))}:{warned.group(2)}: " if warned.group(1) else ""
            found.append(warning(source, told(warned.group(3)), modules))
    return sorted(set(found), key=natural)


def warning(source, text, modules):
    implicit = re.match(r"Identifier `\\?(.*)' is implicitly declared", text)
    if implicit:
        package = (f"; a name of a package is PACKAGE::{implicit.group(1)}"
                   if re.match(r".*\.sv:\d+: $", source) else "")
        return (f"{source}warning: {implicit.group(1)} is not declared, and is taken for a wire of "
                f"one bit{package}")
    resized = re.match(r"Resizing cell port (.*) from (\d+) bits to (\d+) bits", text)
    if resized:
        return resized_port(resized.group(1), int(resized.group(2)), int(resized.group(3)), modules)
    behind = re.match(r"(.*?)\.? (?:at|See) (\S+):(\d+)(?:\.[-.\d]*)?\.?$", text)
    if behind and not source:
        source, text = f"{behind.group(2)}:{behind.group(3)}: ", behind.group(1)
    return source + "warning: " + re.sub(r"[`']\\?([^' ]+)'", r"\1", text).rstrip(".")


def resized_port(path, given, wanted, modules):
    """The warning of a connection whose width is not the port's; yosys calls it
    MODULE.INSTANCE.PORT and tells no line."""
    for name, module in modules.items():
        for key, cell in module["cells"].items():
            if path.startswith(f"{name}.{key}.") and path[len(name) + len(key)
                                                          + 2:] in cell["connections"]:
                port = path[len(name) + len(key) + 2:]
                return (f"{place(cell['attributes'])}: warning: port {port} of {key} in "
                        f"{base(name)} has width {wanted}, and what is connected has width {given}")
    return f"warning: port {path} has width {wanted}, and what is connected has width {given}"
