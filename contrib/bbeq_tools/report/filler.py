"""The text of an implementation in which modules with contents stand in the place of the empty
ones."""
import re

from bbeq_tools.cli import Fault
from bbeq_tools.report.contents import assign_lines, case_lines, casez_lines, sum_lines
from bbeq_tools.verilog.language import bit_text, tokens, written

STYLES = {"sums": sum_lines, "case": case_lines, "casez": casez_lines, "assign": assign_lines}


class Filler:
    """Finds the modules that are needed: one for each module and the contents below it."""

    def __init__(self, text, modules, tables, style, other="", parameters_of=None, shared=False):
        self.text, self.modules, self.tables, self.style, self.shared, self.attributes = (
            text, modules, tables, style, shared, [])
        self.other, self.parameters_of = other, parameters_of or {}
        tokens(text, self.attributes)
        self.names, self.variants, self.used, self.filled_keys = {}, {}, set(modules), set()

    def signature(self, module, path):
        """What stands in an instance: the tables of a box, and for other modules what stands in
        their instances."""
        if module.is_box() and path:
            self.filled_keys.add(self.key(module, path))
            return self.contents(module, path)
        below = []
        for instance in module.instances:
            if instance.module not in self.modules:
                raise Fault(f"line {instance.token.line}: there is no module {instance.module}")
            name = f"{path}.{instance.name}" if path else instance.name
            below.append(self.variant(self.modules[instance.module], name))
        return tuple(below)

    def key(self, module, path):
        """What the tables of a box are called by: its path, or its module where all boxes of one
        have the same."""
        return module.name if self.shared else path

    def contents(self, module, path):
        pins = [bit_text(net.name, index) for net, index in module.pins("output")]
        rows = 2 ** len(module.pins("input"))
        lines = self.tables.get(self.key(module, path), [])
        if [pin for pin, _ in lines] != pins or any(len(bits) != rows for _, bits in lines):
            other = self.other
            if not self.shared and module.name in self.tables:
                other = "its tables are those of modules, so give --shared"
            elif self.shared and path in self.tables:
                other = "its tables are those of boxes: leave --shared out, or give it to bbeq too"
            raise Fault(f"the report has no tables that fit box {path} of module "
                        f"{module.name}; {other}")
        return tuple(bits for _, bits in lines)

    def variant(self, module, path):
        """The name of the module that stands for this instance."""
        key = module.name, self.signature(module, path)
        if key not in self.names:
            first = all(name != module.name for name, _ in self.names)
            self.names[key] = (module.name if first
                               else self.fresh(f"{module.name}_{path.replace('.', '_')}"))
            self.variants.setdefault(module.name, []).append((self.names[key], key[1], path))
        return self.names[key]

    def check_parameters(self):
        """A module that the implementation has for several values of its parameters cannot be one
        module of the RTL."""
        for name in self.parameters_of:
            others = [other for other, module in self.modules.items() if module.is_box()
                      and re.fullmatch(rf"{re.escape(name)}_\d+", other)]
            if name in self.modules and others:
                raise Fault(f"{name} stands in the implementation for several values of its "
                            f"parameters, as {name} and {', '.join(others)}; "
                            "the contents of one are not those of the others, so leave --rtl out")

    def warnings(self):
        """The modules of the implementation of which one name cannot stand for all contents."""
        for module in self.modules.values():
            names = [(name, path) for name, contents, path in self.variants.get(module.name, ())
                     if contents and module.is_box() and path]
            if len(names) > 1:
                others = ", ".join(f"{path} is {name}" for name, path in names)
                yield f"instances of {module.name} have different contents: {others}"

    def fresh(self, wanted):
        name = wanted
        while name in self.used:
            name += "_"
        self.used.add(name)
        return name

    def fill(self, top, only):
        self.variant(top, "")
        others = sorted(set(self.tables) - self.filled_keys)
        if others:
            raise Fault(f"the implementation has no box {others[0]}, of which the report has a "
                        f"table; {self.other}")
        place, parts = 0, []
        for module in sorted(self.modules.values(), key=lambda module: module.start):
            if not only:
                parts.append(self.before(place, module))
            shown = []
            for name, signature, path in self.variants.get(module.name, [(module.name, None, "")]):
                if signature and module.is_box() and path:
                    shown.append(self.filled(module, name, signature, path))
                elif not only:
                    shown.append(self.copied(module, name, signature))
            parts.append("\n\n".join(shown) + "\n" * (only and bool(shown)))
            place = module.end
        return "".join(parts).rstrip("\n") + "\n"

    def before(self, place, module):
        """What stands before a module; attributes that call it a black box go where it is
        filled."""
        end = module.start
        attributes = [span for span in self.attributes if place <= span[0] < end]
        if not any(contents and module.is_box() and path
                   for _, contents, path in self.variants.get(module.name, ())):
            attributes = []
        kept = []
        for start, stop in attributes:
            kept.append(self.text[place:start])
            place = stop
        return ("".join(kept).rstrip(" \n") + "\n" * bool(kept)
                + self.text[place:end].lstrip("\n" if kept else ""))

    def copied(self, module, name, signature):
        """The module's own text, with the names of the modules that it instantiates changed where
        that is due."""
        edits, last = [(module.token.start, module.token.end, written(name))], None
        for instance, wanted in zip(module.instances, signature or ()):
            if instance.comma is None:
                edits.append((instance.token.start, instance.token.end, written(wanted)))
            elif wanted != last:
                edits.append((instance.comma.start, instance.comma.end, f";\n  {written(wanted)} "))
            last = wanted
        text, place = [], module.start
        for start, end, new in edits:
            text += [self.text[place:start], new]
            place = end
        return "".join(text) + self.text[place:module.end]

    def filled(self, module, name, contents, path):
        key = self.key(module, path)
        same = 1 if self.shared else sum(1 for other in self.filled_keys
                                         if self.tables.get(other) == self.tables[key])
        whose = key if same == 1 else f"{key} and {same - 1} more"
        ports = [module.nets[port] for port in module.ports]
        lines = [f"// The contents of {whose}, as bbeq found them.",
                 f"module {written(name)}{self.parameters_of.get(module.name, '')}("
                 f"{', '.join(written(net.name) for net in ports)});"]
        for net in ports:
            bounds = f"[{net.range[0]}:{net.range[1]}] " if net.range else ""
            lines.append(f"  {net.direction} {bounds}{written(net.name)};")
        body = STYLES[self.style] if module.pins("input") else assign_lines
        return "\n".join([*lines, *body(module, contents), "endmodule"])
