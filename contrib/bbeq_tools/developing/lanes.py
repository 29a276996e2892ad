"""A made pair of lanes that share nothing, each with a box: for measures, and for tries of `parts`
and `run`. As a script of its own it writes spec.v and impl.v: `python3 contrib/lanes.py LANES CELLS
FOLDER`."""
import os
import random
import sys

GATES = ("and", "nor", "xor", "xor", "xnor", "xnor")
INPUTS, OUTPUTS, PINS = 10, 4, 4


class Lane:
    """A circuit over inputs of its own, of which each gate reads the one before. In the middle
    there are gates that in the implementation are a box."""

    def __init__(self, name, cells, draw):
        self.name, self.inputs = name, [f"{name}x{at}" for at in range(INPUTS)]
        bits, self.gates = list(self.inputs), []
        for at in range(cells - PINS):
            if at == cells // 2:
                self.pins = draw.sample(bits[-2 * INPUTS:], PINS)
                one, two, three, four = self.pins
                self.hidden = [f"xor({name}h, {one}, {two});", f"and({name}k, {three}, {four});",
                               f"or({name}z, {name}h, {name}k);"]
                bits.append(f"{name}z")
            self.gates.append(f"{draw.choice(GATES)}({name}n{at}, {bits[-1]}, "
                              f"{draw.choice(bits[-2 * INPUTS:-1])});")
            bits.append(f"{name}n{at}")
        self.outputs = bits[-OUTPUTS:]

    def lines(self, is_filled):
        return self.gates + (self.hidden if is_filled
                             else [f"hole {self.name}u({', '.join(self.pins)}, {self.name}z);"])


def lanes_pair(lanes, cells, seed=1):
    """The two texts."""
    draw = random.Random(seed)
    made = [Lane(f"l{at}", cells, draw) for at in range(lanes)]
    texts = []
    for is_filled in (True, False):
        ins, outs = [bit for lane in made for bit in lane.inputs], [bit for lane in made
                                                                    for bit in lane.outputs]
        lines = [f"module lanes({', '.join(ins + outs)});", f"  input {', '.join(ins)};",
                 f"  output {', '.join(outs)};"]
        lines += [f"  {line}" for lane in made for line in lane.lines(is_filled)] + ["endmodule"]
        if not is_filled:
            lines += ["module hole(a, b, c, d, z);", "  input a, b, c, d;", "  output z;",
                      "endmodule"]
        texts.append("\n".join(lines) + "\n")
    return texts


def main():
    lanes, cells, folder = sys.argv[1:]
    os.makedirs(folder, exist_ok=True)
    for name, text in zip(("spec.v", "impl.v"), lanes_pair(int(lanes), int(cells))):
        with open(os.path.join(folder, name), "w", encoding="ascii") as file:
            file.write(text)


if __name__ == "__main__":
    main()
