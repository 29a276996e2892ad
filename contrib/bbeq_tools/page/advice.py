"""The verdict of a report in plain words, and what to do next."""
from typing import List, NamedTuple, Optional

from bbeq_tools.page.account import Account
from bbeq_tools.page.document import marked, on_open, on_refusal, without_references
from bbeq_tools.page.markup import Markup, code, counted, joined
from bbeq_tools.page.sides import Side

DEFAULT_CLAUSES = 2_000_000


class Advice(NamedTuple):
    """A heading, what it means, and what to do, of which the first pays most."""

    title: str
    meaning: List[Markup]
    steps: List[Markup]


class Words(NamedTuple):
    """What was said of a run beside its report."""

    report: str
    spec: str
    impl: str
    care: Optional[str]
    shared: bool


def sentence(*children: str) -> Markup:
    return joined(children)


def command(name: str, words: Words, *more: str) -> Markup:
    """A command of bbeq-tools with the files of this run."""
    return code(" ".join([f"bbeq-{name}", *map(quoted, (words.report, *more))]))


def quoted(word: str) -> str:
    is_plain = word and all(letter.isalnum() or letter in "._-/+:@%" for letter in word)
    return word if is_plain else "'" + word.replace("'", "'\\''") + "'"


def scope(words: Words) -> str:
    where = ("every vector at which " + words.care + " is 1" if words.care
             else "every vector of inputs and registers")
    return where


def for_ever(account: Account, words: Words) -> List[Markup]:
    """What an invariant adds to equal next states."""
    if account.invariant != "kept":
        return []
    name = code(words.care or "the invariant")
    return [sentence("Each clock event keeps ", name, ", so outputs and states stay equal for ever "
                     "from states in which it is 1 whatever the inputs are. That the initial "
                     "states are such is for you to show.")]


def on_repairable(account: Account, words: Words, boxes: int) -> Advice:
    if not boxes:
        return Advice("Equivalent", [sentence(
            "The two designs give the same outputs and next states at ", scope(words), "."),
            *for_ever(account, words)], [
                sentence("Nothing is left to do: the implementation has no box.")])
    whose = "each empty module" if words.shared else "each box"
    return Advice("The design can be finished", [sentence(
        f"With the contents below for {whose} the two designs give the same outputs and next "
        "states at ", scope(words), "."), *for_ever(account, words)], [
            sentence("Write the implementation with its boxes filled: ",
                     command("fill", words, words.impl, "-o", "filled.v"), "."),
            sentence("Or have bbeq print the finished circuit, of which all is proved: give it the "
                     "same words and ", code("--fill"), ".")])


SEVERAL = ("No single vector shows it: at each the boxes could be right, and no one function of "
           "their input pins is right at all.")
UNSEEN = "The checks that show a vector were left out of this run, so a single vector may show it."


def on_error(account: Account, words: Words, boxes: int) -> Advice:
    whose = "that are the same in all boxes of a module " if words.shared else ""
    if account.vectors:
        check, named, _ = account.vectors[0]
        place = (joined(["at ", "the next state of " if named[0] == "next" else "output ",
                         code(named[1])]) if named else "at some output or next state")
        meaning = sentence("At the vector below the two designs differ ", place, ", whatever the "
                           "boxes contain." if boxes else ".")
        steps = [sentence("No wire is red, since the output depends on the boxes: it is wrong "
                          "whatever they give, as where a signal of a box meets its own "
                          "complement. Follow the dashed wires back to where they meet.")
                 if check == "local" else
                 sentence("Follow the red wires of the drawing back from the output: the mistake "
                          "is among the gates that they pass, or these read the wrong signal.")
                 if named else
                 sentence("Find the outputs that cannot be right together at this vector: ",
                          command("why", words, words.spec, words.impl), "."),
                 sentence("The same as waves for a viewer: ",
                          command("wave", words, words.spec, words.impl), ".")]
        return Advice("There is an error outside the boxes" if boxes else "The two designs differ",
                      [meaning], steps)
    meaning = sentence(f"No contents {whose}make the two designs equivalent. "
                       + (SEVERAL if "rung output none" in account.lines else UNSEEN))
    steps = [sentence("Most often a box lacks a pin: something that its output has to depend on "
                      "does not reach it. Compare what the outputs depend on with the pins of the "
                      "boxes, below."),
             sentence("Find the few outputs that already contradict each other: ",
                      command("why", words, words.spec, words.impl), ".")]
    if "rung output none" not in account.lines:
        steps.insert(0, sentence("Look for one vector: the same words with ", code("--to output"),
                                 " and without ", code("--from"), "."))
    if words.shared:
        steps.insert(0, sentence("Run the same words without ", code("--shared"), ": if the "
                                 "verdict is then ", code("repairable"), ", boxes of one module "
                                 "need different contents."))
    return Advice("No contents of the boxes suit", [meaning], steps)


def size_of(side: Side) -> Markup:
    """The numbers of this run that decide how far the checks get."""
    numbers, boxes = side.numbers(), side.flat.boxes
    bits = sum(len(box.outs) << len(box.parts) for box in boxes)
    given = numbers.inputs + numbers.registers
    widest = max(boxes, key=lambda box: len(box.parts), default=None)
    parts = [f"This run: {counted(given, 'input or register', 'inputs and registers')}, "
             f"{counted(numbers.cells, 'gate')}, {counted(len(boxes), 'box', 'boxes')}"]
    if widest is not None:
        parts.append(joined([", the widest ", code(widest.path), f" with "
                             f"{counted(len(widest.parts), 'input pin')}; their tables have "
                             f"{counted(bits, 'bit')} together"]))
    parts.append(f". A vector takes at most {counted(numbers.clauses, 'clause')}, so the default "
                 f"of {DEFAULT_CLAUSES:,} clauses holds {vectors_held(numbers.clauses, given)}.")
    return joined(parts)


def vectors_held(clauses: int, given: int) -> str:
    held = DEFAULT_CLAUSES // max(1, clauses)
    if given < 60 and held >= 2 ** given:
        return f"all {2 ** given:,} vectors"
    return f"{f'about {held:,}' if held else 'not one'} of 2^{given} vectors"


def has_siblings(side: Side) -> bool:
    """Whether two boxes are instances of one module, which --shared is for."""
    modules = [box.module for box in side.flat.boxes]
    return len(set(modules)) < len(modules)


def on_broken(words: Words) -> Advice:
    name = code(words.care or "the output")
    return Advice("The invariant is not kept", [sentence(
        "The clock event below begins in a state in which ", name, " is 1, and ends in one in "
        "which it is 0. So it is no invariant of the specification, and no check ran.")], [
            sentence("If the state before the event never comes, let ", name,
                     " be 0 in that state too."),
            sentence("If it comes, let ", name, " be 1 in the states that the event leads to, "
                     "whatever the inputs are then."),
            sentence("Run the same words again.")])


def on_unknown(sides: List[Side]) -> Advice:
    return Advice("Open", [sentence(
        "Whether each clock event keeps the invariant could not be found out, so no check ran. "
        "This is no fault of the design."), *([size_of(sides[1])] if sides else [])],
                  list(map(marked, on_open("invariant open"))))


def on_undecided(account: Account, sides: List[Side]) -> Advice:
    rungs = [f"rung {check.name} {check.result}" for check in account.checks[-1:]]
    meaning = [sentence("The checks that were run can tell neither that the design can be "
                        "finished nor that it cannot. This is no fault of the design.")]
    if sides:
        meaning.append(size_of(sides[1]))
    meaning.append(sentence("What to do is from docs/REPORT.md, ",
                            "“Where the verdict is open”, which describes each."))
    can_share = not sides or has_siblings(sides[1])
    steps = [marked(text) for rung in rungs for text in on_open(rung)
             if can_share or "`--shared`" not in text]
    steps += [marked(without_references(line[4:])) for line in account.head
              if line.startswith("try ")]
    return Advice("Open", meaning, steps)


def on_refused(account: Account) -> Advice:
    means, do = on_refusal(account.lines[0])
    is_unread = account.verdict == "unread"
    meaning = [sentence("Nothing was compared.")] + [marked(f"It means: {means}.")] * bool(means)
    steps = [marked(do[:1].upper() + do[1:] + ".")] if do else []
    return Advice("A file could not be read" if is_unread else "Refused", meaning, steps)


def on_refutation(account: Account) -> Advice:
    if account.lines[0] == "rup yes":
        return Advice("The proof is right", [sentence(
            "Each of its additions follows by unit propagation from the formula and those before "
            "it, so no assignment makes all clauses of the formula true.")], [])
    number = account.lines[0].split(" ")[-1]
    return Advice("The proof fails", [sentence(
        f"Addition {number} is the first that does not follow by unit propagation from the formula "
        "and the additions before it. This says nothing of the formula.")], [
            sentence("Look at that addition, below. A step that is RAT and not RUP is not taken, "
                     "nor is one that uses a variable of its own.")])


def advice(account: Account, words: Words, sides: List[Side]) -> Advice:
    boxes = len(sides[1].flat.boxes) if sides else 1
    if account.verdict == "repairable":
        return on_repairable(account, words, boxes)
    if account.verdict == "error":
        return on_error(account, words, boxes)
    if account.invariant == "broken":
        return on_broken(words)
    if account.invariant == "open":
        return on_unknown(sides)
    if account.verdict == "open":
        return on_undecided(account, sides)
    return on_refutation(account) if account.verdict == "rup" else on_refused(account)
