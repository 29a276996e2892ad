"""The words of the program that commands take and hand on."""

CHECKS = ("ternary", "symbolic", "local", "output", "input", "expand")
# The values, each with what it says and whether it is of the texts and not of how they are checked.
VALUES = {"top-spec": "the top module of SPEC (otherwise the one that no module instantiates)",
          "top-impl": "the top module of IMPL",
          "care": "the bit of an output of SPEC that says where the two have to agree",
          "invariant": "the bit of an output of SPEC that is an invariant of its registers",
          "patterns": "how many vectors `ternary` draws (default 32)",
          "seed": "where the drawing starts (default 1)",
          "cache": "how many results diagrams remember (default 65536)",
          "nodes": "how many nodes a check by diagrams may hold (default 1000000)",
          "clauses": "how many clauses `expand` may hold (default 2000000)"}
FLAGS = {"shared": "all instances of one empty module have the same contents",
         "proof": "print the proof of a mistake that `expand` finds"}


def add_program_words(parser, helps=None):
    """Adds the words to a parser; `helps` has those that mean another thing to the command."""
    for option, text in VALUES.items():
        parser.add_argument(f"--{option}", metavar="VALUE", help=(helps or {}).get(option, text))
    for option, text in FLAGS.items():
        parser.add_argument(f"--{option}", action="store_true", help=text)


def program_words(words, without=()):
    """The words for the program, of those that were given."""
    given = {option: getattr(words, option.replace("-", "_"))
             for option in VALUES if option not in without}
    return [f"--{option}={value}" for option, value in given.items()
            if value is not None] + [f"--{flag}" for flag in FLAGS if getattr(words, flag)]


def unknown_word(words):
    """The first word that is none of the program, among those that are options and their values."""
    known = {*FLAGS, "all", "fill"}
    valued = {*VALUES, "from", "to"}
    left = iter(words)
    for word in left:
        option, is_joined, _ = word[2:].partition("=")
        if not word.startswith("--") or option not in known | valued or (is_joined
                                                                         and option in known):
            return word
        if option in valued and not is_joined and next(left, None) is None:
            return f"{word} (without a value)"
    return None
