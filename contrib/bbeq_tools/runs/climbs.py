"""What is tried of a pair that is open, what pays most first (docs/REPORT.md, "Where the verdict is
open")."""
import os

from bbeq_tools.cli import Fault, python_call

MOST_NODES, NODES = 50_000_000, 1_000_000
MOST_CLAUSES = 8_000_000


def value_of(words, option, without):
    """The value that the words give to an option."""
    for at, word in enumerate(words):
        if word.startswith(f"--{option}="):
            return word.partition("=")[2]
        if word == f"--{option}" and at + 1 < len(words):
            return words[at + 1]
    return without


def without(words, option):
    """The words without an option that has a value."""
    kept, passed = [], False
    for word in words:
        if passed:
            passed = False
        elif word == f"--{option}":
            passed = True
        elif not word.startswith(f"--{option}="):
            kept.append(word)
    return kept


def with_value(words, option, value):
    """The words with another value of an option."""
    return (*without(words, option), f"--{option}={value}")


def budgets(first, most, factor=4):
    """Budgets that grow up to the most that there may be."""
    while first < most:
        yield first
        first *= factor
    yield most


def order_command(specification, top, path):
    """Writes the specification with its ports in the order of `order`."""
    return [*python_call("rtl.order"), "--no-count", *([f"--top-spec={top}"] if top else []), "-o",
            path, "--", specification]


def ordered(job, folder):
    """The job with its specification's ports in the order of `order`."""
    import subprocess
    path = os.path.join(folder, f"{job.name}.v")
    done = subprocess.run(order_command(job.specification, value_of(job.words, "top-spec", None),
                                        path), stderr=subprocess.DEVNULL, check=False)
    return job if done.returncode else job._replace(specification=path)


def more_nodes(job, _folder):
    nodes = value_of(job.words, "nodes", str(NODES))
    if not nodes.isdecimal():
        raise Fault(f"--nodes {nodes} is no number")
    most = max(int(nodes), min(10 * int(nodes), MOST_NODES))
    return job._replace(words=with_value(job.words, "nodes", most))


def more_clauses(job, _folder):
    return job._replace(words=with_value(job.words, "clauses", MOST_CLAUSES))


def wants_nodes(report):
    return any(line.startswith("rung ") and line.endswith(" nodes") for line in report.splitlines())


def wants_clauses(report):
    return "rung expand clauses" in report.splitlines()


# Each with its name, when it can help, and the job that it makes of the one before.
STEPS = (("ports in order", wants_nodes, ordered), ("ten times the nodes", wants_nodes, more_nodes),
         ("the most clauses", wants_clauses, more_clauses))
