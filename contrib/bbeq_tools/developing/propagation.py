"""Formulas and clause additions in the DIMACS format, and a plain checker of additions. It shares
nothing with the program: it counts the false literals of every clause again and again, and watches
none. A clause is a list of literals, a negative number being a complement."""
import itertools


def spelt(clauses):
    return "".join(" ".join(str(literal) for literal in [*clause, 0]) + "\n" for clause in clauses)


def formula(variables, clauses):
    """The text of a formula."""
    return f"p cnf {variables} {len(clauses)}\n{spelt(clauses)}"


def additions_in(text):
    """The clauses that a proof adds; deletions are passed over."""
    words = [word for line in text.split("\n") if not line.strip().startswith("c")
             for word in line.split()]
    found, clause = [], []
    for word in words:
        if word == "0":
            if clause[:1] != ["d"]:
                found.append([int(literal) for literal in clause])
            clause = []
        else:
            clause.append(word)
    return found


def follows(clauses, added):
    """The clause follows by unit propagation: with its literals false, and then each literal's
    complement that is the last of a clause, some clause has false literals alone. A literal and its
    complement may both be false, where the clause has both."""
    false = set(added)
    while True:
        before = len(false)
        for clause in clauses:
            left = set(clause) - false
            if not left:
                return True
            if len(left) == 1:
                false.add(-left.pop())
        if len(false) == before:
            return False


def first_without(clauses, additions):
    """The number, from 1, of the first addition that does not follow; None where all do up to the
    first empty clause, which is at the end of every list of additions."""
    known = list(clauses)
    for number, added in enumerate([*additions, []], 1):
        if not follows(known, added):
            return number
        if not added:
            return None
        known.append(added)
    return None


def has_model(variables, clauses):
    """Some assignment makes all clauses true, by trying all."""
    return any(all(any(bits[abs(literal) - 1] == (literal > 0) for literal in clause)
                   for clause in clauses)
               for bits in itertools.product((False, True), repeat=variables))


def refutation(clauses, chosen=()):
    """Additions that refute a formula without a model: where clauses are not refuted by what is
    chosen, one more literal is chosen, once in each way. Each addition denies what was chosen."""
    denied = [-literal for literal in chosen]
    if follows(clauses, denied):
        return [denied]
    literal = next(literal for clause in clauses
                   for literal in clause if not {literal, -literal} & set(chosen))
    return [*refutation(clauses, (*chosen, literal)), *refutation(clauses, (*chosen, -literal)),
            denied]


# Formulas

def drawn_clauses(draw, variables, count, widths):
    return [[draw.choice((1, -1)) * draw.randint(1, variables) for _ in range(draw.choice(widths))]
            for _ in range(count)]


def random_formula(draw, variables, ratio):
    """Clauses of three different variables."""
    return variables, [[draw.choice((1, -1)) * variable
                        for variable in draw.sample(range(1, variables + 1), 3)]
                       for _ in range(int(variables * ratio))]


def pigeons(holes):
    """One pigeon more than there are holes."""
    def stands(pigeon, hole):
        return pigeon * holes + hole + 1
    pairs = [[-stands(one, hole), -stands(other, hole)] for hole in range(holes)
             for one in range(holes + 1) for other in range(one)]
    return (holes + 1) * holes, [[stands(pigeon, hole) for hole in range(holes)]
                                 for pigeon in range(holes + 1)] + pairs


def parity_cycle(length):
    """Neighbours on a cycle of even length differ, but for one pair that is equal."""
    clauses = []
    for at in range(length):
        one, other = at + 1, (at + 1) % length + 1
        clauses += [[one, other], [-one, -other]] if at else [[one, -other], [-one, other]]
    return length, clauses


# Damage

def damaged(draw, clauses, additions):
    """The clauses and the additions after one change: an addition left out, a literal left out or
    turned, two additions exchanged, or a clause of the formula left out."""
    clauses, additions = [list(clause) for clause in clauses], [list(clause)
                                                                for clause in additions]
    kind = draw.randrange(5)
    wide = [clause for clause in additions if clause]
    if kind == 0 and additions:
        del additions[draw.randrange(len(additions))]
    elif kind == 1 and wide:
        clause = draw.choice(wide)
        del clause[draw.randrange(len(clause))]
    elif kind == 2 and wide:
        clause = draw.choice(wide)
        at = draw.randrange(len(clause))
        clause[at] = -clause[at]
    elif kind == 3 and len(additions) > 1:
        one, other = draw.sample(range(len(additions)), 2)
        additions[one], additions[other] = additions[other], additions[one]
    elif clauses:
        del clauses[draw.randrange(len(clauses))]
    return clauses, additions
