"""A small solver of clauses that learns from conflicts (Marques-Silva and Sakallah, 1996). It tells
of mistakes beside boxes whether some contents hide them, with no word of the program's. A literal
is twice its variable, and one more where it is negated."""
import heapq
from typing import List, Optional, Tuple

Clause = List[int]
STEP, MOST = 1.05, 1e100


class Solver:
    def __init__(self) -> None:
        self.values: List[int] = []  # Of each literal: 1 true, -1 false, 0 neither yet.
        self.watches: List[List[Clause]] = []
        self.levels: List[int] = []
        self.reasons: List[Optional[Clause]] = []
        self.worth: List[float] = []
        self.last: List[int] = []  # The literal of each variable that was true last.
        self.order: List[Tuple[float, int]] = []
        self.trail: List[int] = []
        self.starts: List[int] = []
        self.head, self.step, self.is_refuted = 0, 1.0, False

    def variable(self) -> int:
        """A new variable, as its literal."""
        number = len(self.levels)
        self.values += [0, 0]
        self.watches += [[], []]
        self.levels.append(0)
        self.reasons.append(None)
        self.worth.append(0.0)
        self.last.append(2 * number + 1)
        heapq.heappush(self.order, (0.0, number))
        return 2 * number

    def add(self, literals: Clause) -> None:
        """Adds a clause; what was decided before is forgotten."""
        self.back(0)
        clause = [literal for literal in dict.fromkeys(literals) if self.values[literal] >= 0]
        if any(self.values[literal] > 0 or literal ^ 1 in clause for literal in clause):
            return
        if len(clause) > 1:
            self.watch(clause)
        elif clause:
            self.put(clause[0], None)
            self.is_refuted = self.is_refuted or self.propagate() is not None
        else:
            self.is_refuted = True

    def watch(self, clause: Clause) -> None:
        for literal in clause[:2]:
            self.watches[literal].append(clause)

    def put(self, literal: int, reason: Optional[Clause]) -> None:
        self.values[literal], self.values[literal ^ 1] = 1, -1
        number = literal >> 1
        self.levels[number], self.reasons[number] = len(self.starts), reason
        self.last[number] = literal
        self.trail.append(literal)

    def back(self, level: int) -> None:
        if len(self.starts) > level:
            start = self.starts[level]
            for literal in self.trail[start:]:
                self.values[literal] = self.values[literal ^ 1] = 0
                heapq.heappush(self.order, (-self.worth[literal >> 1], literal >> 1))
            del self.trail[start:], self.starts[level:]
            self.head = start

    def propagate(self) -> Optional[Clause]:
        """Puts what follows from single clauses; the clause that is false then, if there is one."""
        values, watches = self.values, self.watches
        while self.head < len(self.trail):
            false = self.trail[self.head] ^ 1
            self.head += 1
            kept: List[Clause] = []
            watching, watches[false] = watches[false], kept
            for at, clause in enumerate(watching):
                if clause[0] == false:
                    clause[0], clause[1] = clause[1], false
                if values[clause[0]] > 0:
                    kept.append(clause)
                    continue
                place = next((place for place in range(2, len(clause))
                              if values[clause[place]] >= 0), 0)
                if place:
                    clause[1], clause[place] = clause[place], false
                    watches[clause[1]].append(clause)
                    continue
                kept.append(clause)
                if values[clause[0]] < 0:
                    kept += watching[at + 1:]
                    return clause
                self.put(clause[0], clause)
        return None

    def bump(self, number: int) -> None:
        self.worth[number] += self.step
        if self.worth[number] > MOST:
            self.worth = [worth / MOST for worth in self.worth]
            self.step /= MOST
            self.order = [(-worth, at) for at, worth in enumerate(self.worth)]
            heapq.heapify(self.order)

    def learn(self, conflict: Clause) -> None:
        """Resolves up to the first literal of the last level on which all others rest, and goes
        back to where what is learned puts it."""
        level, seen, learned, open_ones = len(self.starts), set(), [], 0
        clause, at, literal = conflict, len(self.trail), -1
        while True:
            for other in clause:
                number = other >> 1
                if other != literal and number not in seen and self.levels[number]:
                    seen.add(number)
                    self.bump(number)
                    if self.levels[number] == level:
                        open_ones += 1
                    else:
                        learned.append(other)
            at -= 1
            while self.trail[at] >> 1 not in seen:
                at -= 1
            literal, open_ones = self.trail[at], open_ones - 1
            if not open_ones:
                break
            clause = self.reasons[literal >> 1] or []
        learned.sort(key=lambda other: -self.levels[other >> 1])
        self.back(self.levels[learned[0] >> 1] if learned else 0)
        learned.insert(0, literal ^ 1)
        if len(learned) > 1:
            self.watch(learned)
        self.put(learned[0], learned)
        self.step *= STEP

    def solve(self, most: int) -> Optional[bool]:
        """Whether all clauses can be true, or None after so many conflicts. What is true then
        stands in `last`."""
        self.back(0)
        while not self.is_refuted:
            conflict = self.propagate()
            if conflict is None:
                literal = self.free()
                if literal is None:
                    return True
                self.starts.append(len(self.trail))
                self.put(literal, None)
            elif not self.starts:
                self.is_refuted = True
            elif not most:
                return None
            else:
                most -= 1
                self.learn(conflict)
        return False

    def free(self) -> Optional[int]:
        """The literal to decide next."""
        while self.order:
            _, number = heapq.heappop(self.order)
            if not self.values[2 * number]:
                return self.last[number]
        return None
