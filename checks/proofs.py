"""Reads proofs in the three formats that the program writes, and checks each line by the definition, the slow way.

In DRAT, as text or in binary, an added clause must follow by unit propagation (RUP), or on its first literal (RAT), from the clauses that
are alive, and a deletion must name a clause of two literals or more that is. In LRAT the hints of an added clause are followed, and
nothing else is: each but the last names a clause with exactly one literal that isn't false, and that literal isn't true yet; the last
names a clause whose literals are all false. No hint is negative, so that nothing follows on a literal there, and no line names a
variable twice. Numbers are given in order after those of the formula's clauses. Nothing here shares code with the program.
"""

import re

LINE = re.compile(r"(d )?((?:-?[1-9][0-9]* )*)0")
ADDED = re.compile(r"([1-9][0-9]*) ((?:-?[1-9][0-9]* )*)0 ((?:[1-9][0-9]* )*)0")
DELETED = re.compile(r"([1-9][0-9]*) d ([1-9][0-9]*) 0")
FORMATS = ["text", "binary", "lrat"]


class Wrong(Exception):
    """The program said something that does not hold."""


def conflicts(clauses, assumed):
    """Whether unit propagation from the assumed literals makes a clause false."""
    true = set(assumed)
    if any(-literal in true for literal in true):
        return True
    while True:
        changed = False
        for clause in clauses:
            if any(literal in true for literal in clause):
                continue
            rest = [literal for literal in clause if -literal not in true]
            if not rest:
                return True
            if len(rest) == 1:
                true.add(rest[0])
                changed = True
        if not changed:
            return False


def is_rup(clauses, literals):
    return conflicts(clauses, [-literal for literal in literals])


def is_rat(clauses, literals):
    """On the first literal."""
    if not literals:
        return False
    pivot = literals[0]
    return all(
        is_rup(clauses, literals + [literal for literal in clause if literal != -pivot])
        for clause in clauses
        if -pivot in clause
    )


def whole_lines(proof):
    """The lines of a text, each with its newline."""
    if not proof.isascii():
        raise Wrong("the proof has a byte outside ASCII")
    text = proof.decode("ascii")
    if text and not text.endswith("\n"):
        raise Wrong("the proof's last line has no newline")
    return text.split("\n")[:-1]


def text_lines(proof):
    """The lines of a textual proof: whether each deletes, and its literals."""
    lines = []
    for number, line in enumerate(whole_lines(proof), 1):
        parts = LINE.fullmatch(line)
        if parts is None:
            raise Wrong("line %d of the proof is not in the format: %r" % (number, line))
        lines.append((bool(parts.group(1)), [int(word) for word in parts.group(2).split()]))
    return lines


def binary_number(proof, place):
    """The number at a place in binary, in groups of seven bits, and the place behind it."""
    number = shift = 0
    while place < len(proof):
        byte = proof[place]
        place += 1
        number |= (byte & 127) << shift
        shift += 7
        if byte < 128:
            if byte == 0 and shift > 7:
                raise Wrong("a number of the proof has a group too many")
            return number, place
    raise Wrong("the proof ends inside a number")


def binary_lines(proof):
    """The lines of a proof in binary: whether each deletes, and its literals."""
    lines, place = [], 0
    while place < len(proof):
        mark = proof[place : place + 1]
        if mark not in (b"a", b"d"):
            raise Wrong("line %d of the proof begins with %r" % (len(lines) + 1, mark))
        literals = []
        number, place = binary_number(proof, place + 1)
        while number != 0:
            if number == 1:
                raise Wrong("line %d of the proof has a literal of no variable" % (len(lines) + 1))
            literals.append(-(number // 2) if number % 2 else number // 2)
            number, place = binary_number(proof, place)
        lines.append((mark == b"d", literals))
    return lines


def is_hinted(alive, literals, hints):
    """Whether the hints show, one after another, that the clause follows from those that are alive, by their numbers."""
    true = {-literal for literal in literals}
    for place, hint in enumerate(hints):
        if hint not in alive:
            return False
        left = [literal for literal in set(alive[hint]) if -literal not in true]
        if place == len(hints) - 1:
            return not left
        if len(left) != 1 or left[0] in true:
            return False
        true.add(left[0])
    return False


def lrat_lines(clauses, proof):
    """The lines of a proof in LRAT, whose hints are followed: whether each deletes, and its literals."""
    alive = {number: clause for number, clause in enumerate(clauses, 1)}
    last = len(clauses)
    lines = []
    for place, line in enumerate(whole_lines(proof), 1):
        added, deleted = ADDED.fullmatch(line), DELETED.fullmatch(line)
        if added:
            literals = [int(word) for word in added.group(2).split()]
            if len({abs(literal) for literal in literals}) != len(literals):
                raise Wrong("line %d of the proof names a variable twice: %r" % (place, line))
            if int(added.group(1)) != last + 1:
                raise Wrong("line %d of the proof has a number that is not the next one" % place)
            if not is_hinted(alive, literals, [int(word) for word in added.group(3).split()]):
                raise Wrong("line %d of the proof has hints that do not show it: %r" % (place, line))
            last += 1
            alive[last] = literals
            lines.append((False, literals))
        elif deleted:
            number = int(deleted.group(2))
            if int(deleted.group(1)) != last or number not in alive:
                raise Wrong("line %d of the proof deletes no clause that is alive: %r" % (place, line))
            lines.append((True, alive.pop(number)))
        else:
            raise Wrong("line %d of the proof is not in the format: %r" % (place, line))
    return lines


def lines_of(clauses, proof, form):
    """The lines of a proof in a format: whether each deletes, and its literals."""
    if form == "lrat":
        return lrat_lines(clauses, proof)
    return binary_lines(proof) if form == "binary" else text_lines(proof)


def check_proof(clauses, proof, form="text"):
    """Whether each line is valid where it stands; answers whether the empty clause was added."""
    alive = [frozenset(clause) for clause in clauses]
    ended = False
    for number, (deletes, literals) in enumerate(lines_of(clauses, proof, form), 1):
        if ended:
            raise Wrong("line %d of the proof stands behind the empty clause" % number)
        if deletes:
            clause = frozenset(literals)
            if clause not in alive or len(clause) == 1:
                raise Wrong("line %d of the proof deletes no clause of two literals or more" % number)
            alive.remove(clause)
            continue
        if form != "lrat" and not is_rup(alive, literals) and not is_rat(alive, literals):
            raise Wrong("line %d of the proof does not follow" % number)
        alive.append(frozenset(literals))
        ended = not literals
    return ended
