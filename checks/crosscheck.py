"""Checks the built program against exhaustive search and a naive DRAT checker, both of their own.

Seeded random formulas of up to 16 variables, chains of equivalences, gates, colourings, constraints that at most one literal is true,
pigeonhole formulas and formulas with the empty clause go through the program with `--proof`, each simplified and with `--no-simplify`,
with 1, 2, 4, 8 or 16 rings, few words for clauses or many, half of the runs with `--check`, half with a seed, a third each with
`--binary` and `--lrat`, some with `--add` and some with a small limit of lemmas, most formulas in odd spellings, on standard input or
as a file. Its answer is compared with a truth table, its `v` lines with the clauses and the format, and every line of its proof with the
definition of DRAT, or by following its hints (proofs.py). Before that, damaged proofs and a wrong model are tried, which must be caught.
Real files that fail, refused words, refused inputs and a table with too few words bring the program to each status but 9, and each time
the folder that it runs in must have no file but those that were to be there.
Nothing here shares code with the program.
"""

import os
import random
import re
import subprocess
import sys
import tempfile
import time

sys.dont_write_bytecode = True
from proofs import FORMATS, Wrong, check_proof, lines_of

SEED = 20261126
RANDOM_FORMULAS = 1000
STRUCTURED_FORMULAS = 20
MOST_VARIABLES = 16
SECONDS = 240
ROOM = re.compile(r"gimsatul: no room: need ([0-9]+), largest hole ([0-9]+)\n")


def pigeons(holes):
    """One pigeon more than holes: variable holes * i + j + 1 puts pigeon i into hole j."""
    at = lambda i, j: holes * i + j + 1
    clauses = [[at(i, j) for j in range(holes)] for i in range(holes + 1)]
    for j in range(holes):
        for i in range(holes + 1):
            clauses += [[-at(i, j), -at(k, j)] for k in range(i + 1, holes + 1)]
    return holes * (holes + 1), clauses


def random_formula(rng):
    variables = rng.randint(0, MOST_VARIABLES)
    count = rng.randint(0, 6 * variables + 2)
    clauses = []
    for _ in range(count):
        size = rng.choice([0] + [1] * 5 + [2] * 30 + [3] * 60 + [4] * 10) if rng.random() < 0.5 else rng.randint(2, 3)
        if variables == 0:
            size = 0
        if size == 0 and rng.random() < 0.7:
            size = min(3, variables)
        clauses.append([rng.choice([1, -1]) * rng.randint(1, variables) for _ in range(size)])
    return variables, clauses


def spelled(variables, clauses):
    """The formula in DIMACS, a clause a line."""
    lines = ["p cnf %d %d" % (variables, len(clauses))]
    lines += [" ".join(map(str, clause + [0])) for clause in clauses]
    return ("\n".join(lines) + "\n").encode()


def oddly_spelled(rng, variables, clauses):
    """The same formula as few tools write it: blank lines and comments before the header, between and inside clauses,
    tabs, several clauses a line, leading zeros, CR LF, text behind a `%`, no newline at the end."""
    newline = rng.choice(["\n", "\n", "\r\n"])

    def blank():
        return rng.choice([" ", " ", "\t", "  ", " \t "])

    def idle_lines():
        lines = ["", blank(), "c", "c 1 2 0", " c p cnf 1 1", "comment %", "\tc" + blank() + "-1 0"]
        return "".join(rng.choice(lines) + newline for _ in range(rng.choice([0, 0, 1, 2])))

    def word(number):
        zeros = "0" * rng.choice([0, 0, 0, 1, 3])
        return ("-" if number < 0 else "") + zeros + str(abs(number))

    def gap():
        return blank() if rng.random() < 0.7 else rng.choice(["", blank()]) + newline + idle_lines() + rng.choice(["", blank()])

    header = ["p", "cnf", word(variables), word(len(clauses))]
    text = idle_lines() + rng.choice(["", blank()]) + "".join(part + blank() for part in header[:-1]) + header[-1]
    text += rng.choice(["", blank()]) + newline + idle_lines()
    words = [word(number) for clause in clauses for number in clause + [0]]
    text += "".join(part + gap() for part in words[:-1]) + "".join(words[-1:])
    end = rng.choice(["", newline, newline + idle_lines(), newline + idle_lines() + "%" + newline + "0" + newline, blank()])
    if end == "" and not words:
        end = newline
    return (text + end).encode()


def equivalences(rng):
    """A chain of literals that are all equivalent, and clauses on some of them."""
    variables = rng.randint(4, 14)
    chain = [v if rng.random() < 0.5 else -v for v in rng.sample(range(1, variables + 1), variables)]
    clauses = [c for a, b in zip(chain, chain[1:]) for c in ([-a, b], [a, -b])]
    return variables, clauses + [[l if rng.random() < 0.5 else -l for l in rng.sample(chain, 3)] for _ in range(rng.randint(0, 4))]


def gates(rng):
    """Gates of two inputs, each input a variable before it, and what two of the outputs are to be."""
    inputs, count = 3, rng.randint(3, 11)
    clauses = []
    for g in range(inputs + 1, inputs + count + 1):
        a, b = (v if rng.random() < 0.5 else -v for v in rng.sample(range(1, g), 2))
        if rng.random() < 0.5:
            clauses += [[-g, a], [-g, b], [g, -a, -b]]
        else:
            clauses += [[-g, a, b], [-g, -a, -b], [g, -a, b], [g, a, -b]]
    return inputs + count, clauses + [[rng.choice([-1, 1]) * v] for v in rng.sample(range(inputs + 1, inputs + count + 1), 2)]


def colouring(rng):
    """A graph of few nodes, to be coloured with three colours."""
    nodes = rng.randint(3, 5)
    clauses = [[3 * n + 1, 3 * n + 2, 3 * n + 3] for n in range(nodes)]
    for n in range(nodes):
        for m in range(n):
            if rng.random() < 0.7:
                clauses += [[-(3 * n + c), -(3 * m + c)] for c in (1, 2, 3)]
    return 3 * nodes, clauses


def at_most_one(rng):
    """At most one of some literals is true, said pair by pair, and each of them stands in two other clauses or three."""
    some, others = rng.randint(5, 9), rng.randint(4, 7)
    literals = [v if rng.random() < 0.5 else -v for v in range(1, some + 1)]
    clauses = [[-a, -b] for place, a in enumerate(literals) for b in literals[:place]]
    for literal in literals:
        for _ in range(rng.randint(2, 3)):
            rest = rng.sample(range(some + 1, some + others + 1), 2)
            clauses.append([literal] + [v if rng.random() < 0.5 else -v for v in rest])
    return some + others, clauses


def is_satisfiable(variables, clauses):
    """By truth table: each variable is a number with a bit for each assignment."""
    rows = 1 << variables
    every = (1 << rows) - 1
    column = []
    for variable in range(variables):
        block = ((1 << (1 << variable)) - 1) << (1 << variable)
        width = 1 << (variable + 1)
        value = 0
        for start in range(0, rows, width):
            value |= block << start
        column.append(value)
    left = every
    for clause in clauses:
        row = 0
        for literal in clause:
            value = column[abs(literal) - 1]
            row |= value if literal > 0 else every ^ value
        left &= row
    return left != 0


def propagated(clauses):
    """The literals that unit propagation alone makes true."""
    true = set()
    while True:
        before = len(true)
        for clause in clauses:
            rest = [literal for literal in clause if -literal not in true]
            if len(rest) == 1:
                true.add(rest[0])
        if len(true) == before:
            return true


def lemmas_shown(clauses, proof, form, rings):
    """The fewest and the most lemmas of rings that never reduced, in a proof that is theirs alone. A clause of two literals or more is
    a lemma, and so is a unit that propagation had not made true. Any other unit of one ring came by propagation; of several rings it may
    be a lemma of one that had not seen the others' clauses."""
    alive = [frozenset(clause) for clause in clauses]
    fewest = most = 0
    for deletes, literals in lines_of(clauses, proof, form):
        if deletes:
            alive.remove(frozenset(literals))
            continue
        is_lemma = len(literals) > 1 or literals[0] not in propagated(alive)
        fewest += is_lemma
        most += is_lemma or rings > 1
        alive.append(frozenset(literals))
    return fewest, most


def check_model(variables, clauses, lines):
    """Whether the value lines are in the format and make each clause true."""
    words = []
    for line in lines:
        if not line.startswith("v") or len(line) > 78:
            raise Wrong("a bad value line: %r" % line)
        words += line[1:].split()
        if line != "v" + "".join(" " + word for word in line[1:].split()):
            raise Wrong("a value line with other blanks: %r" % line)
    for here, after in zip(lines, lines[1:]):
        if len(here) + 1 + len(after.split()[1]) <= 78:
            raise Wrong("a value line that is broken too early: %r" % here)
    if not words or words[-1] != "0":
        raise Wrong("the value lines do not end with 0")
    literals = [int(word) for word in words[:-1]]
    if [abs(literal) for literal in literals] != list(range(1, variables + 1)):
        raise Wrong("the value lines do not name each variable in order")
    true = set(literals)
    for clause in clauses:
        if not any(literal in true for literal in clause):
            raise Wrong("the model makes a clause false: %r" % clause)
    named = {abs(literal) for clause in clauses for literal in clause}
    for variable in range(1, variables + 1):
        if variable not in named and variable in true:
            raise Wrong("variable %d occurs in no clause and is true" % variable)


def check_no_room(out, err):
    """Whether it is told that there was no room, and nothing is printed."""
    told = ROOM.fullmatch(err)
    if told is None or int(told.group(1)) <= int(told.group(2)) or out:
        raise Wrong("status 8 with %r on standard error and %r printed" % (err, out))


def check_answer(variables, clauses, status, out, err, proof, satisfiable, checked=False, limit=None, narrow=False, form="text", rings=None):
    """`limit` is how many lemmas the rings may learn together, if that was asked for, `narrow` says that there are few words for clauses,
    `form` is the format of the proof, `rings` how many rings wrote it if nothing else did."""
    if status == 8 and narrow:
        check_no_room(out, err)
        check_proof(clauses, proof, form)
        return
    lines = out.split("\n")
    if lines[-1] != "":
        raise Wrong("the answer's last line has no newline")
    lines = lines[:-1]
    if checked:
        if lines[:1] != ["c proof accepted"]:
            raise Wrong("the log was to be checked, and the answer does not say so")
        lines = lines[1:]
    if err:
        raise Wrong("something on standard error: %r" % err)
    ended = check_proof(clauses, proof, form)
    if status == 10:
        if lines[:1] != ["s SATISFIABLE"] or ended:
            raise Wrong("status 10 with another answer or with a refutation")
        if satisfiable is False:
            raise Wrong("10 for a formula that no assignment satisfies")
        check_model(variables, clauses, lines[1:])
    elif status == 20:
        if lines != ["s UNSATISFIABLE"] or not ended:
            raise Wrong("status 20 with another answer or without a refutation")
        if satisfiable is True:
            raise Wrong("20 for a formula that an assignment satisfies")
    elif status == 0 and limit is not None:
        if lines != ["s UNKNOWN"] or ended:
            raise Wrong("status 0 with another answer or with a refutation")
        if rings is not None:
            fewest, most = lemmas_shown(clauses, proof, form, rings)
            if not fewest <= limit <= most:
                raise Wrong("status 0 after %d to %d lemmas, and the limit is %d" % (fewest, most, limit))
    else:
        raise Wrong("status %d" % status)


class Options:
    """How the program is to decide: by how many rings, with how many words for clauses, slots for each two rings and class, and
    lemmas for all rings and in a round, from which seed, whether it simplifies, may add variables and checks its log, and in which
    format the proof is. None leaves an option out. Short rounds may never end, so there is a limit of lemmas with them; with hints no
    variable may be added."""

    def __init__(self, rng, simplified):
        self.simplified, self.checked, self.form = simplified, rng.random() < 0.5, rng.choice(FORMATS)
        self.adds = rng.random() < 0.5 and self.form != "lrat"
        limit, every = rng.choice([(None, None)] * 6 + [(1, None), (10, None)] * 2 + [(3, 1), (10, 3), (100, 5), (200, 50)])
        self.numbers = {
            "--threads": rng.choice([1, 2, 4, 8, 16]),
            "--words": rng.choice([64, 256, 1024] + [65536] * 6) if rng.random() < 0.95 else None,
            "--slots": rng.choice([None, 1, 3, 16]),
            "--conflicts": limit,
            "--round": every,
            "--seed": rng.choice([None, rng.getrandbits(63)]),
        }

    def words(self):
        named = [word for name, number in self.numbers.items() if number is not None for word in (name, str(number))]
        flags = {"--check": self.checked, "--add": self.adds, "--no-simplify": not self.simplified}
        flags.update({"--" + form: self.form == form for form in FORMATS[1:]})
        return named + [flag for flag, is_used in flags.items() if is_used]

    def rings_alone(self, clauses):
        """How many rings there are, if nothing else writes a line: no simplifier, and no unit of the formula or of a round before."""
        writes = self.simplified or self.numbers["--round"] is not None or any(len(set(clause)) < 2 for clause in clauses)
        return None if writes else self.numbers["--threads"]


def has_more_variables(variables, clauses, proof, form):
    """Whether a line of the proof names a variable that the formula doesn't have."""
    return any(abs(literal) > variables for _, literals in lines_of(clauses, proof, form) for literal in literals)


def run(program, folder, variables, clauses, satisfiable, text, from_file, options):
    """Runs the program on the text, as a file or on standard input. Answers whether it added a variable."""
    path = os.path.join(folder, "proof")
    words = [program, "--proof", path] + options.words()
    if from_file:
        words.append(os.path.join(folder, "input"))
        with open(words[-1], "wb") as file:
            file.write(text)
    done = subprocess.run(
        words,
        input=b"p cnf 1 1\n2 0\n" if from_file else text,
        stdout=subprocess.PIPE,
        stderr=subprocess.PIPE,
        timeout=60,
    )
    with open(path, "rb") as file:
        proof = file.read()
    os.remove(path)
    check_answer(
        variables,
        clauses,
        done.returncode,
        done.stdout.decode("ascii"),
        done.stderr.decode("ascii"),
        proof,
        satisfiable,
        options.checked,
        options.numbers["--conflicts"],
        options.numbers["--words"] is not None,
        options.form,
        options.rings_alone(clauses),
    )
    more = has_more_variables(variables, clauses, proof, options.form)
    if more and not (options.adds and options.simplified):
        raise Wrong("a variable is added, and that was not asked for")
    return more


class Case:
    """One run in a folder of its own, and what must come of it. `input` is a file there, where it is given, and `out` is
    where standard output goes, if not to be compared; `stderr` is a text or a pattern; `here` names the files that must be there
    afterwards."""

    def __init__(self, status, words=(), stdin=b"", input=None, stdout="", stderr="", out=None, here=()):
        self.status, self.words, self.stdin, self.input = status, words, stdin, input
        self.stdout, self.stderr, self.out, self.here = stdout, stderr, out, set(here)


MODEL = b"p cnf 2 2\n-1 0\n1 2 0\n"
REFUTED = b"p cnf 1 2\n1 0\n-1 0\n"
FULL = "/dev/full"


def statuses():
    """Each status but 9, most by more than one cause."""
    pigeonhole = spelled(*pigeons(4))
    for words in [
        "--threads 0",
        "--threads 17",
        "--words 63",
        "--words 2147483649",
        "--slots 0",
        "--slots 17",
        "--conflicts 0",
        "--round 0",
        "--round 1000000000001",
        "--proof",
        "--other",
        "--help",
        "a.cnf b.cnf",
        "--make 7 a.cnf",
        "--make -1",
        "--make 9223372036854775808",
        "--check --check",
        "--binary --binary",
        "--add --add",
        "--lrat --lrat",
        "--lrat --binary",
        "--lrat --add",
        "--seed -1",
        "--seed 9223372036854775808",
    ]:
        yield Case(1, words.split(), MODEL, stderr="gimsatul: bad command line\n")
    for text, line, name in [
        (b"", 1, "NoHeader"),
        (b"p cnf 1\n", 1, "BadHeader"),
        (b"p cnf 1 1\n1 %\n", 2, "BadToken"),
        (b"p cnf 1 1\n\n-2 0\n", 3, "LiteralRange"),
        (b"p cnf 1 1\n1 0\n1 0\n", 3, "TooManyClauses"),
        (b"p cnf 1 2\n1 0\n%\n", 3, "TooFewClauses"),
        (b"p cnf 1 1\n1", 2, "OpenClause"),
        (b"p cnf 268435456 0\n", 1, "Limit"),
    ]:
        told = "gimsatul: input line %d: %s\n" % (line, name)
        yield Case(2, ["--proof", "proof"], text, stderr=told, here=["proof"])
        yield Case(2, ["input"], MODEL, text, stderr=told, here=["input"])
    for path in ["missing", os.path.join("missing", "input")]:
        yield Case(3, ["--proof", "proof", path], MODEL, stderr="gimsatul: cannot open input\n")
    for path in [os.path.join("missing", "proof"), "."]:
        yield Case(4, ["--proof", path], MODEL, stderr="gimsatul: cannot create proof\n")
        yield Case(4, ["--proof", path, "input"], MODEL, MODEL, stderr="gimsatul: cannot create proof\n", here=["input"])
    yield Case(5, ["--proof", "proof", "."], MODEL, stderr="gimsatul: read fault\n", here=["proof"])
    for text in [MODEL, REFUTED]:
        yield Case(6, ["--proof", "proof"], text, stderr="gimsatul: write fault\n", out=FULL, here=["proof"])
    for text in [REFUTED, pigeonhole]:
        yield Case(7, ["--proof", FULL], text, stderr="gimsatul: proof fault\n")
    alone = ["--threads", "1", "--conflicts"]
    yield Case(0, [*alone, "1", "--proof", "proof"], pigeonhole, stdout="s UNKNOWN\n", here=["proof"])
    yield Case(0, [*alone, "1", "input"], MODEL, pigeonhole, stdout="s UNKNOWN\n", here=["input"])
    made = "c vars 20000\nc clauses 60000\n"
    yield Case(0, [*alone, "1", "--make", "7"], b"1 0\n", stdout=made + "s UNKNOWN\n")
    accepted = "c proof accepted\n"
    yield Case(0, [*alone, "1", "--make", "0", "--check", "--no-simplify"], stdout=made + accepted + "s UNKNOWN\n")
    yield Case(0, [*alone, "9", "--check", "input"], MODEL, pigeonhole, stdout=accepted + "s UNKNOWN\n", here=["input"])
    yield Case(0, [*alone, "3", "--round", "1", "--check", "--no-simplify"], pigeonhole, stdout=accepted + "s UNKNOWN\n")
    chain = b"p cnf 15 13\n" + b"".join(b"%d %d %d 0\n" % (i, i + 1, i + 2) for i in range(1, 14))
    yield Case(8, ["--no-simplify", "--words", "64"], chain, stderr="gimsatul: no room: need 5, largest hole 4\n")
    # six pigeons in five holes take 336 words: six clauses of 6 words, and 75 of 4
    full, lone = spelled(*pigeons(5)), ["--no-simplify", "--threads", "1", "--words"]
    yield Case(8, [*lone, "335"], full, stderr="gimsatul: no room: need 4, largest hole 3\n")
    yield Case(8, [*lone, "336"], full, stderr=re.compile("gimsatul: no room: need ([4-9]|1[0-8]), largest hole 0\n"))
    yield Case(10, [], MODEL, stdout="s SATISFIABLE\nv -1 2 0\n")
    yield Case(20, ["input"], MODEL, REFUTED, stdout="s UNSATISFIABLE\n", here=["input"])
    yield Case(20, ["--add", "--check", "input"], MODEL, pigeonhole, stdout=accepted + "s UNSATISFIABLE\n", here=["input"])
    yield Case(20, ["--binary", "--proof", "proof"], REFUTED, stdout="s UNSATISFIABLE\n", here=["proof"])
    yield Case(7, ["--binary", "--proof", FULL], REFUTED, stderr="gimsatul: proof fault\n")
    yield Case(20, ["--lrat", "--proof", "proof"], REFUTED, stdout="s UNSATISFIABLE\n", here=["proof"])
    yield Case(20, ["--lrat", "--check", "--proof", "proof"], pigeonhole, stdout=accepted + "s UNSATISFIABLE\n", here=["proof"])
    yield Case(7, ["--lrat", "--proof", FULL], REFUTED, stderr="gimsatul: proof fault\n")


def try_status(program, case):
    """Runs the program in a folder of its own, and compares status, streams and the folder's files."""
    with tempfile.TemporaryDirectory() as folder:
        if case.input is not None:
            with open(os.path.join(folder, "input"), "wb") as file:
                file.write(case.input)
        with open(case.out, "wb") if case.out else tempfile.TemporaryFile() as out:
            done = subprocess.run(
                [program, *case.words], input=case.stdin, stdout=out, stderr=subprocess.PIPE, cwd=folder, timeout=60
            )
            if not case.out:
                out.seek(0)
                if out.read().decode("ascii") != case.stdout:
                    raise Wrong("%r: another answer" % (case.words,))
        if done.returncode != case.status:
            raise Wrong("%r: status %d in place of %d" % (case.words, done.returncode, case.status))
        told = done.stderr.decode("ascii")
        if not (case.stderr == told if isinstance(case.stderr, str) else case.stderr.fullmatch(told)):
            raise Wrong("%r: on standard error: %r" % (case.words, done.stderr))
        if set(os.listdir(folder)) != case.here:
            raise Wrong("%r: it leaves the files %r" % (case.words, sorted(os.listdir(folder))))
        check_left(case, folder)


def check_left(case, folder):
    """The input is as it was, and what a run left as a proof is none where nothing was read, else a valid one."""
    if case.input is not None:
        with open(os.path.join(folder, "input"), "rb") as file:
            if file.read() != case.input:
                raise Wrong("%r: the input was changed" % (case.words,))
    if "proof" not in case.here:
        return
    with open(os.path.join(folder, "proof"), "rb") as file:
        proof = file.read()
    if case.status in (2, 5):
        if proof:
            raise Wrong("%r: a proof of what was not read" % (case.words,))
        return
    numbers = [int(word) for word in case.stdin.decode("ascii").split()[4:]]
    clauses = [[]]
    for number in numbers:
        if number == 0:
            clauses.append([])
        else:
            clauses[-1].append(number)
    check_proof(clauses[:-1], proof, next((form for form in FORMATS if "--" + form in case.words), "text"))


def must_catch(what, check):
    try:
        check()
    except Wrong:
        return
    print("crosscheck: it does not catch %s" % what)
    sys.exit(1)


def try_itself():
    clauses = [[1, 2], [1, -2], [-1, 2], [-1, -2]]
    check_answer(2, clauses, 20, "s UNSATISFIABLE\n", "", b"1 0\n0\n", False)
    must_catch("a lemma left out", lambda: check_answer(2, clauses, 20, "s UNSATISFIABLE\n", "", b"0\n", False))
    must_catch("a lemma changed", lambda: check_proof([[1, 2], [1, -2]], b"-1 0\n"))
    must_catch("a deletion of no clause", lambda: check_proof([[1, 2]], b"d 1 3 0\n"))
    must_catch("a line cut short", lambda: check_proof(clauses, b"1 0\n0"))
    must_catch("a byte outside ASCII", lambda: check_proof(clauses, b"1 0\n\xff 0\n"))
    must_catch("a proof without its end", lambda: check_answer(2, clauses, 20, "s UNSATISFIABLE\n", "", b"1 0\n", False))
    check_answer(2, clauses, 20, "s UNSATISFIABLE\n", "", b"a\2\0d\5\2\0a\0", False, form="binary")
    must_catch("a sign turned in binary", lambda: check_proof([[1, 2], [1, -2]], b"a\3\0", "binary"))
    must_catch("a text in place of a binary proof", lambda: check_proof(clauses, b"1 0\n0\n", "binary"))
    must_catch("a binary line cut short", lambda: check_proof(clauses, b"a\2\0a", "binary"))
    must_catch("a number in two groups for one", lambda: check_proof(clauses, b"a\x82\0\0", "binary"))
    hinted = b"5 1 0 1 2 0\n5 d 1 0\n6 0 5 3 4 0\n"
    check_answer(2, clauses, 20, "s UNSATISFIABLE\n", "", hinted, False, form="lrat")
    for what, line in [
        ("hints in reverse", b"6 0 4 5 3 0\n"),
        ("a conflict that is not last", b"6 0 5 3 4 3 0\n"),
        ("a hint left out", b"6 0 3 4 0\n"),
        ("a hint of a deleted clause", b"6 0 5 1 3 4 0\n"),
        ("a number one too high", b"7 0 5 3 4 0\n"),
        ("a deletion of a number that is not alive", b"5 d 1 0\n6 0 5 3 4 0\n"),
        ("a deletion led by its own number", b"3 d 3 0\n"),
        ("a literal that is true and is forced again", b"6 0 5 5 3 4 0\n"),
        ("a negative hint", b"6 0 5 3 -4 0\n"),
        ("a line behind the empty clause", b"6 0 5 3 4 0\n7 2 0 5 3 0\n"),
        ("a deletion of a unit", b"5 d 5 0\n"),
        ("a repeated literal", b"6 2 2 0 5 3 0\n"),
        ("a literal and its negation", b"6 1 -1 0 5 0\n"),
        ("a byte outside ASCII", b"6 0 5 3 \xb2 0\n"),
    ]:
        must_catch(what, lambda: check_proof(clauses, b"5 1 0 1 2 0\n5 d 1 0\n" + line, "lrat"))
    check_answer(2, clauses, 0, "s UNKNOWN\n", "", b"1 0\n", False, limit=1, rings=1)
    check_answer(2, clauses, 0, "s UNKNOWN\n", "", b"1 0\n2 0\n", False, limit=1, rings=1)
    check_answer(2, clauses, 0, "s UNKNOWN\n", "", b"1 0\n2 0\n", False, limit=2, rings=2)
    must_catch("a lemma too few", lambda: check_answer(2, clauses, 0, "s UNKNOWN\n", "", b"1 0\n", False, limit=2, rings=4))
    must_catch("a lemma too many", lambda: check_answer(2, clauses, 0, "s UNKNOWN\n", "", b"1 -2 0\n1 2 0\n", False, limit=1, rings=4))
    must_catch("a unit told as a lemma", lambda: check_answer(2, clauses, 0, "s UNKNOWN\n", "", b"1 0\n2 0\n", False, limit=2, rings=1))
    check_model(2, [[1, -2]], ["v 1 2 0"])
    must_catch("a wrong model", lambda: check_model(2, [[1, -2]], ["v -1 2 0"]))
    must_catch("a variable left out", lambda: check_model(2, [[1]], ["v 1 0"]))
    must_catch("a check that is not told", lambda: check_answer(2, clauses, 20, "s UNSATISFIABLE\n", "", b"1 0\n0\n", False, True))
    must_catch("a long line", lambda: check_model(60, [], ["v " + " ".join(str(-v) for v in range(1, 61)) + " 0"]))


def cases(rng):
    for _ in range(RANDOM_FORMULAS):
        variables, clauses = random_formula(rng)
        yield variables, clauses, is_satisfiable(variables, clauses)
    for make in [equivalences, gates, colouring, at_most_one]:
        for _ in range(STRUCTURED_FORMULAS):
            variables, clauses = make(rng)
            yield variables, clauses, is_satisfiable(variables, clauses)
    yield 0, [], True
    yield 0, [[]], False
    yield 3, [[1, 2], [], [3]], False
    yield 40, [[-1, 40], [7]], None
    for holes in range(1, 6):
        variables, clauses = pigeons(holes)
        yield variables, clauses, False


def main():
    root = os.path.join(os.path.dirname(os.path.abspath(__file__)), os.pardir)
    program = os.path.normpath(os.path.join(root, "crates", "gimsatul", "out", "gimsatul"))
    if not os.access(program, os.X_OK):
        print("crosscheck: skipped, the program is not built")
        return 0
    try_itself()
    tried = wrong = more = 0
    start = time.monotonic()
    rng = random.Random(SEED)
    for case in statuses():
        tried += 1
        try:
            try_status(program, case)
        except Wrong as fault:
            wrong += 1
            print("wrong: %s" % fault)
    with tempfile.TemporaryDirectory() as folder:
        for variables, clauses, satisfiable in cases(rng):
            if time.monotonic() - start > SECONDS:
                print("crosscheck: out of time")
                break
            tried += 1
            odd = rng.random() < 0.7
            text = oddly_spelled(rng, variables, clauses) if odd else spelled(variables, clauses)
            for simplified in [True, False]:
                options = Options(rng, simplified)
                try:
                    more += run(program, folder, variables, clauses, satisfiable, text, rng.random() < 0.5, options)
                except Wrong as fault:
                    wrong += 1
                    print("wrong: %s: %s\n%s" % (" ".join(options.words()), fault, text.decode("ascii")))
    print("crosscheck: %d tried, %d wrong; %d runs added variables" % (tried, wrong, more))
    return 1 if wrong or not more else 0


if __name__ == "__main__":
    sys.exit(main())
