"""Other solvers on the same files, where they are installed (bench/install-peers.sh).

clasp with gringo and minizinc with gecode find a leximin-best solution, without the rule for ties; toulbar2 finds any
solution, which is a smaller question. A vector that differs from the expected one ends the run.
"""

import json
import pathlib
import resource
import shutil
import subprocess
import sys
import tempfile

LIMIT = 20
OBJECTIVES = 16


class Network:
    """The crisp part of a wcsp file: domain sizes, and tables as (variables, allowed?, tuples)."""

    def __init__(self, file):
        words = file.read_text().split()
        count, tables = int(words[1]), int(words[3])
        numbers = iter(map(int, words[5:]))
        self.sizes = [next(numbers) for _ in range(count)]
        self.tables = [self._table(numbers) for _ in range(tables)]
        self.objectives = range(min(count, OBJECTIVES))

    @staticmethod
    def _table(numbers):
        arity = next(numbers)
        scope = [next(numbers) for _ in range(arity)]
        allowed = next(numbers) != 0
        tuples = []
        for _ in range(next(numbers)):
            tuples.append([next(numbers) for _ in range(arity)])
            next(numbers)
        return scope, allowed, tuples


def run(command, text=None):
    """What a command writes, and the processor's seconds that it takes; None for what it writes after the limit."""
    before = resource.getrusage(resource.RUSAGE_CHILDREN)
    try:
        written = subprocess.run(command, input=text, capture_output=True, text=True, timeout=LIMIT, shell=isinstance(command, str)).stdout
    except subprocess.TimeoutExpired:
        written = None
    after = resource.getrusage(resource.RUSAGE_CHILDREN)
    return written, after.ru_utime + after.ru_stime - before.ru_utime - before.ru_stime


def clasp_program(network):
    """At each level, the lowest first, as few objectives as can be that are not above it: that is leximin."""
    for x, size in enumerate(network.sizes):
        yield f"1 {{ is({x},0..{size - 1}) }} 1."
    for t, (scope, allowed, tuples) in enumerate(network.tables):
        rows = [", ".join(f"is({x},{v})" for x, v in zip(scope, values)) for values in tuples]
        if allowed:
            yield from (f"meets({t}) :- {row}." for row in rows)
            yield f":- not meets({t})."
        else:
            yield from (f":- {row}." for row in rows)
    for level in range(max(network.sizes) - 1):
        yield from (f":~ is({x},V), V <= {level}. [1@{64 - level},{x}]" for x in network.objectives)
    yield "#show is/2."


def clasp(network):
    with tempfile.NamedTemporaryFile("w", suffix=".lp") as file:
        file.write("\n".join(clasp_program(network)))
        file.flush()
        written, seconds = run(f"gringo {file.name} | clasp --outf=2 --quiet=1 --opt-mode=opt")
    if written is None:
        return None, seconds
    call = json.loads(written)["Call"][-1]
    if not call.get("Witnesses"):
        return [], seconds
    atoms = [atom[3:-1].split(",") for atom in call["Witnesses"][-1]["Value"]]
    values = {int(x): int(v) for x, v in atoms}
    return sorted(values[x] for x in network.objectives), seconds


def minizinc_model(network, floors):
    """The largest y that all objectives but as many as there are floors can reach at once, with the floors reached."""
    for x, size in enumerate(network.sizes):
        yield f"var 0..{size - 1}: x{x};"
    for scope, allowed, tuples in network.tables:
        rows = [" /\\ ".join(f"x{x} = {v}" for x, v in zip(scope, values)) for values in tuples]
        if allowed:
            cells = ", ".join("| " + ", ".join(map(str, values)) + " " for values in tuples).replace(" , |", " |")
            variables = ", ".join(f"x{x}" for x in scope)
            yield f"constraint table([{variables}], [{cells}|]);" if tuples else "constraint false;"
        else:
            yield from (f"constraint not ({row});" for row in rows)
    count = len(network.objectives)
    for i, floor in enumerate([*floors, "y"]):
        reached = " + ".join(f"bool2int(x{x} >= {floor})" for x in network.objectives)
        yield f"constraint {reached} >= {count - i};"
    yield 'include "table.mzn"; var 0..63: y; solve maximize y; output ["\\(y)\\n"];'


def minizinc(network):
    floors, spent = [], 0.0
    with tempfile.TemporaryDirectory() as folder:
        file = pathlib.Path(folder) / "model.mzn"
        while len(floors) < len(network.objectives):
            file.write_text("\n".join(minizinc_model(network, floors)))
            written, seconds = run(["minizinc", "--solver", "gecode", file])
            spent += seconds
            if written is None or spent > LIMIT:
                return None, spent
            if "UNSATISFIABLE" in written:
                return [], spent
            floors.append(int([line for line in written.splitlines() if line.isdigit()][-1]))
    return floors, spent


def toulbar2(file):
    written, seconds = run(["toulbar2", file, "-s=0"])
    return seconds if written is not None else None


def shown(seconds):
    return f"over {LIMIT} s" if seconds is None else f"{1000 * seconds:.0f}"


def solved(name, file, network, solver, expected):
    vector, seconds = solver(network)
    if vector is None:
        return shown(None)
    if vector != expected:
        sys.exit(f"{name} on {file.name}: {vector} is not the expected {expected}")
    return shown(seconds)


def expected_vector(file):
    lines = file.with_name(file.name + ".expected").read_text().splitlines()
    return [int(word) for word in lines[-1].split()[1:]] if lines[0] == "found" else []


def table(times, files):
    """A line for each file, with the milliseconds of rota and of the peers that are installed."""
    leximin = [("clasp with gringo", clasp, ["clasp", "gringo"]), ("minizinc with gecode", minizinc, ["minizinc", "fzn-gecode"])]
    there = [(name, solver) for name, solver, programs in leximin if all(map(shutil.which, programs))]
    any_solution = bool(shutil.which("toulbar2"))
    if not there and not any_solution:
        yield "None of clasp with gringo, minizinc with gecode and toulbar2 is installed (`bench/install-peers.sh`)."
        return
    heads = ["Instance", "rota, ms", *(f"{name}, ms" for name, _ in there), *(["toulbar2, any solution, ms"] if any_solution else [])]
    yield "| " + " | ".join(heads) + " |"
    yield "|---|" + "---:|" * (len(heads) - 1)
    for (stem, rota, _), file in zip(times, files):
        network, expected = Network(file), expected_vector(file)
        cells = [f"`{stem}`", f"{rota:.2f}", *(solved(name, file, network, solver, expected) for name, solver in there)]
        if any_solution:
            cells.append(shown(toulbar2(file)))
        yield "| " + " | ".join(cells) + " |"
