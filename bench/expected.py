#!/usr/bin/env python3
"""Runs the programs `rota` and `replay` on the instances and compares with their answers.

    bench/build.sh                       proves and builds the two programs
    python3 bench/expected.py [FOLDER]   a line for every NAME.wcsp and NAME.script of bench/instances, or of another folder

NAME.wcsp.expected is what `rota` writes. NAME.script.expected is every line that `replay` writes or, where it has fewer
lines, the answer of the script's last `solve` as `rota` writes it.
The exit status is 1 where an answer differs.
"""

import pathlib
import subprocess
import sys

REPOSITORY = pathlib.Path(__file__).resolve().parent.parent
INSTANCES = REPOSITORY / "bench" / "instances"


def answer(program, file):
    done = subprocess.run([REPOSITORY / "crates" / program / "out" / program], input=file.read_bytes(), stdout=subprocess.PIPE, check=True)
    return done.stdout.decode().splitlines()


def last_solved(script, answers):
    """The answer of the last `solve` of a script, in the lines that `rota` writes."""
    objectives, solved = [], []
    for line, said in zip(script.read_text().splitlines(), answers):
        words = line.split()
        if words[0] == "obj" and said == "ok":
            objectives = [int(x) for x in words[1:]]
        if words[0] == "solve" and said.startswith("found"):
            values = said.split()[1:]
            upwards = sorted(int(values[x]) for x in objectives)
            solved = ["found", " ".join(["values", *values]), " ".join(["sorted", *map(str, upwards)])]
        elif words[0] == "solve":
            solved = [said]
    return solved


def told(lines):
    """The lines without what pins and bans tell beyond `ok`."""
    return ["ok" if line.startswith("ok ") else line for line in lines]


def compared(file):
    wanted = file.with_name(file.name + ".expected").read_text().splitlines()
    if file.suffix == ".wcsp":
        return "equal" if answer("rota", file) == wanted else "DIFFERS"
    answers = answer("replay", file)
    if len(wanted) < len(answers):
        answers = last_solved(file, answers)
    if answers == wanted:
        return "equal"
    return "equal but for what follows ok" if answers == told(wanted) else "DIFFERS"


def main():
    folder = pathlib.Path(sys.argv[1]) if len(sys.argv) > 1 else INSTANCES
    files = sorted(f for f in folder.iterdir() if f.suffix in (".wcsp", ".script"))
    differ = 0
    for file in files:
        verdict = compared(file)
        differ += verdict == "DIFFERS"
        print(f"{file.name}: {verdict}", flush=True)
    print(f"{len(files) - differ} equal, {differ} differ")
    sys.exit(1 if differ else 0)


main()
