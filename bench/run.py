#!/usr/bin/env python3
"""Times the program `rota` against its unverified twin in Rust, and beside other solvers where they are installed.

    bench/build.sh                       proves and builds the two programs
    python3 bench/run.py [FOLDER]        a table for every NAME.wcsp of bench/instances, or of another folder, that has a
                                         NAME.wcsp.expected, and one for every NAME.script, which only `replay` reads

Both programs run as a whole: start, reading, solving, writing. What counts is the processor's time (on an idle machine
that is the time that passes, since both have one thread), the best of several runs.
--instructions adds instruction counts (valgrind), --write FILE writes the result as a document.
The twin is built from bench/twin into target/bench (rustc 1.88 or later); nothing else is written.
"""

import argparse
import datetime
import math
import os
import pathlib
import shutil
import subprocess
import sys
import tempfile

import peers

REPOSITORY = pathlib.Path(__file__).resolve().parent.parent
ROTA = REPOSITORY / "crates" / "rota" / "out" / "rota"
REPLAY = REPOSITORY / "crates" / "replay" / "out" / "replay"
TWIN = REPOSITORY / "target" / "bench" / "twin"
INSTANCES = REPOSITORY / "bench" / "instances"

BUILD = ["rustc", "--edition=2024", "-Copt-level=3", "-Ccodegen-units=1", "-Ctarget-cpu=x86-64", "--crate-name=twin"]
COUNTED = ["queens_8", "alloc_16x16x3_0"]

LEAST_RUNS = 5
LEAST_SECONDS = 0.3

# A file with nothing to solve: what it takes is the programs' start.
START = b"a 1 2 0 1 2\n"


def build_twin():
    if not shutil.which("rustc"):
        sys.exit("rustc is not on PATH: the twin cannot be built")
    TWIN.parent.mkdir(parents=True, exist_ok=True)
    subprocess.run([*BUILD, "-o", TWIN, REPOSITORY / "bench" / "twin" / "main.rs"], check=True)


def instances_in(folder):
    """The files to solve, each with what is to be written."""
    files = [file for file in sorted(folder.glob("*.wcsp")) if expected_of(file).exists()]
    if not files:
        sys.exit("no NAME.wcsp with a NAME.wcsp.expected in that folder")
    return files


def expected_of(file):
    return file.with_name(file.name + ".expected")


def check(program, file):
    with file.open("rb") as text:
        written = subprocess.run([program], stdin=text, capture_output=True, check=True).stdout
    if written != expected_of(file).read_bytes():
        sys.exit(f"{program.name} on {file.name}: the output is not the expected one")


def run_once(program, file):
    """The processor's seconds of one run, from the start to the end."""
    actions = [
        (os.POSIX_SPAWN_OPEN, 0, os.fspath(file), os.O_RDONLY, 0),
        (os.POSIX_SPAWN_OPEN, 1, os.devnull, os.O_WRONLY, 0),
    ]
    process = os.posix_spawn(program, [program.name], os.environ, file_actions=actions)
    _, status, usage = os.wait4(process, 0)
    if status != 0:
        sys.exit(f"{program.name} on {file.name}: it ended with status {status}")
    return usage.ru_utime + usage.ru_stime


def best_times(programs, file):
    """The best milliseconds of each program. They take turns, so that what else the machine does meets all."""
    best = [math.inf] * len(programs)
    spent = [0.0] * len(programs)
    runs = 0
    while runs < LEAST_RUNS or min(spent) < LEAST_SECONDS:
        for i, program in enumerate(programs):
            seconds = run_once(program, file)
            best[i] = min(best[i], seconds)
            spent[i] += seconds
        runs += 1
    return [1000 * seconds for seconds in best]


def measure(files):
    """For each file its name and the milliseconds of rota and of the twin."""
    times = []
    for file in files:
        check(ROTA, file)
        check(TWIN, file)
        times.append((file.stem, *best_times([ROTA, TWIN], file)))
    return times


def start_times(folder):
    file = folder / "start.wcsp"
    file.write_bytes(START)
    return best_times([ROTA, TWIN], file)


def instructions(program, file, folder, *options):
    """How many instructions valgrind counts."""
    counts = folder / "counts"
    command = ["valgrind", "--quiet", "--tool=callgrind", f"--callgrind-out-file={counts}", *options, program]
    with file.open("rb") as text:
        subprocess.run(command, stdin=text, stdout=subprocess.DEVNULL, stderr=subprocess.DEVNULL, check=True)
    totals = [line for line in counts.read_text().splitlines() if line.startswith("totals:")]
    return int(totals[0].split()[1])


def count_instructions(files, folder):
    """For some files their names, and the instructions of rota and of the twin, from `main` on."""
    if not shutil.which("valgrind"):
        print("valgrind is not on PATH: no instructions counted")
        return []
    chosen = [file for file in files if file.stem in COUNTED] or files[:2]
    from_main = "--toggle-collect=main"
    return [(file.stem, *(instructions(program, file, folder, from_main) for program in (ROTA, TWIN))) for file in chosen]


def geometric_mean(numbers):
    return math.exp(sum(map(math.log, numbers)) / len(numbers))


def row(cells):
    return "| " + " | ".join(cells) + " |"


def time_table(times):
    yield row(["Instance", "rota, ms", "twin, ms", "rota / twin"])
    yield "|---|---:|---:|---:|"
    for name, rota, twin in times:
        yield row([f"`{name}`", f"{rota:.2f}", f"{twin:.2f}", f"{rota / twin:.2f}"])


def count_table(counts):
    yield row(["Instance", "rota", "twin", "rota / twin"])
    yield "|---|---:|---:|---:|"
    for name, rota, twin in counts:
        yield row([f"`{name}`", f"{rota:,}", f"{twin:,}", f"{rota / twin:.2f}"])


def summary(times, start):
    """The geometric mean over all, and over those where the start is the lesser part."""
    mean = geometric_mean([rota / twin for _, rota, twin in times])
    yield f"Geometric mean of the ratios: {mean:.2f}."
    yield f"A file with nothing to solve takes rota {start[0]:.2f} ms and the twin {start[1]:.2f} ms: so much of every row is the programs' start."
    longer = [rota / twin for _, rota, twin in times if twin > 2 * start[1]]
    if longer:
        yield f"Over the instances where the twin takes more than twice its start ({len(longer)} of {len(times)}), the geometric mean is {geometric_mean(longer):.2f}."


def script_table(folder):
    yield row(["Script", "replay, ms"])
    yield "|---|---:|"
    for file in sorted(folder.glob("*.script")):
        yield row([f"`{file.stem}`", f"{best_times([REPLAY], file)[0]:.2f}"])


def machine():
    lines = pathlib.Path("/proc/cpuinfo").read_text().splitlines()
    models = [line.split(":", 1)[1].strip() for line in lines if line.startswith("model name")]
    return f"{models[0] if models else 'unknown processor'}, {os.cpu_count()} cores"


def document(times, start, counts, scripts, others):
    yield "# Performance"
    yield ""
    yield "The program `rota` beside an unverified twin in Rust (`bench/twin`, safe code, release build) that does the same search, filtering and thresholds and writes the same bytes. The twin is written for speed: its loops over a tuple are compiled once for each arity. Both outputs were compared with the expected ones first."
    yield ""
    yield f"Measured on {datetime.date.today():%d %B %Y}, {machine()}. Each time is the processor time of the whole program, the best of at least {LEAST_RUNS} runs and {LEAST_SECONDS} s; a ratio above 1 means that the twin is faster."
    yield ""
    yield from time_table(times)
    for line in summary(times, start):
        yield ""
        yield line
    if counts:
        yield ""
        yield "## Instructions"
        yield ""
        yield "Counted by valgrind from `main` on, without what the system does to load the program. It counts each byte of a long copy as an instruction, so copies weigh more here than in time."
        yield ""
        yield from count_table(counts)
    yield ""
    yield "## Scripts"
    yield ""
    yield "Networks with linear rules, which wcsp files can't say."
    yield ""
    yield from scripts
    yield ""
    yield "## Other solvers"
    yield ""
    yield "One run each, whole programs, processor time. clasp with gringo and minizinc with gecode were asked for the leximin-best values alone, without document 01's rule for ties, and gave the same vectors; minizinc runs once for each objective. toulbar2 was asked for any solution, a smaller question."
    yield ""
    yield from others
    yield ""
    yield "## Measuring again"
    yield ""
    yield "    bench/build.sh"
    yield "    bench/install-peers.sh"
    yield "    python3 bench/run.py --instructions --write docs/PERFORMANCE.md"
    yield ""
    yield "The instances are those of `bench/instances`."


def report(times, start, counts, scripts, others):
    yield from time_table(times)
    yield from summary(times, start)
    if counts:
        yield "Instructions from main on:"
        yield from count_table(counts)
    yield from scripts
    yield from others


def main():
    options = argparse.ArgumentParser(description="Times rota against its unverified twin.")
    options.add_argument("folder", nargs="?", type=pathlib.Path, default=INSTANCES, help="the instances")
    options.add_argument("--instructions", action="store_true", help="count instructions of two instances too")
    options.add_argument("--write", type=pathlib.Path, metavar="FILE", help="write a document, such as docs/PERFORMANCE.md")
    chosen = options.parse_args()
    if not ROTA.exists() or not REPLAY.exists():
        sys.exit("the programs are not there: build them with bench/build.sh")
    files = instances_in(chosen.folder)
    build_twin()
    times = measure(files)
    with tempfile.TemporaryDirectory() as folder:
        start = start_times(pathlib.Path(folder))
        counts = count_instructions(files, pathlib.Path(folder)) if chosen.instructions else []
    scripts = list(script_table(chosen.folder))
    others = list(peers.table(times, files))
    print("\n".join(report(times, start, counts, scripts, others)))
    if chosen.write:
        chosen.write.write_text("\n".join(document(times, start, counts, scripts, others)) + "\n")


if __name__ == "__main__":
    main()
