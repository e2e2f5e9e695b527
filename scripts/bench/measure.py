#!/usr/bin/env python3
"""Runs the built program on generated networks and prints a table of facts, time and memory.

measure.py [PROGRAM]   the program is crates/amdl_cli/out/amdl_cli where none is named; 'rt ci' builds it.

Each run has 300 seconds, and 4 GiB of address space; its memory is known where Debian's package time is there. Behind
the program two words may stand. With 'count', and where valgrind is there, the instructions are counted too, of runs of
at most 3 seconds. With 'clingo' the same networks are given to clingo (Debian's package gringo) as datalog.py writes
them, and its number of facts is compared.
"""
import os
import re
import resource
import signal
import subprocess
import sys
import tempfile
import time

HERE = os.path.dirname(os.path.abspath(__file__))
TOP = os.path.dirname(os.path.dirname(HERE))
RUNS = [("sample", 16), ("sample", 31), ("fabric", 5), ("fabric", 7), ("wide", 256), ("double", 256),
        ("together", 256), ("chain", 60), ("queries", 6), ("queries", 8), ("queries", 12), ("constants", 8),
        ("constants", 16), ("constants", 64)]
LONGEST_COUNTED = 3
TIME = "/usr/bin/time"


def limit():
    resource.setrlimit(resource.RLIMIT_AS, (4 << 30, 4 << 30))


def measured(words):
    """The output, the seconds and the MiB of one run; None where it takes too long."""
    with tempfile.NamedTemporaryFile("r") as peak:
        # The process that is forked from this one would count with this one's memory, so that of another is asked for.
        timed = [TIME, "-f", "%M", "-o", peak.name] if os.access(TIME, os.X_OK) else []
        begun = time.time()
        child = subprocess.Popen(timed + words, stdout=subprocess.PIPE, stderr=subprocess.DEVNULL, preexec_fn=limit,
                                 start_new_session=True)
        try:
            text, _ = child.communicate(timeout=300)
        except subprocess.TimeoutExpired:
            os.killpg(child.pid, signal.SIGKILL)
            child.wait()
            return None
        seconds = time.time() - begun
        kilobytes = (peak.read().split() or [""])[-1]
    return text.decode(), seconds, "%d" % (int(kilobytes) // 1024) if kilobytes.isdigit() else ""


def instructions(words):
    talk = subprocess.run(["valgrind", "--tool=callgrind", "--callgrind-out-file=/dev/null"] + words,
                          capture_output=True, text=True).stderr
    found = re.search(r"Collected : (\d+)", talk)
    return "%d" % round(int(found.group(1)) / 1e6) if found else ""


def written(script, family, size, folder):
    path = os.path.join(folder, "%s%d.%s" % (family, size, script))
    with open(path, "w") as file:
        subprocess.run([sys.executable, os.path.join(HERE, script + ".py"), family, str(size)], stdout=file, check=True)
    return path


def ours(program, path, counted):
    """The cells of the table for the program, and the number of facts that it counts."""
    words = [program, "analyse", path]
    answer = measured(words)
    if answer is None:
        return "| over 300 | |" + (" |" if counted else ""), None
    text, seconds, mebibytes = answer
    facts = re.search(r"out (\d+) state (\d+) abort (\d+)", text)
    cells = "| %.2f | %s |" % (seconds, mebibytes)
    if counted:
        cells += " %s |" % (instructions(words) if seconds <= LONGEST_COUNTED else "")
    return cells, sum(map(int, facts.groups())) if facts else None


def clingo(path, facts):
    """The cells for clingo, with a word where it finds another number of facts."""
    answer = measured(["clingo", "--outf=0", "-V1", path])
    if answer is None or "out" not in answer[0]:
        return " over 300 s or 4 GiB | |"
    text, seconds, mebibytes = answer
    found = sum(word.startswith(("out(", "state(")) for word in text.split())
    return " %.2f | %s |%s" % (seconds, mebibytes, "" if facts in (None, found) else " but %d facts" % found)


def main():
    words = sys.argv[1:]
    counted, compared = "count" in words, "clingo" in words
    words = [word for word in words if word not in ("count", "clingo")]
    program = words[0] if words else os.path.join(TOP, "crates/amdl_cli/out/amdl_cli")
    if not os.access(program, os.X_OK):
        sys.exit("no program at %s: 'rt ci' builds it" % program)
    heads = ["network", "facts", "seconds", "MiB"] + ["million instructions"] * counted
    heads += ["clingo, seconds", "clingo, MiB"] * compared
    print("| " + " | ".join(heads) + " |")
    print("|" + " --- |" * len(heads))
    with tempfile.TemporaryDirectory() as folder:
        for family, size in RUNS:
            cells, facts = ours(program, written("networks", family, size, folder), counted)
            line = "| %s %d | %s " % (family, size, facts or "") + cells
            if compared:
                line += clingo(written("datalog", family, size, folder), facts)
            print(line, flush=True)


if __name__ == "__main__":
    main()
