#!/usr/bin/env python3
"""Times the book beside a plain C program on the same two million mixed lines, and compares their answers.

    run.py [LINES]

Prints the processor time and the peak memory of each, and the ratio of the times. It wants crates/book/out/book (./run.sh
builds it) and a C compiler, `cc`.
"""

import filecmp
import os
import subprocess
import sys
import tempfile
import time

HERE = os.path.dirname(os.path.abspath(__file__))
ROOT = os.path.join(HERE, "..")
LINES = sys.argv[1] if len(sys.argv) > 1 else "2000000"
TURNS = 5


def peak_of(pid):
    """The peak memory of a running program, in kilobytes; 0 if it has not become the program yet."""
    with open(f"/proc/{pid}/status") as status:
        fields = dict(line.split(":", 1) for line in status)
    if fields["Name"].strip().startswith("python"):
        return 0
    return int(fields.get("VmHWM", "0 kB").split()[0])


def measured(program, source, sink):
    """Processor seconds and peak kilobytes of one run."""
    with open(source, "rb") as lines, open(sink, "wb") as answers:
        child = subprocess.Popen([program], stdin=lines, stdout=answers)
        memory = 0
        # The peak is read while the program runs: wait4 would count what this process had before it became the program.
        while True:
            ended, status, used = os.wait4(child.pid, os.WNOHANG)
            if ended:
                break
            memory = max(memory, peak_of(child.pid))
            time.sleep(0.002)
    if status != 0:
        sys.exit(f"{program}: status {status}")
    return used.ru_utime + used.ru_stime, memory


with tempfile.TemporaryDirectory() as work:
    plain = os.path.join(work, "plain")
    lines = os.path.join(work, "lines")
    subprocess.run(["cc", "-O3", "-o", plain, os.path.join(HERE, "plain.c")], check=True)
    with open(lines, "wb") as sink:
        generator = os.path.join(ROOT, "independent", "generate.py")
        subprocess.run([sys.executable, "-B", generator, "--lines", LINES, "7"], stdout=sink, check=True)
    programs = {"book": os.path.join(ROOT, "crates", "book", "out", "book"), "plain": plain}
    best = {}
    for _ in range(TURNS):
        for name, program in programs.items():
            figures = measured(program, lines, os.path.join(work, name + ".answers"))
            best[name] = min(best.get(name, figures), figures)
    if not filecmp.cmp(*(os.path.join(work, name + ".answers") for name in programs), shallow=False):
        sys.exit("the answers differ")
    for name, (seconds, memory) in best.items():
        print(f"{name:<6} {seconds:8.3f} s  {memory:8,} KB")
    print(f"ratio  {best['book'][0] / best['plain'][0]:8.2f}    the least of {TURNS} turns each, {int(LINES):,} lines")
