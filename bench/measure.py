#!/usr/bin/env python3
"""Times programs that copy a capture, one after the other in each round, and prints best times, ratios and peak memory.

Times are those of the clock and of the processors, user and system; on a busy machine the second say more.

Use: measure.py ROUNDS IN PROGRAM YARDSTICK

IN is a capture, PROGRAM a built vmxreplay, YARDSTICK the built pair.c. Beside them run cp, and tcpdump and editcap where they are installed. Each
round writes to a fresh name in the folder of IN, and compares nothing but time: that the bytes are the same is checked
once before, against IN. Memory is the greatest resident set of a run, from the system's
account of the child process; it is never below that of this script, about 14 MB.
"""
import os
import resource
import shutil
import subprocess
import sys
import time


def run(words):
    """Seconds, and the greatest resident set in bytes, of one run."""
    before = time.perf_counter()
    child = subprocess.Popen(words, stdout=subprocess.DEVNULL, stderr=subprocess.DEVNULL)
    _, status, usage = os.wait4(child.pid, 0)
    seconds = time.perf_counter() - before
    child.returncode = os.waitstatus_to_exitcode(status)
    if child.returncode != 0:
        sys.exit(f"{words[0]} ended with {child.returncode}")
    return seconds, usage.ru_maxrss * 1024, usage.ru_utime + usage.ru_stime


def main(rounds, source, program, yardstick):
    out = source + ".out"
    programs = {"cp": ["cp", source, out]}
    if shutil.which("tcpdump"):
        root = ["-Z", "root"] if os.geteuid() == 0 else []
        programs["tcpdump"] = ["tcpdump", *root, "-r", source, "-w", out]
    if shutil.which("editcap"):
        programs["editcap"] = ["editcap", "-F", "pcap", source, out]
    programs["yardstick"] = [yardstick, source, out]
    programs["vmxreplay"] = [program, "pair", source, out]

    for name in ("yardstick", "vmxreplay"):
        run(programs[name])
        if subprocess.run(["cmp", "-s", source, out]).returncode != 0:
            sys.exit(f"{name}: OUT is not IN")
        os.unlink(out)
    seconds = {name: [] for name in programs}
    processor = {name: [] for name in programs}
    memory = {name: 0 for name in programs}
    for _ in range(int(rounds)):
        for name, words in programs.items():
            if os.path.exists(out):
                os.unlink(out)
            took, peak, worked = run(words)
            seconds[name].append(took)
            processor[name].append(worked)
            memory[name] = max(memory[name], peak)
    os.unlink(out)

    size = os.path.getsize(source)
    print(f"{size} bytes, best of {rounds}")
    ours = min(seconds["vmxreplay"])
    ours_worked = min(processor["vmxreplay"])
    print(f"{'program':<12}{'seconds':>9}{'ours is':>9}{'processor':>11}{'ours is':>9}{'memory':>9}{'of file':>9}")
    for name in programs:
        best, worked = min(seconds[name]), min(processor[name])
        print(
            f"{name:<12}{best:>9.3f}{ours / best:>8.2f}x{worked:>11.3f}{ours_worked / worked:>8.2f}x"
            f"{memory[name] / 1e6:>6.0f} MB{memory[name] / size:>8.2f}x"
        )


if __name__ == "__main__":
    main(*sys.argv[1:])
