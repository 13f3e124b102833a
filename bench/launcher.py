#!/usr/bin/env python3
"""Tries the launcher `vmxreplay` on a small tree of three crates, with a command `rt` in the place of the kit's that prints what
`rt all check` prints. Nothing is proved. It prints a line for each case that went otherwise, and how many there were.

    python3 bench/launcher.py
"""
import os
import re
import shutil
import signal
import subprocess
import sys
import tempfile
import time
from pathlib import Path

LAUNCHER = Path(__file__).resolve().parent.parent / "vmxreplay"

# What the tree has: the program, one crate below it, and one that it does not need.
CRATES = "# a comment: none\nother: low\nvmxreplay: low std\nlow: std\n"
SIZES = {"low": 300, "vmxreplay": 100, "other": 900}

# Checks the crates that it has not checked yet, one after the other, and keeps what it did, as the kit's command does.
COMMAND = r"""#!/bin/sh
here=$(dirname "$0")
echo "$(basename "$PWD") $*" | sed 's| /.*| OUT|' >>"$here/calls"
case "$1" in
all)
    echo "statements std: modules loaded=0 checked=0"
    for name in low vmxreplay; do
        [ -e "$here/$name.kept" ] || sleep "$(cat "$here/seconds")"
        touch "$here/$name.kept"
        printf '== %s\nminute \\n 3 proved\n' "$name"
        [ "$(cat "$here/refused")" != "$name" ] || { echo "== summary"; exit 1; }
    done
    printf '== summary\nlow: ok\n' ;;
run)
    [ "$(cat "$here/refused")" != build ] || exit 1
    mkdir -p out
    printf '#!/bin/sh\npwd -P; for word; do echo "[$word]"; done; exit 5\n' >out/vmxreplay
    chmod +x out/vmxreplay ;;
esac
"""

FIRST = r"vmxreplay: the program has to be proved and built: 2 crates, \d+ side by side, about 1 min and 1 GB of disk; interrupting keeps what is done\n"
LOW = "vmxreplay: 1 of 2 crates checked, 75 %\n"
BOTH = LOW + "vmxreplay: 2 of 2 crates checked, 100 %\n"
BUILDING = "vmxreplay: building the program\n"
DONE = BUILDING + "vmxreplay: all 2 crates are proved, and the program is built\n"
REFUSED = r"vmxreplay: the program could not be proved and built; see (.*/log)\n"
ABSENT = "vmxreplay: the program is not built, and the command rt, which proves and builds it, is not there\n"
STOPPED = "vmxreplay: interrupted: what was checked is kept, and the next call goes on from there\n"
CHECKS = ["vmxreplay all check --jobs N"]
CALLS = [*CHECKS, "vmxreplay run -- pair data/in OUT"]


# A minute passes in two seconds.
SLEEP = """#!/bin/sh
exec /bin/sleep "$(echo "$1" | awk '{ print $1 / 30 }')"
"""
MINUTE = re.compile(r"vmxreplay: \d of 2 crates checked, \d+ %, after \d+ min\n")


class Tree:
    """The tree in a folder of its own, whose name has a space."""

    def __init__(self, folder):
        self.top = folder / "a tree"
        self.bin = folder / "bin"
        self.rooms = folder / "rooms"
        for made in (self.top, self.bin, self.rooms):
            made.mkdir()
        shutil.copy(LAUNCHER, self.top / "vmxreplay")
        (self.top / "crates.txt").write_text(CRATES)
        for name, size in SIZES.items():
            (self.top / "crates" / name / "src").mkdir(parents=True)
            (self.top / "crates" / name / "src" / "lib.rt").write_text("x" * size)
        for name, text in (("rt", COMMAND), ("sleep", SLEEP)):
            (self.bin / name).write_text(text)
            (self.bin / name).chmod(0o755)
        self.link = folder / "link"
        self.link.symlink_to(self.top / "vmxreplay")
        self.set()

    def set(self, refused="", seconds="0"):
        (self.bin / "refused").write_text(refused)
        (self.bin / "seconds").write_text(seconds)

    def run(self, *words, program=None, path=None, interrupt=None):
        """Status, output, standard error and the kit's calls of one run, which is interrupted after some seconds where told to."""
        (self.bin / "calls").write_text("")
        path = f"{self.bin}:/usr/bin:/bin" if path is None else path
        child = subprocess.Popen(
            [program or self.top / "vmxreplay", *words], cwd=self.rooms, text=True, start_new_session=True,
            env={"PATH": path, "TMPDIR": str(self.rooms)}, stdout=subprocess.PIPE, stderr=subprocess.PIPE,
            preexec_fn=lambda: signal.signal(signal.SIGINT, signal.default_int_handler))
        if interrupt:
            time.sleep(interrupt)
            os.killpg(child.pid, signal.SIGINT)
        output, error = child.communicate()
        calls = re.sub(r"--jobs [1-9]\d*", "--jobs N", (self.bin / "calls").read_text()).splitlines()
        return child.returncode, output, error, calls


def main():
    wrong = []
    tried = 0

    def want(case, got, status, output, error, calls):
        nonlocal tried
        tried += 1
        said = MINUTE.sub("", got[2])
        if got[0] != status or got[1] != output or got[3] != calls or not re.fullmatch(error, said):
            wrong.append(f"{case}: {got}")

    with tempfile.TemporaryDirectory() as folder:
        tree = Tree(Path(folder).resolve())
        here = f"{tree.rooms}\n"
        lib = tree.top / "crates" / "low" / "src" / "lib.rt"
        program = tree.top / "crates" / "vmxreplay" / "out" / "vmxreplay"
        want("no kit", tree.run("a", path="/usr/bin:/bin"), 1, "", ABSENT, [])
        tree.set(seconds="100")
        got = tree.run("a", interrupt=5)
        want("interrupted", got, 130, "", FIRST + LOW + STOPPED, CHECKS)
        if not MINUTE.search(got[2]):
            wrong.append("no line in a minute")
        tree.set()
        want("goes on", tree.run("pair", "a b", ""), 5, here + "[pair]\n[a b]\n[]\n", FIRST + BOTH + DONE, CALLS)
        want("built", tree.run(), 5, here, "", [])
        want("by a symlink", tree.run("x", program=tree.link), 5, here + "[x]\n", "", [])
        time.sleep(0.05)
        lib.touch()
        want("a source is newer", tree.run("x"), 5, here + "[x]\n", FIRST + BOTH + DONE, CALLS)
        (tree.top / "crates" / "other" / "src" / "lib.rt").touch()
        want("a source that it does not need", tree.run("x"), 5, here + "[x]\n", "", [])
        (lib.parent / "gone.rt").write_text("x")
        (lib.parent / "gone.rt").unlink()
        want("a file was removed", tree.run("x", program=tree.link), 5, here + "[x]\n", FIRST + BOTH + DONE, CALLS)
        logs = list(tree.rooms.iterdir())
        if logs:
            wrong.append(f"left behind: {logs}")
        program.unlink()
        for refused, error, calls in (("low", FIRST + LOW + REFUSED, CHECKS), ("build", FIRST + BOTH + BUILDING + REFUSED, CALLS)):
            tree.set(refused=refused)
            got = tree.run("x")
            want(f"refused: {refused}", got, 1, "", error, calls)
            named = re.search(REFUSED, got[2])
            if not named or "== low\nminute \\n 3 proved\n" not in Path(named[1]).read_text():
                wrong.append(f"refused: {refused}: no log with what was printed")
    for line in wrong:
        print(line)
    print(f"{tried} cases, {len(wrong)} wrong")
    return 1 if wrong else 0


sys.exit(main())
