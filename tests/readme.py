#!/usr/bin/env python3
"""Runs the examples of README that begin with a dollar sign, from the root of the sources, and compares what they print with what README
says; those that need gp or parallel are skipped if it is not installed. The first two commands of README are the two for a newcomer,
and the first is run too. Usage: tests/readme.py (make check-readme)"""
import re
import shutil
import subprocess
import sys
from pathlib import Path

ROOT = Path(__file__).resolve().parent.parent
FIRST = ["make frames", "bash .ci/run"]


def examples(text):
    """Commands and what they print: lines of a block that is indented by four blanks."""
    command, said = None, []
    for line in text.split("\n") + [""]:
        block = line[4:] if line.startswith("    ") else None
        if block is None or block.startswith("$ "):
            if command:
                yield command, "".join(x + "\n" for x in said)
            command, said = None, []
        if block is not None and block.startswith("$ "):
            command = block[2:]
        elif command:
            said.append(block)


def lacking(command):
    """What a command needs and is not installed."""
    if re.search(r"\bgp -q", command) and not (shutil.which("gp") and (ROOT / "build" / "libjingcobu-gp.so").exists()):
        return "gp or libpari-dev"
    if command.startswith("parallel ") and not shutil.which("parallel"):
        return "parallel"
    return None


def wrong(command, said):
    """What a command does that README does not say."""
    run = subprocess.run(["bash", "-o", "pipefail", "-c", command], cwd=ROOT, capture_output=True, text=True)
    return "FAILED: %s\n%s%s" % (command, run.stdout, run.stderr) if run.returncode or run.stdout != said else None


def main():
    text = (ROOT / "README.md").read_text()
    first = [line[4:] for line in text[:text.index("\n## ")].split("\n") if line.startswith("    ")]
    found = [] if first == FIRST else ["FAILED: the commands before the first heading are %r" % first]
    tried = list(examples(text))
    answers = re.findall(r"^    [0-9a-z]+ .* {3,}([0-9a-f]{12})(?: .*)?$", text, re.MULTILINE)
    tried.append(("make -s frames", "".join(line + "\n" for line in answers)))
    for command, said in list(tried):
        if lacking(command):
            print("SKIPPED: %s is not installed, for the example of README: %s" % (lacking(command), command))
            tried.remove((command, said))
        else:
            found += filter(None, [wrong(command, said)])
    print("\n".join(found + ["%d examples of README tried, %d wrong" % (len(tried), len(found))]))
    return found or len(tried) < 3


sys.exit(1 if main() else 0)
