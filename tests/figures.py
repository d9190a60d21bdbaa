#!/usr/bin/env python3
"""Runs every script of tools/ that made a stored file, in a copy, and compares what it writes with what is stored.

    tests/figures.py            every script but those of SLOW, which are named (make figures, make check)
    tests/figures.py all        every script (make figures FIGURES=all)
    tests/figures.py NAME ..    these alone, such as desk_figures.py

A script names at its head the files that it makes: each crates/NAME/stdin, crates/NAME/stdout or docs/NAME.svg there is one. It writes
them by itself, or its output is the one file that is named after a >. Scripts that call gp are skipped if it is not installed."""
import ast
import os
import re
import shutil
import subprocess
import sys
import tempfile
from concurrent.futures import ThreadPoolExecutor
from pathlib import Path

ROOT = Path(__file__).resolve().parent.parent
SLOW = set()             # names of scripts that take more than a minute on one core
# modules, and scripts whose output is not stored
HELPERS = {"reference.py", "ideal_constants.py", "draw_frames.py", "clauses.py", "twins.py", "edits.py", "snake_names.py",
           "design_counts.py"}
MADE = re.compile(r"(?:> )?(?:crates/\w+/(?:stdin|stdout)|docs/\w+\.svg)")


def made_by(script):
    """The stored files that the head of a script names, and the one of them that its output is."""
    named = MADE.findall(ast.get_docstring(ast.parse(script.read_text())) or "")
    output = [name[2:] for name in named if name.startswith("> ")]
    return sorted({name.removeprefix("> ") for name in named}), output[0] if output else None


def copied(folder):
    """tools/, and what is stored in crates/, so that a script can read one file and write another; docs/ is empty."""
    shutil.copytree(ROOT / "tools", folder / "tools")
    (folder / "docs").mkdir()
    for stored in list(ROOT.glob("crates/*/stdin")) + list(ROOT.glob("crates/*/stdout")):
        to = folder / stored.relative_to(ROOT)
        to.parent.mkdir(parents=True, exist_ok=True)
        shutil.copyfile(stored, to)


def wrong(script):
    """What is wrong with a script: nothing, or a sentence."""
    files, output = made_by(script)
    if not files:
        return "its head names no stored file"
    with tempfile.TemporaryDirectory() as name:
        folder = Path(name)
        copied(folder)
        for file in files:
            (folder / file).unlink(missing_ok=True)
        run = subprocess.run([sys.executable, "tools/" + script.name], cwd=folder, capture_output=True, stdin=subprocess.DEVNULL)
        if run.returncode:
            return "it exits with %d: %s" % (run.returncode, run.stderr.decode(errors="replace")[-500:])
        if output:
            (folder / output).write_bytes(run.stdout)
        elif run.stdout:
            return "it prints, and its head names no file after a >"
        for file in files:
            if not (folder / file).exists():
                return "it does not make %s" % file
            if not (ROOT / file).exists() or (folder / file).read_bytes() != (ROOT / file).read_bytes():
                return "it makes another %s than is stored" % file
    return None


def main():
    scripts = [s for s in sorted((ROOT / "tools").glob("*.py")) if s.name not in HELPERS]
    asked = set(sys.argv[1:]) - {"all"}
    if asked - {s.name for s in scripts}:
        return "no script of tools/ that makes a stored file: " + ", ".join(sorted(asked - {s.name for s in scripts}))
    chosen = [s for s in scripts if s.name in asked or not asked]
    left = [s for s in chosen if s.name in SLOW and not sys.argv[1:]]
    needing = [s for s in chosen if "gp(" in s.read_text() or '"gp"' in s.read_text()] if not shutil.which("gp") else []
    if left:
        print("left out because they take more than a minute each (make figures FIGURES=all): " + ", ".join(s.name for s in left))
    if needing:
        print("SKIPPED: gp is not installed, for the figures of " + ", ".join(s.name for s in needing))
    tried = [s for s in chosen if s not in left and s not in needing]
    with ThreadPoolExecutor(max_workers=os.cpu_count()) as pool:
        found = [(s, w) for s, w in zip(tried, pool.map(wrong, tried)) if w]
    for script, why in found:
        print("FAILED: tools/%s: %s" % (script.name, why))
    stored = {str(p.relative_to(ROOT)) for p in ROOT.glob("crates/*/stdout")}
    unmade = sorted(stored - {file for s in scripts for file in made_by(s)[0]})
    for file in unmade:
        print("FAILED: no script of tools/ makes %s" % file)
    print("figures: %d of %d scripts of tools/ run, %d wrong" % (len(tried), len(scripts), len(found) + len(unmade)))
    return bool(found or unmade or not tried)


sys.exit(main())
