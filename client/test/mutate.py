#!/usr/bin/env python3
"""Changes one place of client/src at a time, and counts the changes that the tests detect.

    client/test/mutate.py [--sample N] [--seed S] [--list] [FILE..]

FILE is a file of client/src, as ot/transform.js; all by default. Each change is made in a copy, and `node --test` runs
there with fixed seeds; a change at which it fails or exceeds its time is detected. It prints a line for each change that
isn't, and a table. --sample tries N changes of each file. --list prints the changes only. The changes of a line that
ends with `// equivalent` are left out: no test can detect them.
"""
import argparse
import collections
import os
import pathlib
import random
import re
import shutil
import signal
import subprocess
import sys
import tempfile

CLIENT = pathlib.Path(__file__).resolve().parent.parent
PATIENCE = 30  # seconds for the tests of one change
# The test files by the folder of the changed file, the one that detects the most first.
TESTS = {
    "ot/text.js": ["ot.test.js", "bind_text.test.js", "cases.test.js"],
    "ot/": ["ot.test.js", "faults.test.js", "cases.test.js"],
    "cluster.js": ["cluster.test.js"],
    "edits.js": ["edits.test.js"],
    "difference.js": ["edits.test.js"],
    "undo.js": ["undo.test.js"],
    "bind_text.js": ["bind_text.test.js"],
    "observers.js": ["undo.test.js"],
    "codemirror.js": ["codemirror.test.js"],
    "react.js": ["react.test.js"],
    "keeper.js": ["storage.test.js", "storage_fuzz.test.js"],
    "storage.js": ["storage.test.js", "browser_storage.test.js"],
    "folder_storage.js": ["folder_storage.test.js"],
    "": [
        "batch.test.js",
        "parts.test.js",
        "cases.test.js",
        "connection.test.js",
        "cluster.test.js",
        "fuzz.test.js",
        "faults.test.js",
        "ot.test.js",
        "undo.test.js",
        "storage.test.js",
    ],
}
FIXED = {"SEED": "7", "CASES": "1500", "RUNS": "6", "TIMEOUT": "10000"}
RULES = [
    (" <= ", " < "),
    (" < ", " <= "),
    (" >= ", " > "),
    (" > ", " >= "),
    (" === ", " !== "),
    (" !== ", " === "),
    (" + 1", ""),
    (" - 1", ""),
    (" + ", " - "),
    (" - ", " + "),
    (" && ", " || "),
    (" || ", " && "),
    ("LEFT", "RIGHT"),
    ("RIGHT", "LEFT"),
    ("? [] :", "? [component] :"),
    ("true", "false"),
    ("false", "true"),
    ("Math.max", "Math.min"),
    ("Math.min", "Math.max"),
    (".shift()", ".pop()"),
    (".unshift(", ".push("),
    ("if (!", "if ("),
]
STATEMENT = re.compile(
    r"^\s+((this|machine|core|record|state|last|carets)\.[\w.]+ (=|\+=|-=) .*;|this\.[\w.]+\(.*\);|settle\(\);"
    r"|check\w+\(.*\);|for \(.*\) [\w.]+\(.*\);|[\w.]+\.(push|delete|clear|set)\(.*\);)\s*$"
)
GUARD = re.compile(r"^(\s+)if \((.*)\) (return.*;|refuse.*;|notApplied.*;|badlyFormed.*;|throw.*;|break;)$")


def changes(lines):
    """Yields the line's number, its new text, and what was changed."""
    in_comment = False
    for number, line in enumerate(lines):
        text = line.strip()
        in_comment = in_comment or text.startswith("/*")
        if in_comment:
            in_comment = "*/" not in text
            continue
        code = line.split(" // ")[0]
        if not text or text.startswith(("//", "import ", "export {")) or line.rstrip().endswith("// equivalent"):
            continue
        for old, new in RULES:
            for found in re.finditer(re.escape(old), code):
                if "'" in code and code[: found.start()].count("'") % 2:
                    continue
                changed = line[: found.start()] + new + line[found.end() :]
                yield number, changed, f"`{old.strip()}` becomes `{new.strip() or 'nothing'}`"
        if STATEMENT.match(line):
            yield number, ";", "the statement is removed"
        guard = GUARD.match(line)
        if guard:
            yield number, guard[1] + ";", "the guard is removed"


def detected(folder, file):
    """Runs the tests, and stops at the first file that fails."""
    for name in TESTS[next(it for it in TESTS if file.startswith(it))]:
        command = ["node", "--test", f"client/test/{name}"]
        process = subprocess.Popen(
            command,
            cwd=folder,
            env={**os.environ, **FIXED},
            stdout=subprocess.DEVNULL,
            stderr=subprocess.DEVNULL,
            start_new_session=True,
        )
        try:
            if process.wait(PATIENCE) != 0:
                return True
        except subprocess.TimeoutExpired:
            os.killpg(process.pid, signal.SIGKILL)  # (the session is this process's own, and it still runs)
            process.wait()
            return True
    return False


def copied(target):
    for name in ("src", "test"):
        shutil.copytree(CLIENT / name, target / "client" / name)
    shutil.copy(CLIENT.parent / "package.json", target)
    (target / "docs").mkdir()
    shutil.copy(CLIENT.parent / "docs" / "CLIENT.md", target / "docs")


def main():
    parser = argparse.ArgumentParser(description=__doc__, formatter_class=argparse.RawDescriptionHelpFormatter)
    parser.add_argument("files", nargs="*")
    parser.add_argument("--sample", type=int, default=0)
    parser.add_argument("--seed", type=int, default=1)
    parser.add_argument("--list", action="store_true")
    given = parser.parse_args()
    files = given.files or sorted(str(path.relative_to(CLIENT / "src")) for path in (CLIENT / "src").rglob("*.js"))
    chosen = random.Random(given.seed)
    counts = collections.Counter()
    with tempfile.TemporaryDirectory(prefix="mutate-") as folder:
        target = pathlib.Path(folder)
        copied(target)
        if not given.list and any(detected(target, file) for file in ("doc.js", "ot/apply.js")):
            sys.exit("the tests fail without a change")
        for file in files:
            path = target / "client" / "src" / file
            whole = path.read_text()
            lines = whole.split("\n")
            made = list(changes(lines))
            if given.sample and len(made) > given.sample:
                made = sorted(chosen.sample(made, given.sample))
            for number, text, what in made:
                place = f"{file}:{number + 1}: {what}: {lines[number].strip()[:110]}"
                if given.list:
                    print(place)
                    continue
                path.write_text("\n".join([*lines[:number], text, *lines[number + 1 :]]))
                counts[file, "made"] += 1
                if detected(target, file):
                    counts[file, "detected"] += 1
                else:
                    print(place, flush=True)
            path.write_text(whole)
            if made and not given.list:
                print(f"{file}: {counts[file, 'detected']} of {counts[file, 'made']} detected", flush=True)
    if given.list:
        return
    for group, isin in (("ot/", lambda file: file.startswith("ot/")), ("the rest", lambda file: not file.startswith("ot/"))):
        made = sum(count for (file, kind), count in counts.items() if kind == "made" and isin(file))
        found = sum(count for (file, kind), count in counts.items() if kind == "detected" and isin(file))
        if made:
            print(f"{group}: {found} of {made} detected, {100 * found / made:.0f} %")


if __name__ == "__main__":
    main()
