#!/usr/bin/env python3
"""Writes Markdown tables from results of bench/run, bench/sockets or bench/load: bench/tables.py RESULT.json [RESULT.json]

With one file: each figure with its least, middle and greatest run. With two files: the figures of both and their ratio.
"""
import json
import pathlib
import sys

UNITS = {
    "s": (("s", 1), ("ms", 1e-3), ("us", 1e-6), ("ns", 1e-9)),
    "bytes": (("MB", 1e6), ("KB", 1e3), ("bytes", 1)),
    "ratio": (("", 1),),
    "rate": (("each second", 1),),
}


def shown(value, unit):
    """Returns a value with three digits in the unit that suits it."""
    name, size = next((it for it in UNITS[unit] if abs(value) >= it[1]), UNITS[unit][-1])
    number = value / size
    text = f"{number:,.0f}" if abs(number) >= 100 else f"{number:.3g}"
    return f"{text} {name}".strip()


def header(results):
    machine, load = results["machine"], results["load"]
    changed = ", with changes" if results["changed"] else ""
    return (
        f"{results['date'][:10]}, commit {results['commit'][:8]}{changed}; {machine['processors']} x {machine['processor']}, "
        f"governor {machine['governor'] or 'unknown'}, load {load['start']:.1f} to {load['end']:.1f}. `{results['command']}`"
    )


def table(columns, rows):
    lines = [f"| {' | '.join(columns)} |", "|" + "---|" * len(columns)]
    return "\n".join(lines + [f"| {' | '.join(row)} |" for row in rows])


def rows_of_one(results):
    for it in results["figures"]:
        runs = [shown(it[key], it["unit"]) if key in it else "" for key in ("least", "median", "most")]
        yield [it["title"], shown(it["value"], it["unit"]), str(it.get("runs", 1)), *runs]


def rows_of_two(first, second):
    before = {it["title"]: it for it in first["figures"]}
    for it in second["figures"]:
        if it["title"] in before:
            old = before[it["title"]]["value"]
            yield [it["title"], shown(old, it["unit"]), shown(it["value"], it["unit"]), f"{it['value'] / old:.2f}" if old else ""]


def main(*paths):
    found = [json.loads(pathlib.Path(it).read_text()) for it in paths]
    for results in found:
        print(header(results) + "\n")
    if len(found) == 1:
        print(table(["What", "Figure", "Runs", "Least", "Median", "Most"], rows_of_one(found[0])))
    else:
        print(table(["What", "First", "Second", "Ratio"], rows_of_two(*found)))


if __name__ == "__main__":
    if len(sys.argv) not in (2, 3):
        sys.exit(__doc__)
    main(*sys.argv[1:])
