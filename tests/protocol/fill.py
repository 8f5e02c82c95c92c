#!/usr/bin/python3
"""Replaces the answers of the examples of documents by those of the programs over lines. Read the difference.

    tests/protocol/fill.py SERVER [STEPS] [DOCUMENT..]

SERVER is the program of the server, STEPS that of the steps; without it, steps stay. DOCUMENT is a path ending in .md; without
one, README.md and docs/*.md are filled.
"""
import pathlib
import sys

sys.path.insert(0, str(pathlib.Path(__file__).resolve().parent.parent))

from support.dialogue import FENCE, Session, answers_of, documents, sessions_of  # noqa: E402


def answers_by_line(programs, document):
    """Returns the answers to the message of each line, and those of openings."""
    found = {}
    for session in sessions_of(document):
        if session.kind not in programs:
            continue
        answers = answers_of(programs[session.kind], session)
        if session.kind == "dialogue":
            opening = answers.pop(0)
            if session.opening:
                found[session.opening[0]] = [opening]
        done = 0
        for at, (number, _, expected) in enumerate(session.turns):
            count = 1
            if expected is not None:
                part = Session(document, session.kind, session.options, session.line)
                part.turns = session.turns[: at + 1]
                count = len(answers_of(programs[session.kind], part)) - (session.kind == "dialogue") - done
                found[number] = answers[done : done + count]
            done += count
    return found


def fill(programs, document):
    found = answers_by_line(programs, document)
    written, block = [], None
    for number, line in enumerate(document.read_text().splitlines(), 1):
        fence = FENCE.match(line)
        block = fence[1] if fence else None if line.startswith("```") else block
        if block in programs and line.startswith("< "):
            if number in found:
                written.append("< " + found[number][0])
            continue
        written.append(line)
        if block in programs and line.startswith("> ") and number in found:
            written += ["< " + answer for answer in found[number]]
    text = "\n".join(written) + "\n"
    if text != document.read_text():
        document.write_text(text)
        print(f"filled {document}")


def main(*words):
    named = [pathlib.Path(it).resolve() for it in words if it.endswith(".md")]
    programs = dict(zip(("dialogue", "steps"), (it for it in words if not it.endswith(".md"))))
    if not programs:
        sys.exit(__doc__)
    for document in named or documents():
        fill(programs, document)


if __name__ == "__main__":
    main(*sys.argv[1:])
