"""The examples of the documents: fenced blocks of README.md and docs/ whose first word is `dialogue` or `steps`.

Lines `> MESSAGE` are sent; lines `< ANSWER` must be received, byte by byte, and nothing else. The blocks of one document are one
session at one server, up to a block with the word `fresh`; further words are options of the program. `> 64 times: ..` sends 64
messages with 1, 2, .. in place of #, none of which may be refused.
"""
import json
import pathlib
import re
import subprocess

ROOT = pathlib.Path(__file__).resolve().parent.parent.parent
FENCE = re.compile(r"^```(dialogue|steps)\b(.*)$")
TIMES = re.compile(r"^(\d+) times: (.*)$")
PATIENCE = 60  # seconds for the answers of a session


def documents():
    return [ROOT / "README.md", *sorted((ROOT / "docs").glob("*.md"))]


class Session:
    """A session of one document: the messages, each with its line and the expected answers."""

    def __init__(self, document, kind, options, line):
        self.document, self.kind, self.options, self.line = document, kind, options, line
        self.opening = None  # (line, text)
        self.turns = []  # (line, message, [(line, answer)] or None for any answer except an error)

    def add(self, number, line):
        mark, text = line[:2], line[2:]
        if mark == "> ":
            times = TIMES.match(text)
            many = range(1, int(times[1]) + 1) if times else ()
            self.turns += [(number, times[2].replace("#", str(it)), None) for it in many] or [(number, text, [])]
        elif mark == "< " and self.turns:
            self.turns[-1][2].append((number, text))
        elif mark == "< ":
            self.opening = (number, text)

    def name(self):
        return f"{self.document.name}:{self.line}"

    def place(self, number):
        return f"{self.document.relative_to(ROOT)}:{number}"

    def expected(self):
        """Returns the expected lines of output, each with its place; None is any answer except an error."""
        found = []
        if self.kind == "dialogue":
            found.append(self.opening or (0, None))
        for number, _, answers in self.turns:
            found += [(number, None)] if answers is None else answers
        return [(self.place(number), text) for number, text in found]


def sessions_of(document):
    found, block = [], None
    for number, line in enumerate(document.read_text().splitlines(), 1):
        fence = FENCE.match(line)
        if fence:
            words = fence[2].split()
            if not found or "fresh" in words or found[-1].kind != fence[1]:
                found.append(Session(document, fence[1], [it for it in words if it != "fresh"], number))
            block = found[-1]
        elif line.startswith("```"):
            block = None
        elif block is not None:
            block.add(number, line)
    return found


def sessions(*kinds):
    return [it for document in documents() for it in sessions_of(document) if it.kind in kinds]


def answers_of(program, session):
    """Returns the lines that the program writes for the session's messages over standard input."""
    options = ["--lines", *session.options] if session.kind == "dialogue" else session.options
    sent = "".join(message + "\n" for _, message, _ in session.turns)
    ran = subprocess.run([program, *options], input=sent, capture_output=True, text=True, timeout=PATIENCE)
    assert ran.returncode == 0, f"{program} ends with status {ran.returncode}: {ran.stderr}"
    return ran.stdout.splitlines()


def matches(expected, answer):
    return "error" not in json.loads(answer) if expected is None else expected == answer
