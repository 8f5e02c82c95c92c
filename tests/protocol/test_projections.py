"""Projections that the command line doesn't accept: the program ends with status 2, and names the reason in one line."""
import subprocess

import pytest

from support.server import END

FORM = "a projection is NAME=COLLECTION:FIELD,.."
NAMES = "the name of a projection and that of its collection have 1 to 200 bytes"
OTHER = "a projection cannot project another projection"


@pytest.mark.parametrize(
    "projections, reason",
    [
        (["t=b:x", "t=c:y"], "another projection has this name"),
        (["b=b:x"], "a projection cannot have the name of its collection"),
        (["t=b:x", "u=t:y"], OTHER),
        (["t=b:x", "b=c:y"], OTHER),
        (["t=b:,"], "a projection needs at least one field"),
        (["t"], FORM),
        (["=b:x"], NAMES),
        (["t=" + "b" * 201 + ":x"], NAMES),
    ],
)
def test_refused_projections(program, projections, reason):
    options = [word for text in projections for word in ("--projection", text)]
    ended = subprocess.run(
        [program, "--lines", *options], stdin=subprocess.DEVNULL, capture_output=True, text=True, timeout=END, check=False
    )
    assert (ended.returncode, ended.stdout, ended.stderr) == (2, "", f"error: {reason}\n")
