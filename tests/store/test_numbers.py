"""Numbers of sessions at the limit, and a closed standard input."""
import json
import subprocess

import pytest

from store.test_lines import add, create, ended, line
from support.server import END

MAX = 9007199254740991  # the greatest number of the protocol


@pytest.fixture(name="dump", scope="module")
def dump_fixture(program, tmp_path_factory):
    """Returns the lines of a dump with two entries of the session 1."""
    file = str(tmp_path_factory.mktemp("dump") / "store")
    ended(program, "--lines", "--store", file, text=line(create()) + line(add(1)))
    status, dump, _ = ended(program, "--store", file, "--dump")
    assert status == 0 and dump.count('"by":1,') == 2
    return dump


@pytest.mark.parametrize("number", [MAX, *(pytest.param(MAX - it, marks=pytest.mark.slow) for it in (1, 1023, 2048))])
def test_what_a_session_at_the_limit_leaves_is_accepted(program, dump, tmp_path, number):
    """A store of a session with a great number is served or refused, and never left so that the next start refuses it."""
    file = str(tmp_path / "store")
    accepted = (0, "accepted 1 documents, 2 entries\n", "")
    assert ended(program, "--store", file, "--load", text=dump.replace('"by":1,', f'"by":{number},')) == accepted
    for _ in range(2):
        status, answers, errors = ended(program, "--lines", "--store", file)
        assert (status == 0 and errors == "") or (status == 1 and errors.count("\n") == 1), errors
        assert all(int(json.loads(it)["id"][1:]) <= MAX for it in answers.splitlines())
        assert ended(program, "--store", file, "--check") == accepted


@pytest.mark.parametrize("number", [MAX + 1, 2**64 - 2, 2**64 - 1, 2**64])
def test_a_dump_with_a_greater_number_is_refused(program, dump, tmp_path, number):
    file = tmp_path / "store"
    status, written, errors = ended(program, "--store", str(file), "--load", text=dump.replace('"by":1,', f'"by":{number},'))
    assert (status, written) == (1, "") and errors.startswith("load: wrong at line ") and not file.exists()


def test_a_closed_input(program, tmp_path):
    """A program without a standard input can't be ended by its end, so --until-eof is refused."""
    command = f'exec "{program}" --listen 127.0.0.1:0 --until-eof <&-'
    ran = subprocess.run(command, shell=True, cwd=tmp_path, capture_output=True, text=True, timeout=END, check=False)
    assert ran.returncode == 2 and ran.stdout == "" and ran.stderr != ""
