"""Options and fixtures of the suites in pytest. `tests/run` starts them."""
import pathlib
import sys

import pytest

sys.path.insert(0, str(pathlib.Path(__file__).resolve().parent))

from support.server import UNPROVED, Server, default_server  # noqa: E402


def pytest_addoption(parser):
    parser.addoption("--server", default=default_server(), help="the program of the server")
    parser.addoption("--steps", help="the program of the steps")
    parser.addoption("--reference", help="the program of the reference client")
    parser.addoption("--traces", default="200", help="the number of lists of steps whose traces tests/clients compares")
    parser.addoption("--edits", default="300", help="the number of edits of each client of tests/clients")
    parser.addoption("--seconds", default="60", help="how long the clients of tests/cluster edit")
    parser.addoption("--seed", default="1", help="the seed of random edits and attacks")


def pytest_configure(config):
    config.addinivalue_line("markers", "slow: takes more than ten seconds")


def pytest_report_header(config):
    return f"server: {config.getoption('--server')}, seed: {config.getoption('--seed')}"


@pytest.fixture(scope="session")
def program(request):
    found = request.config.getoption("--server")
    if not found or not pathlib.Path(found).exists():
        pytest.fail("no program of the server: build one with ./serve --unproved, or name one by --server")
    return str(pathlib.Path(found).resolve())


@pytest.fixture(scope="session")
def steps_program(request):
    found = request.config.getoption("--steps")
    if not found:
        pytest.skip("no program of the steps: name one by --steps")
    return str(pathlib.Path(found).resolve())


@pytest.fixture(scope="session")
def reference_program(request):
    found = request.config.getoption("--reference")
    if not found:
        pytest.skip("no program of the reference client: name one by --reference")
    return str(pathlib.Path(found).resolve())


@pytest.fixture(scope="session")
def proved_program(program):
    """The program, for tests of its memory. An unproved one has run-time checks, which need more."""
    if program == str(UNPROVED):
        pytest.skip("bounds of memory hold for the proved program")
    return program


@pytest.fixture(scope="session")
def seed(request):
    return request.config.getoption("--seed")


@pytest.fixture
def server(program):
    with Server(program) as running:
        yield running
