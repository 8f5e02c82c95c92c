"""The modules of this folder are imported by name."""
import pathlib
import sys

import pytest

sys.path.insert(0, str(pathlib.Path(__file__).resolve().parent))


@pytest.fixture(scope="session")
def reference(request):
    """The program of the reference client, or None: then no editor is one."""
    found = request.config.getoption("--reference")
    return found and str(pathlib.Path(found).resolve())
