"""Disks that fail: libraries of C that a program loads before the C library."""
import shutil
import subprocess

import pytest


def library_of(source, folder):
    """Compiles a disk, and returns the path of its library. Skips the test if there is no C compiler."""
    if not shutil.which("cc"):
        pytest.skip("no C compiler")
    library = folder / "disk.so"
    subprocess.run(["cc", "-O1", "-Wall", "-shared", "-fPIC", "-o", library, source, "-ldl"], check=True)
    return str(library)
