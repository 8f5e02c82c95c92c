"""The script `package` of examples/deploy, as a module."""
import importlib.machinery
import importlib.util
import pathlib
import sys

from .server import ROOT, UNPROVED


def package():
    loader = importlib.machinery.SourceFileLoader("package", str(ROOT / "examples" / "deploy" / "package"))
    module = importlib.util.module_from_spec(importlib.util.spec_from_loader("package", loader))
    is_written, sys.dont_write_bytecode = sys.dont_write_bytecode, True
    try:
        loader.exec_module(module)
    finally:
        sys.dont_write_bytecode = is_written
    return module


def make_archive(program, folder, is_unproved=None):
    """Writes the archive of a program into a folder, and returns its path."""
    is_unproved = program == str(UNPROVED) if is_unproved is None else is_unproved
    return package().make(pathlib.Path(program), is_unproved, folder)
