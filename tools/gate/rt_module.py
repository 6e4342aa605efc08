"""`rt` itself, as a module: the one on the path."""
import importlib.util
import os
import shutil
import sys
from importlib.machinery import SourceFileLoader


def load():
    file = os.path.realpath(shutil.which("rt") or sys.exit("there is no rt on the path"))
    sys.path.insert(0, os.path.dirname(file))
    loader = SourceFileLoader("rt_itself", file)
    made = importlib.util.module_from_spec(importlib.util.spec_from_loader("rt_itself", loader))
    sys.argv = ["rt"]
    loader.exec_module(made)
    return made
