"""The toolchain's `rt` as a module, for scripts that go on where its commands stop."""
import importlib.machinery
import importlib.util
import os
import shutil
import sys


def load():
    path = os.path.realpath(shutil.which("rt") or sys.exit("rt isn't on the PATH"))
    loader = importlib.machinery.SourceFileLoader("rt", path)
    module = importlib.util.module_from_spec(importlib.util.spec_from_loader("rt", loader))
    sys.path.insert(0, os.path.dirname(path))
    loader.exec_module(module)
    return module
