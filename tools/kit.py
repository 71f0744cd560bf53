"""The kit's own `rt` as a module, for the tools that look at what it keeps."""

import importlib.machinery
import importlib.util
import os
import shutil
import sys


def load():
    """The module of the `rt` on the path. It is no interface of the kit: another kit may want other tools."""
    found = shutil.which("rt")
    if not found:
        sys.exit("there is no rt on the path")
    loader = importlib.machinery.SourceFileLoader("rt_of_kit", os.path.realpath(found))
    spec = importlib.util.spec_from_loader("rt_of_kit", loader)
    made = importlib.util.module_from_spec(spec)
    sys.modules["rt_of_kit"] = made
    loader.exec_module(made)
    return made
