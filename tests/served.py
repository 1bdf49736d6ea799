"""tests/serve as a module, for what starts a server as it does."""
import importlib.machinery
import importlib.util
import os
import sys

sys.dont_write_bytecode = True
ROOT = os.path.dirname(os.path.dirname(os.path.realpath(__file__)))


def loaded():
    """tests/serve, whose name has no ending."""
    loader = importlib.machinery.SourceFileLoader("serve", f"{ROOT}/tests/serve")
    module = importlib.util.module_from_spec(importlib.util.spec_from_loader("serve", loader))
    loader.exec_module(module)
    return module


serve = loaded()
