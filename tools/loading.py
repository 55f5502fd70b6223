"""Programs of tests/, which have no suffix, as modules: one test takes the guests of another."""
import importlib.machinery
import importlib.util
import pathlib
import sys

TESTS = pathlib.Path(__file__).resolve().parent.parent / "tests"


def load_test(name):
    loader = importlib.machinery.SourceFileLoader(name, str(TESTS / name))
    module = importlib.util.module_from_spec(importlib.util.spec_from_loader(name, loader))
    sys.modules[name] = module
    loader.exec_module(module)
    return module
