"""The modules of tools/, for the tools in its folders.

usage: no program; behind `import loading` the modules of each folder can be imported by their names, `loading.TOP` is the top of the repository,
and `loading.loaded("oracle/check-script")` is the module of a tool whose file has no ending
"""
import importlib.machinery
import importlib.util
import os
import sys

TOOLS = os.path.dirname(os.path.realpath(__file__))
TOP = os.path.dirname(TOOLS)
sys.path += [f"{TOOLS}/{folder}" for folder in ("oracle", "rows", "random", "hostile", "drive", "xml", "live")]


def loaded(path):
    loader = importlib.machinery.SourceFileLoader(os.path.basename(path).replace("-", "_"), f"{TOOLS}/{path}")
    module = importlib.util.module_from_spec(importlib.util.spec_from_loader(loader.name, loader))
    loader.exec_module(module)
    return module
