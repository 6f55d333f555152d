"""Loads scripts as modules, so that their functions can be tested: none of them runs when it is loaded."""
from __future__ import annotations

import importlib.util
import pathlib
import sys
from importlib.machinery import SourceFileLoader
from types import ModuleType

ROOT = pathlib.Path(__file__).resolve().parent.parent.parent
# Each script whose functions may be tested.
SCRIPTS = ("check", "doubt/fits", "doubt/goals", "doubt/laws", "doubt/memory", "doubt/tests",
           "misuse/run", "rows/run", "tools/index", "tools/map", "tools/unspecified", "tools/tests/run")
for folder in (".", "tools", "doubt", "rows", "examples"):
    sys.path.append(str(ROOT / folder))


def script(path: str) -> ModuleType:
    """The script at this path of the repository, which need not end in `.py`."""
    name = "script_" + path.replace("/", "_").replace("-", "_")
    if name not in sys.modules:
        loader = SourceFileLoader(name, str(ROOT / path))
        module = importlib.util.module_from_spec(importlib.util.spec_from_loader(name, loader))
        sys.modules[name] = module
        loader.exec_module(module)
    return sys.modules[name]
