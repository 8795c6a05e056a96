"""The kit's command `rt`, as a module: what it knows of crates, edits and checks."""
import importlib.machinery
import importlib.util
import os
import subprocess
import sys


def load_rt():
    # (a shell may have another `rt` before it; each tells where the kit's first page is)
    page = subprocess.run(["rt", "doc"], stdin=subprocess.DEVNULL, stdout=subprocess.PIPE, text=True, check=True).stdout.strip()
    loader = importlib.machinery.SourceFileLoader("rt_of_the_kit", f"{os.path.dirname(page)}/bin/rt")
    rt = importlib.util.module_from_spec(importlib.util.spec_from_loader("rt_of_the_kit", loader))
    sys.modules["rt_of_the_kit"] = rt
    loader.exec_module(rt)
    return rt
