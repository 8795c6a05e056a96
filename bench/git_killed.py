"""A program of examples/git that is killed at a step: before or behind a file that is written or removed, a commit that is made, a ref that is moved, or a request. A module."""
import os
import sys

from git_world import HOOK

KILLED = f"""#!{sys.executable}
import importlib.machinery, importlib.util, os, signal, subprocess, sys
sys.dont_write_bytecode = True
sys.path[0:0] = [{os.path.dirname(HOOK)!r}, {os.path.join(os.path.dirname(os.path.dirname(HOOK)), "client")!r}]
import retry
left = int(os.environ.get("KILL_AT") or 1000)
def step():
    global left
    left -= 1
    if not left:
        os.kill(os.getpid(), signal.SIGKILL)
def stepping(owner, name, is_step=lambda words: True):
    real = getattr(owner, name)
    def instead(*words, **more):
        if not is_step(words):
            return real(*words, **more)
        step()
        told = real(*words, **more)
        step()
        return told
    setattr(owner, name, instead)
stepping(os, "replace")
stepping(os, "remove")
stepping(retry.Desk, "send", lambda words: words[1] != "GET")
stepping(subprocess, "run", lambda words: words[0][1] in ("update-ref", "hash-object"))
loader = importlib.machinery.SourceFileLoader("it", "PROGRAM")
it = importlib.util.module_from_spec(importlib.util.spec_from_loader("it", loader))
loader.exec_module(it)
status = it.main()
print("steps left", left, file=sys.stderr, flush=True)
sys.exit(status)
"""


def write_killed(program, to):
    """Writes a program that is one of examples/git, killed at the step that the environment variable KILL_AT says."""
    if os.path.lexists(to):
        os.remove(to)
    with open(to, "w", encoding="utf-8") as file:
        file.write(KILLED.replace("PROGRAM", program))
    os.chmod(to, 0o755)
    return to
