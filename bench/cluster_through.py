"""bench/clients, bench/git_pushes and bench/page as they are, through nginx and a front in the desk's place. A module of bench/cluster, by its name alone."""
import os
import subprocess
import sys

from cluster_world import TOP

SCRIPTS = ("clients", "git_pushes", "page")


def main(said):
    here = os.path.dirname(os.path.realpath(__file__))
    program = os.path.abspath("program")
    with open(program, "w", encoding="utf-8") as file:
        file.write(f"#!/bin/sh\nexec {sys.executable} {here}/cluster_program.py {said.program} \"$@\"\n")
    os.chmod(program, 0o755)
    ended = []
    for script in SCRIPTS:
        ran = subprocess.run([os.path.join(here, script), *(["--smallest"] if said.smallest else []), program], cwd=TOP, stdout=subprocess.PIPE, stderr=subprocess.STDOUT, text=True, check=False)
        ended.append(ran.returncode)
        print(f"bench/{script}, through a front: status {ran.returncode}\n{ran.stdout[-2000:]}", flush=True)
    sys.exit(0 if not any(ended) else 1)
