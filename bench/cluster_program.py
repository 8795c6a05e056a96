"""Has the words of the desk's program, and serves by a cluster of one node: so tests of a desk over HTTP try a front. A module, and python3 cluster_program.py PROGRAM WORDS ..

`serve FILE --port P ..` starts etcd, the desk, a feeder, a front, and nginx by failover.conf at P, over a log that is new each time, and says what the program says. All other words
are the program's own.
"""
import os
import shutil
import signal
import socket
import subprocess
import sys
import time

from cluster_world import EXAMPLE, FEEDER, FRONT, Log, free_port, has_log, until


def start(*words):
    """A program that ends with this one, and holds the standard error of this one, so that who waits for its end waits for both."""
    return subprocess.Popen(["setpriv", "--pdeathsig", "KILL", *map(str, words)], stdin=subprocess.DEVNULL, stdout=subprocess.DEVNULL)


def is_held(file):
    """Whether a program has a desk open, as one whose `serve` was killed a moment ago."""
    for number in filter(str.isdigit, os.listdir("/proc")):
        try:
            if any(os.readlink(f"/proc/{number}/fd/{it}") == file for it in os.listdir(f"/proc/{number}/fd")):
                return True
        except OSError:
            pass
    return False


def accepts(port):
    try:
        socket.create_connection(("127.0.0.1", port)).close()
        return True
    except OSError:
        return False


def start_failover(folder, port, front):
    """nginx as before a front, in one process, so that nothing of it is left when it is killed."""
    subprocess.run([os.path.join(EXAMPLE, "certificates"), os.path.join(folder, "keys"), "one", "127.0.0.1"], check=True)
    shutil.copytree(os.path.join(folder, "keys", "one"), os.path.join(folder, "certificates"))
    with open(os.path.join(EXAMPLE, "failover.conf"), encoding="utf-8") as file:
        conf = file.read().replace("127.0.0.1:8473", f"127.0.0.1:{port}").replace("127.0.0.1:8484", f"127.0.0.1:{front}").replace("listen 8485", f"listen 127.0.0.1:{free_port()}")
    for word in ("FIRST-OTHER:8485", "SECOND-OTHER:8485"):
        conf = conf.replace(word, f"127.0.0.1:{free_port()}")
    with open(os.path.join(folder, "failover.conf"), "w", encoding="utf-8") as file:
        file.write(conf)
    start("nginx", "-p", folder, "-c", "failover.conf", "-g", f"daemon off; master_process off;{' user root;' if os.geteuid() == 0 else ''}")


def serve(program, file, port):
    folder, engine, peer, desk, front = file + ".cluster", *(free_port() for _ in range(4))
    shutil.rmtree(folder, ignore_errors=True)
    os.mkdir(folder)
    if os.path.exists(file + ".position"):
        os.remove(file + ".position")
    urls = [f"http://127.0.0.1:{it}" for it in (engine, peer)]
    start("etcd", "--data-dir", os.path.join(folder, "etcd"), "--listen-client-urls", urls[0], "--advertise-client-urls", urls[0], "--listen-peer-urls", urls[1], "--initial-advertise-peer-urls", urls[1],
          "--initial-cluster", f"default={urls[1]}", "--logger", "zap", "--log-outputs", os.path.join(folder, "etcd.log"))
    start(program, "serve", file, "--port", desk, "--count", 4294967295)
    log = Log([f"127.0.0.1:{engine}"])
    until(lambda: has_log(log) and accepts(desk), "etcd and the desk")
    start(FEEDER, file, "--port", desk, "--name", "one", "--log", *log.addresses)
    start(FRONT, file, "--port", front, "--desk", desk, "--log", *log.addresses)
    start_failover(folder, port, front)
    until(lambda: accepts(front) and accepts(port), "a front and nginx")
    print(f"listening on 127.0.0.1:{port}", flush=True)
    signal.pause()


def main(program, *words):
    file = os.path.realpath(words[1]) if len(words) > 1 else ""
    end = time.monotonic() + 30
    while os.path.exists(file) and is_held(file) and time.monotonic() < end:
        time.sleep(0.02)
    if words and words[0] == "serve":
        serve(program, file, int(words[words.index("--port") + 1]))
    os.execv(program, [program, *words])


if __name__ == "__main__":
    main(*sys.argv[1:])
