"""Requests a second and milliseconds, by one desk alone and by a cluster of three beside it, in one run. A module of bench/cluster, by its name alone."""
import http.client
import json
import os
import statistics
import threading
import time

from cluster_world import BASE, PROJECT, Log, World, check, run, until

SET_UP = (("accounts", "POST", "/accounts", {"name": "ann"}), ("p", "PUT", "/projects/tools", {"file": PROJECT}), ("b", "PUT", "/projects/tools/branches/main", {"commit": BASE}),
          ("c", "POST", "/changes/", {"project": "tools", "branch": "main", "subject": "Fix", "commit": "2" * 40, "parent": BASE, "paths": ["a"]}))


def asked(port, method, path, fields, body=None):
    peer = http.client.HTTPConnection("127.0.0.1", port, timeout=60)
    try:
        peer.request(method, path, body, fields)
        answer = peer.getresponse()
        return answer.status, answer.read()
    finally:
        peer.close()


def measured(ports, clients, count, mark, is_get, **fields):
    """How many a second, and half of the times and 99 of 100 in milliseconds, of votes or of questions on one change."""
    times, wrong = [], []

    def run(client):
        port = ports[client % len(ports)]
        for at in range(count // clients):
            begun = time.perf_counter()
            if is_get:
                status, _ = asked(port, "GET", "/changes/1", {"X-Account": "1", **fields})
            else:
                status, _ = asked(port, "POST", "/changes/1/revisions/current/review", {"X-Account": "1", "Request-Id": f"{mark}.{client}.{at}"}, json.dumps({"labels": {"Code-Review": at % 2}}))
            times.append(time.perf_counter() - begun)
            if status != 200:
                wrong.append(status)

    threads = [threading.Thread(target=run, args=(client,)) for client in range(clients)]
    begun = time.perf_counter()
    for it in threads:
        it.start()
    for it in threads:
        it.join()
    took = time.perf_counter() - begun
    check(not wrong, "answers", wrong[:3])
    return len(times) / took, 1000 * statistics.median(times), 1000 * sorted(times)[int(len(times) * 0.99)]


def resident(world, name):
    """Megabytes of memory of a program."""
    with open(f"/proc/{world.parts[name].process.pid}/status", encoding="utf-8") as file:
        return next(int(line.split()[1]) for line in file if line.startswith("VmRSS")) / 1000


def sync():
    """Milliseconds that the disk takes to sync what is written behind a file, half of the times."""
    found = []
    with open("synced", "wb", buffering=0) as file:
        for _ in range(200):
            file.write(b"x" * 4096)
            begun = time.perf_counter()
            os.fdatasync(file.fileno())
            found.append(time.perf_counter() - begun)
    return 1000 * statistics.median(found)


def set_up(world, port):
    for id, method, path, body in SET_UP:
        until(lambda: accepted(port, method, path, {"X-Account": "1", "Request-Id": id}, json.dumps(body)), id)


def accepted(*words):
    try:
        return asked(*words)[0] == 200
    except (OSError, http.client.HTTPException):
        return False


def replayed(world, log):
    """Entries a second that a new node is told from the log."""
    count, begun = log.head(), time.perf_counter()
    world.node(4, has_front=False)
    until(lambda: world.position(4)["position"] >= count, "the whole log")
    return count / (time.perf_counter() - begun)


def leader_killed(world, port):
    """Seconds until a request is answered whose log has just lost its leader."""
    found = []
    for at in range(3):
        log, leader = Log(world.addresses), None
        for n in (1, 2, 3):
            told = Log([world.addresses[n - 1]]).call("/v3/maintenance/status", {})
            if told["leader"] == told["header"]["member_id"]:
                leader = n
        check(leader and log, "a leader")
        world.parts[f"engine{leader}"].kill()
        begun = time.perf_counter()
        until(lambda: accepted(port, "POST", "/accounts", {"X-Account": "1", "Request-Id": f"l{at}"}, json.dumps({"name": f"l{at}"})), "an answer")
        found.append(time.perf_counter() - begun)
        time.sleep(8)
    return found


def main(said):
    rounds, count = (1, 90) if said.smallest else (3, 900)
    with World(said.program) as world:
        for n in (1, 2, 3):
            world.node(n)
        check(run("init", "alone.desk", program=world.program)[0] == 0, "init")
        world.add("alone", world.program, "serve", "alone.desk", "--port", world.port("alone"), "--count", 4294967295)
        fronts, alone = [world.port(f"front{n}") for n in (1, 2, 3)], [world.port("alone")]
        set_up(world, alone[0])
        set_up(world, fronts[0])
        cases = [("vote, desk alone", alone, False, {}, (1, 8)), ("vote, a front", fronts[:1], False, {}, (1, 8, 32)), ("vote, three fronts", fronts, False, {}, (24,)),
                 ("GET, desk alone", alone, True, {}, (1, 8, 24)), ("GET, a front", fronts[:1], True, {}, (1, 8)), ("GET, three fronts", fronts, True, {}, (24,)),
                 ("GET, a front, waits for nothing", fronts[:1], True, {"Log-Position": "0"}, (1, 8)), ("GET, three fronts, waits for nothing", fronts, True, {"Log-Position": "0"}, (24,))]
        print(f"a sync takes {sync():.2f} ms, all at rest")
        found = {}
        for at in range(rounds):
            for name, ports, is_get, fields, clients in cases:
                for some in clients:
                    found.setdefault((name, some), []).append(measured(ports, some, count, f"{at}.{some}.{len(ports)}", is_get, **fields))
        for (name, some), each in found.items():
            print(f"{name}, {some} at once: {', '.join(f'{it[0]:.0f}/s {it[1]:.1f} ms {it[2]:.1f} ms' for it in each)}")
        print("megabytes:", {name: round(resident(world, name)) for name in ("desk1", "feeder1", "front1", "engine1")})
        print(f"a new node is told {replayed(world, Log(world.addresses)):.0f} entries a second")
        print("seconds after a leader was killed:", [round(it, 1) for it in leader_killed(world, fronts[0])])
