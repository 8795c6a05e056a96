"""No caller is told two things: another desk under a position, and two nodes that differ while a third is away. A module of bench/cluster."""
import http.client
import os
import shutil

from cluster_world import SOON, World, check, exchange, run, until

NO_WAIT = {"X-Account": "1", "Log-Position": "0"}
OTHER = "isn't the one of its position"


def answers(world, n):
    """Whether a node answers a question that waits for nothing."""
    return exchange(world.port(f"front{n}"), "GET", "/changes/1", NO_WAIT) is not None


def is_found_out(world, n, word):
    """The feeder of a node stands still before anybody is told anything, and again when it is started."""
    for at in ("started", "started again"):
        status = world.parts[f"feeder{n}"].status()
        said = world.parts[f"feeder{n}"].said()[-400:]
        check(status == 3 and word in said, at, status, said)
        check(not answers(world, n), "somebody is told something", at)


def another_desk(world):
    """A new desk, and one that is older, under the position of the desk that was there."""
    for at in range(60):
        check(world.ask(1 + at % 2, f"a{at}", "POST", "/accounts", {"name": f"a{at}"})[:2] == (200, {"account": 2 + at}), at)
        if at == 5:
            world.settled([1, 2, 3])
            world.manage("copy", "3.desk", "older.desk")
    world.settled([1, 2, 3])
    end(world, 3)
    for part in ("", "-wal", ".position"):
        if os.path.exists("3.desk" + part):
            shutil.move("3.desk" + part, "kept.desk" + part)
    shutil.copy("kept.desk.position", "3.desk.position")
    check(run("init", "3.desk", program=world.program)[0] == 0, "init")
    world.parts["desk3"].is_wanted = True
    is_found_out(world, 3, OTHER)
    world.parts["desk3"].end()
    replace("older.desk", ("", "-wal"))
    shutil.copy("kept.desk.position", "3.desk.position")
    world.parts["desk3"].is_wanted = True
    is_found_out(world, 3, OTHER)
    world.parts["desk3"].end()
    replace("kept.desk", ("", "-wal", ".position"))
    begin(world, 3)
    world.settled([1, 2, 3])
    check(until(lambda: answers(world, 3), "the right desk answers"), "the right desk")


def replace(desk, parts):
    for part in ("", "-wal", ".position"):
        if os.path.exists("3.desk" + part):
            os.remove("3.desk" + part)
        if part in parts and os.path.exists(desk + part):
            shutil.copy(desk + part, "3.desk" + part)


def end(world, n):
    for kind in ("feeder", "desk"):
        world.parts[f"{kind}{n}"].end()


def begin(world, n):
    for kind in ("desk", "feeder"):
        world.parts[f"{kind}{n}"].is_wanted = True


def told_alone(world, n):
    """Tells one node's desk a request past the log."""
    peer = http.client.HTTPConnection("127.0.0.1", world.port(f"desk{n}"), timeout=20)
    try:
        peer.request("POST", "/accounts", b'{"name":"alone"}', {"X-Account": "1", "Request-Id": "alone"})
        return peer.getresponse().status == 200
    finally:
        peer.close()


def two_differ(world):
    """While the third node is away two that differ both stand still; with it, the one that is alone does."""
    end(world, 3)
    check(told_alone(world, 2), "told past the log")
    told = [world.ask(n, "b1", "POST", "/accounts", {"name": "bob"}, seconds=60)[:2] for n in (1, 2)]
    check(told[0] != told[1], "they differ", told)
    for n in (1, 2):
        status = world.parts[f"feeder{n}"].status()
        check(status == 3 and "differ from those of" in world.parts[f"feeder{n}"].said(), n, status, world.parts[f"feeder{n}"].said()[-300:])
        check(not answers(world, n), "it tells nobody anything", n)
    begin(world, 3)
    check(world.manage("look", "--log", *world.addresses, status=1).count("different answers") == 1, "look says so")
    world.parts["feeder1"].is_wanted = True
    until(lambda: answers(world, 1) and answers(world, 3), "two that agree go on")
    status = world.parts["feeder2"].status()
    check(status == 3, "the one that is alone stands still", status)
    world.settled([1, 3])
    check(world.ask(1, "b2", "POST", "/accounts", {"name": "bea"})[:2] == world.ask(3, "b2", "POST", "/accounts", {"name": "bea"})[:2], "and they answer")


def main(said):
    with World(said.program, engines=1) as world:
        world.feeder_words = SOON
        for n in (1, 2, 3):
            world.node(n)
        another_desk(world)
        two_differ(world)
        world.check_logs()
    print("told: a new desk and an older one are found out before they answer; two that differ both stand still until a third decides")
