"""Clients of a cluster, each with an account of its own, who send everything at least twice, through any front, until its answer came. A module of bench/cluster."""
import collections
import json
import random
import threading
import time

from cluster_world import BASE, LARGE, check, exchange


class Told:
    """What all clients were told, by request, and what they counted."""

    def __init__(self):
        self.lock, self.answers, self.requests, self.times = threading.Lock(), collections.defaultdict(list), {}, []
        self.counts, self.changes, self.is_over = collections.Counter(), [], False

    def unequal(self):
        return [(key, set(answers)) for key, answers in self.answers.items() if len(set(answers)) > 1]

    def taken(self):
        """The answers of requests that the desks have taken: those of no fault, no used id and no pattern."""
        return {key: json.loads(answers[0][1][5:]) for key, answers in self.answers.items() if isinstance(key[0], int)}

    def accepted(self):
        return [json.loads(answers[0][1][5:]) for key, answers in self.answers.items() if isinstance(key[0], int) and answers[0][0] == 200]


class Client(threading.Thread):
    """One account, which asks for this and that."""

    def __init__(self, world, told, account, fronts, seed):
        super().__init__(daemon=True)
        self.world, self.told, self.account, self.fronts, self.random, self.made, self.mine, self.fault = world, told, account, fronts, random.Random(seed * 1000 + account), 0, [], None

    def deliver(self, key, front, method, path, fields, body):
        """One delivery, through other fronts where one gives no answer: nobody but the desk may say that something wasn't taken, and it says so of a pattern alone."""
        begun = time.monotonic()
        while not (answer := exchange(self.world.port(f"front{front}"), method, path, fields, body, 20)):
            with self.told.lock:
                self.told.counts["no answer"] += 1
            front = self.random.choice(self.fronts)
            time.sleep(0.05)
        with self.told.lock:
            self.told.times.append(time.monotonic() - begun)
            self.told.answers[key].append(answer[:2])
            self.told.requests[key] = (method, path, fields, body)
            if answer[0] == 503 and b"PATTERN" not in answer[1]:
                self.fault = (key, answer)
        return answer

    def ask(self, method, path, body, id=None, key=None, account=None):
        """A request, delivered two or three times, sometimes at once, with nothing between: its status and its answer."""
        self.made += 1
        id = id or f"r{self.made}"
        fields = {"X-Account": str(account or self.account), "Request-Id": id}
        text = body if isinstance(body, bytes) else json.dumps(body).encode()
        given = [(key or (self.account, id), self.random.choice(self.fronts), method, path, fields, text) for _ in range(self.random.choice([2, 2, 3]))]
        if self.random.random() < 0.4:
            others = [threading.Thread(target=self.deliver, args=it, daemon=True) for it in given[1:]]
            for it in others:
                it.start()
            told = self.deliver(*given[0])
            for it in others:
                it.join()
        else:
            told = [self.deliver(*it) for it in given][-1]
        return told[0], json.loads(told[1][5:])

    def look(self, change):
        """Whoever was told of a change sees it on every node; who asks to wait for nothing needn't."""
        for word, fields in (("waits", {}), ("doesn't wait", {"Log-Position": "0"})):
            found = exchange(self.world.port(f"front{self.random.choice(self.fronts)}"), "GET", f"/changes/{change}", {"X-Account": str(self.account), **fields}, None, 20)
            with self.told.lock:
                self.told.counts[f"read, {word}"] += found is not None
                self.told.counts[f"stale, {word}"] += found is not None and found[0] != 200

    def run(self):
        try:
            while not self.told.is_over:
                self.step()
        except (Exception, SystemExit) as fault:
            self.fault = repr(fault)

    def step(self):
        """One request by chance; some are faults, some use an id again, some can't be taken for their pattern."""
        do, change, who = self.random.random(), self.random.choice(self.told.changes or [1]), self.random.randrange(1, 8)
        commit = f"{self.random.getrandbits(160):040x}"
        if do < 0.25:
            status, made = self.ask("POST", "/changes/", {"project": "tools", "branch": "main", "subject": "Fix", "commit": commit, "parent": BASE, "paths": ["a"]})
            if status == 200:
                self.told.changes.append(made["change"])
                self.mine.append(made["change"])
                self.look(made["change"])
        elif do < 0.5:
            self.ask("POST", f"/changes/{change}/revisions/current/review", {"message": "Näh.", "labels": {"Code-Review": self.random.choice([-1, 0, 1, 1, 1])}})
        elif do < 0.6 and self.mine:
            self.ask("POST", f"/changes/{self.random.choice(self.mine)}/revisions", {"commit": commit, "parent": BASE, "kind": "REWORK", "paths": ["a", "b"]})
        elif do < 0.7:
            self.ask("POST", f"/changes/{change}/reviewers", {"reviewer": who})
        elif do < 0.8:
            self.ask("POST", f"/changes/{change}/submit", {})
        elif do < 0.85:
            self.ask("POST", f"/changes/{change}/{self.random.choice(['abandon', 'restore', 'wip', 'ready'])}", {})
        elif do < 0.92:
            self.ask("POST", f"/changes/{change}/attention", {"user": who, "reason": "look"})
        elif do < 0.95:
            self.ask("POST", f"/changes/{change}/reviewers", b"{no body", f"bad{self.made}", ("fault", self.account, self.made))
        elif do < 0.98 and self.made > 5:
            with self.told.lock:
                used = self.random.choice([key[1] for key in self.told.answers if key[0] == self.account])
            status, answer = self.ask("POST", "/accounts", {"name": "another"}, used, ("reused", self.account, self.made))
            check(answer == {"refused": "IDENTITY_REUSED"}, "a used id", status, answer)
        else:
            self.ask("PUT", "/projects/tools", {"file": LARGE}, f"large{self.account}.{self.made}", ("pattern", self.account, self.made), 1)
