"""What stands between a client and a desk, and loses every second exchange: the request before it comes to the desk, or the answer behind it."""
import random
import socket
import threading

# Two say of themselves that the request wasn't taken, as the desk and as a proxy do.
NOT_TAKEN = {
    "not taken": b"HTTP/1.1 503 Service Unavailable\r\nContent-Length: 28\r\nConnection: close\r\n\r\n)]}'\n{\"not_taken\":\"MEMORY\"}\n",
    "bad gateway": b"HTTP/1.1 502 Bad Gateway\r\nContent-Length: 3\r\nConnection: close\r\n\r\nno\n",
}
WAYS = ("before", "before", "behind", "behind", "behind", "cut", *NOT_TAKEN)


def whole_request(peer):
    """All bytes of a request, by its head's Content-Length."""
    told = b""
    while b"\r\n\r\n" not in told:
        more = peer.recv(65536)
        if not more:
            return None
        told += more
    head, _, body = told.partition(b"\r\n\r\n")
    lengths = [int(line.split(b":")[1]) for line in head.split(b"\r\n") if line.lower().startswith(b"content-length:")]
    while len(body) < sum(lengths):
        body += peer.recv(65536)
    return head + b"\r\n\r\n" + body


class Losing:
    """A port of its own before that of a desk. `lost` counts what was lost, by how."""

    def __init__(self, port, seed, ways=WAYS):
        self.desk_port, self.random, self.ways, self.lost = port, random.Random(seed), ways, {}
        self.listener, self.exchanges = socket.create_server(("127.0.0.1", 0)), 0
        self.port = self.listener.getsockname()[1]
        threading.Thread(target=self.run, daemon=True).start()

    def run(self):
        while True:
            peer, _ = self.listener.accept()
            with peer:
                try:
                    self.exchange(peer)
                except OSError:
                    pass  # The client has gone, or the desk: then the client has no answer.

    def exchange(self, peer):
        request = whole_request(peer)
        if request is None:
            return
        self.exchanges += 1
        way = self.random.choice(self.ways) if self.exchanges % 2 else None
        if way:
            self.lost[way] = self.lost.get(way, 0) + 1
        if way in NOT_TAKEN:
            peer.sendall(NOT_TAKEN[way])
        elif way != "before":
            answer = self.passed_on(request)
            if way == "cut":
                peer.sendall(answer[: -self.random.randrange(2, 20)])
            elif way != "behind":
                peer.sendall(answer)

    def passed_on(self, request):
        with socket.create_connection(("127.0.0.1", self.desk_port), timeout=60) as desk:
            desk.sendall(request)
            answer = b""
            while more := desk.recv(65536):
                answer += more
        return answer

    def end(self):
        self.listener.close()
