"""What stands between nodes of etcd, so that one can be cut off: what is sent then neither arrives nor fails, until it is let through again. A module of bench/cluster."""
import contextlib
import re
import socket
import threading
import time

FROM = re.compile(rb"(?im)^x-server-from: *([0-9a-f]+)\r?$")


class Links:
    """A port before each node's own for its peers. `cut` holds the number of the node that is cut off."""

    def __init__(self, world, numbers):
        self.world, self.members, self.cut, self.passed, self.held = world, {}, None, 0, 0
        for n in numbers:
            listener = socket.create_server(("127.0.0.1", 0))
            world.peers[n] = listener.getsockname()[1]
            threading.Thread(target=self.run, args=(n, listener), daemon=True).start()

    def name_members(self, log):
        """Which node of etcd has which id, by which a peer says who it is."""
        for member in log.call("/v3/cluster/member/list", {})["members"]:
            self.members[f"{int(member['ID']):x}"] = int(member["name"].removeprefix("n"))

    def run(self, n, listener):
        while True:
            peer, _ = listener.accept()
            threading.Thread(target=self.connect, args=(n, peer), daemon=True).start()

    def connect(self, n, peer):
        with contextlib.suppress(OSError), peer, socket.create_connection(("127.0.0.1", self.world.port(f"peer{n}"))) as etcd:
            head = b""
            while b"\r\n\r\n" not in head:
                if not (more := peer.recv(65536)):
                    return
                head += more
            said = FROM.search(head)
            ends = (n, said and said[1].decode())
            self.wait(ends)
            etcd.sendall(head)
            other = threading.Thread(target=self.carry, args=(etcd, peer, ends), daemon=True)
            other.start()
            self.carry(peer, etcd, ends)
            other.join()

    def wait(self, ends):
        """Holds back what goes to or comes from who is cut off."""
        n, member = ends
        if self.cut and self.cut in (n, self.members.get(member)):
            self.held += 1
            while self.cut in (n, self.members.get(member)):
                time.sleep(0.05)
        self.passed += 1

    def carry(self, one, other, ends):
        with contextlib.suppress(OSError):
            while more := one.recv(65536):
                self.wait(ends)
                other.sendall(more)
        for it in (one, other):
            with contextlib.suppress(OSError):
                it.shutdown(socket.SHUT_RDWR)
