"""A stand-in for a desk, which says just what a file tells: python3 cluster_stand_in.py PORT SAYS TOLD

SAYS is JSON: for the name of a request (its body) what it is told, one after the other, the last for ever; others are told 200. TOLD gets a line for each request that came.
"""
import json
import os
import socket
import sys
import time

NOT_TAKEN = ("MEMORY", "STORE", "PATTERN", "DAMAGED", "FULL", "NEWER")


def whole(status, said):
    body = f")]}}'\n{json.dumps(said, separators=(',', ':'))}\n".encode()
    return b"HTTP/1.1 %d Said\r\nContent-Length: %d\r\nConnection: close\r\n\r\n%s" % (status, len(body), body)


def answer_to(word, name):
    """The bytes of an answer."""
    if word in NOT_TAKEN:
        return whole(503, {"not_taken": word})
    if word == "none":
        return b""
    if word == "half":
        return whole(200, {"name": name})[:-5]
    if word == "other":
        return b"HTTP/1.1 200 OK\r\nContent-Length: 2\r\n\r\n{}"
    if word == "broken":
        return b"HTTP/1.1 503 Said\r\nContent-Length: 8\r\n\r\n)]}'\n{x\n"
    if word in ("IDENTITY_REUSED", "EPOCH_CLOSED", "NOT_ADMIN"):
        return whole(409, {"refused": word})
    if word in ("BAD_BODY", "METHOD"):
        return whole(400, {"fault": word})
    return whole(200, {"name": name})


def main(port, says, told):
    with socket.create_server(("127.0.0.1", int(port))) as listener:
        while True:
            peer, _ = listener.accept()
            with peer, open(told, "a", encoding="utf-8", buffering=1) as file:
                request = b""
                while more := peer.recv(65536):
                    request += more
                name = request.rpartition(b"\n")[2].decode()
                with open(says, encoding="utf-8") as script:
                    words = json.load(script).get(name, ["ok"])
                with open(told, encoding="utf-8") as before:
                    at = [json.loads(line)[1] for line in before].count(name)
                word = words[min(at, len(words) - 1)]
                file.write(json.dumps([os.getpid(), name, word]) + "\n")
                if word == "dies":
                    os._exit(9)
                if word == "hangs":
                    time.sleep(1000)
                peer.sendall(answer_to(word, name))


if __name__ == "__main__":
    main(*sys.argv[1:])
