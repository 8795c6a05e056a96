"""Requests as a front reads them, and answers as it sends them. A module; standard library only."""
import re
import socket
import time

# A desk looks at 16,384 bytes of a head, and takes bodies of 262,144; it gives a peer ten seconds
# without a byte, and thirty in all.
LARGEST_HEAD, LARGEST_BODY, SILENCE, LONGEST = 16_385, 262_144, 10, 30
CONTENT_LENGTH = re.compile(rb"(?im)^content-length:[ \t]*0*(\d{1,6})[ \t]*\r?$")
# As a desk: lines may end without a carriage return, and empty ones before a request aren't looked
# at.
EMPTY_LINES, BLANK = re.compile(rb"(?:\r?\n)*"), re.compile(rb"\r?\n\r?\n")
ACCOUNT = re.compile(rb"(?im)^x-account:[ \t]*([0-9]{1,10})[ \t]*\r?$")
REQUEST_ID = re.compile(rb"(?im)^request-id:[ \t]*[A-Za-z0-9._-]{1,64}[ \t]*\r?$")
FIELD_OF_ID, NAME_OF_ID = re.compile(rb"(?im)^request-id[ \t]*:"), re.compile(rb"(?i)request-id")
WAITS_FOR = re.compile(rb"(?im)^log-position:[ \t]*(\d{1,18})[ \t]*\r?$")


def head_of(request: bytes) -> bytes:
    blank = BLANK.search(request)
    return request[: blank.end()] if blank else request


def account_of(request: bytes) -> int | None:
    """Returns the account of what may be a request: one account, and one id of its form.

    A desk takes nothing else but questions, so nothing else gets into the log.
    """
    head = head_of(request)
    accounts = ACCOUNT.findall(head)
    has_id = len(REQUEST_ID.findall(head)) == len(FIELD_OF_ID.findall(head)) == 1
    return int(accounts[0]) if has_id and len(accounts) == 1 else None


def without_id(request: bytes) -> bytes:
    """Returns what is no request as a desk can be told it alone: without any id it takes nothing.

    So its answer is the fault that it finds.
    """
    head = head_of(request)
    return NAME_OF_ID.sub(b"request-no", head) + request[len(head) :]


def read(peer: socket.socket) -> bytes:
    """Returns the bytes of a request as they came, up to its end or that of its input.

    A head or a body that is too large is cut, since the desk refuses it by what comes before.
    """
    data, end = b"", time.monotonic() + LONGEST

    def more() -> bytes:
        peer.settimeout(max(0.01, min(SILENCE, end - time.monotonic())))
        return peer.recv(65536)

    def head_so_far() -> bytes:
        empty = EMPTY_LINES.match(data)
        return data[empty.end() if empty else 0 :]

    while not (blank := BLANK.search(head := head_so_far())) and len(data) < LARGEST_HEAD:
        if not (piece := more()):
            return head or data
        data += piece
    if not blank:
        return head
    head, body = head[: blank.end()], head[blank.end() :]
    lengths = [int(it) for it in CONTENT_LENGTH.findall(head)]
    is_read = len(lengths) == 1 and lengths[0] <= LARGEST_BODY and not head.startswith(b"GET ")
    wanted = lengths[0] if is_read else 0
    while len(body) < wanted:
        if not (piece := more()):
            break
        body += piece
    return head + body[:wanted]


def said(status: str, text: str, *fields: str) -> bytes:
    """Returns an answer of the front's own."""
    kind = "application/json; charset=UTF-8" if text.startswith(")]}'") else "text/plain"
    head = [f"HTTP/1.1 {status}", f"Content-Type: {kind}", f"Content-Length: {len(text)}"]
    return "\r\n".join([*head, *fields, "Connection: close", "", text]).encode()


def at_position(answer: bytes, position: int) -> bytes:
    """Returns a desk's answer with the field that says how far the desk was."""
    return answer.replace(b"\r\n", b"\r\nLog-Position: %d\r\n" % position, 1)


def send(peer: socket.socket, answer: bytes) -> None:
    """Answers, and waits a moment until the peer goes away.

    What the peer still sends would take the answer from it.
    """
    peer.sendall(answer)
    peer.shutdown(socket.SHUT_WR)
    peer.settimeout(1)
    end = time.monotonic() + LONGEST
    while time.monotonic() < end and peer.recv(65536):
        pass
