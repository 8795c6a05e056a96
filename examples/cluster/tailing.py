"""Accepted requests as events for bots, from what a feeder tells. A module."""
import collections
import json
import re
from collections.abc import Iterator
from typing import Any

from desk_answers import UPGRADE, subscribe, told

# What Gerrit calls an event of a request, where it has a word for it.
TYPES = [
    (r"POST /changes/$|POST /changes/\d+/revisions$", "patchset-created"),
    (r".*/review$", "comment-added"),
    (r".*/submit$", "change-merged"),
    (r".*/abandon$", "change-abandoned"),
    (r".*/restore$", "change-restored"),
    (r".*/reviewers$", "reviewer-added"),
    (r".*/reviewers/\d+/delete$", "reviewer-deleted"),
    (r".*/(wip|ready)$", "wip-state-changed"),
    (r"PUT /projects/[^/]*/branches/", "ref-updated"),
    (r".*/attention", "attention-changed"),
    (r"", "desk-changed"),
]
SEEN = 100_000


class Gone(Exception):
    """The log no longer has what was asked for."""


def events(desk_file: str, after: int | None, until: int | None) -> Iterator[dict[str, Any]]:
    """Gives accepted requests once each, as far as the last ones tell, and up to an entry.

    A bot that was away may see some twice, by the same caller, epoch and id.
    """
    seen: collections.OrderedDict[tuple[Any, ...], bool] = collections.OrderedDict()
    for line in subscribe(desk_file, {"after": after, "requests": True}):
        if "truncated" in line:
            raise Gone(line["truncated"])
        if "answer" not in line:
            continue
        if until is not None and line["position"] > until:
            return
        event = event_of(line)
        if event and (who := (event["caller"], event["epoch"], event["id"])) not in seen:
            seen[who] = True
            if len(seen) > SEEN:
                seen.popitem(last=False)
            yield event


def event_of(line: dict[str, Any]) -> dict[str, Any] | None:
    """Returns what is told of an entry, or None where nothing was accepted."""
    if not line["request"] or UPGRADE.fullmatch(line["request"].encode("latin-1")):
        return None
    status, answer = told(line["answer"].encode("latin-1"))
    if status != 200:
        return None
    head, _, body = re.sub(r"\r?\n", "\n", line["request"]).lstrip("\n").partition("\n\n")
    if head.startswith("GET "):
        return None
    pairs = [field.partition(":") for field in head.split("\n")[1:]]
    fields = {name.strip().lower(): value.strip() for name, _, value in pairs}
    asked = " ".join(head.split(" ")[:2])
    path = asked.partition("?")[0]
    return {
        "type": next(kind for form, kind in TYPES if re.match(form, path)),
        "position": line["position"],
        "caller": int(fields["x-account"]),
        "epoch": int(fields.get("request-epoch", 0)),
        "id": fields["request-id"],
        "request": asked,
        "body": json.loads(body.encode("latin-1") or "{}"),
        "answer": answer,
    }
