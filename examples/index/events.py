"""What has happened, as lines of JSON in the forms of Gerrit's stream-events. A module; standard library.

A change is told as it stands when the line is told. `place` says where to go on behind this event; `id` names what stays true of it, and is the same also after the index was lost
and filled again, when all is told once more.
"""
import hashlib
import json
import re

KEPT = ("patchset-created", "change-merged", "attention-added")
PEOPLE = {"comment-added": "author", "reviewer-added": "reviewer", "reviewer-deleted": "reviewer", "vote-deleted": "reviewer"}  # whom an event is about, in Gerrit's word


def account_of(info):
    """Gerrit's account attribute."""
    return {"name": info["name"], "username": info.get("username", ""), "account": info["_account_id"]}


def named(reason, info):
    """A reason of the attention set, with the user's name in place of the account's number, where the desk begins it so."""
    return re.sub(r"^account (\d{1,9})(?= )", lambda found: info(int(found[1]))["name"], reason)


def change_of(told, change_id, info, page):
    """Gerrit's change attribute."""
    it = told["change"]
    return {"project": it["project"], "branch": it["branch"], "id": change_id or f"I{it['change']:040x}", "number": it["change"], "subject": it["subject"],
            "owner": account_of(info(it["owner"])), "url": f"{page}{it['change']}", "status": it["status"], **({"wip": True} if it["work_in_progress"] else {})}


def patch_set_of(told, number, commit, info):
    """Gerrit's patchSet attribute; who uploaded an earlier one the desk doesn't tell."""
    it = told["change"]
    is_current = number == it["current_patch_set"]
    revision = commit or told["revisions"].get(str(number), it["commit"] if is_current else "")
    return {"number": number, "revision": revision, "ref": f"refs/changes/{it['change'] % 100:02}/{it['change']}/{number}",
            **({"uploader": account_of(info(it["uploader"])), "parents": told["parents"]} if is_current else {})}


def id_of(row, place):
    """A name for an event: for what stays, as a patch set or a comment, the same whenever it is told; for what goes to and fro that of its place."""
    is_kept = row["type"] in KEPT or '"comment":' in row["what"]
    return f"{row['type']}:{row['change']}:" + (hashlib.sha1(row["what"].encode(errors="replace")).hexdigest()[:12] if is_kept else place)


def event_of(row, name, info, page):
    """One event."""
    what, kind, place = json.loads(row["what"]), row["type"], f"{name}.{row['place']}"
    said = {"type": kind, "eventCreatedOn": row["at"], "id": id_of(row, place), "place": place}
    if not row["told"]:
        return {**said, "change": {"number": row["change"]}}
    told = json.loads(row["told"])
    it = told["change"]
    said.update(change=change_of(told, row["change_id"], info, page), project=it["project"], refName=f"refs/heads/{it['branch']}", changeKey={"key": row["change_id"]})
    if "patch_set" in what:
        said["patchSet"] = patch_set_of(told, what["patch_set"], what.get("commit"), info)
    if "account" in what:
        said[PEOPLE.get(kind, "account")] = account_of(info(what["account"]))
    if kind == "change-merged":
        said["newRev"] = what["commit"]
    if kind == "comment-added":
        said.update(comment=what.get("message", ""), **({"path": what["path"], "line": what["line"]} if what.get("line") or what.get("path", "/")[0] != "/" else {}))
    if "votes" in what:
        said["approvals"] = [{"type": vote["label"], "description": vote["label"], "value": str(vote["value"]), "oldValue": str(vote["was"])} for vote in what["votes"]]
    return {**said, **({"reason": named(what["reason"], info)} if "reason" in what else {}), **({"role": what["role"]} if "role" in what else {})}


def lines_of(rows, name, info, page):
    """Events as lines of JSON."""
    return "".join(json.dumps(event_of(row, name, info, page), ensure_ascii=False, separators=(",", ":")) + "\n" for row in rows)
