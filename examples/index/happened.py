"""What has happened to a change between two looks at it, in the words of Gerrit's stream-events. A module; standard library.

The desk tells how a change stands, and not what was done. So each patch set, each comment and each merge is told, since these stay; of what goes to and fro, as votes, reviewers
and work in progress, what it is in the end. `attention-added` is no word of Gerrit's: who was called to act, and why.
"""


def votes_of(it):
    return {(vote["account"], vote["label"]): vote["value"] for vote in it["votes"]}


def of_patch_sets(before, it, revisions):
    first = before["change"]["current_patch_set"] + 1 if before else 1
    for number in range(first, it["current_patch_set"] + 1):
        commit = it["commit"] if number == it["current_patch_set"] else revisions.get(str(number), "")
        yield "patchset-created", {"patch_set": number, "commit": commit}


def of_people(before, it):
    were, are = ({**dict.fromkeys(one["ccs"], "CC"), **dict.fromkeys(one["reviewers"], "REVIEWER")} if one else {} for one in (before and before["change"], it))
    for account in sorted(are.keys() - were.keys()):
        yield "reviewer-added", {"account": account, "role": are[account]}
    for account in sorted(were.keys() - are.keys()):
        yield "reviewer-deleted", {"account": account}


def of_comments(threads, count):
    """The comments behind the first so many, which a change never loses."""
    said = sorted((one for thread in threads for one in thread["comments"]), key=lambda one: one["id"])
    for one in said:
        if one["id"] > count:
            yield "comment-added", {"account": one["author"], "patch_set": one["patch_set"], "comment": one["id"], "path": one["path"], "line": one["line"], "message": one["message"]}


def of_votes(before, it):
    """Votes that are other than before, each account's as one event; and where there is no new patch set, which leaves votes behind, those that are gone."""
    were, are = votes_of(before["change"]) if before else {}, votes_of(it)
    for account in sorted({account for account, _ in are}):
        new = [{"label": label, "value": value, "was": were.get((account, label), 0)} for (who, label), value in sorted(are.items()) if who == account and were.get((who, label)) != value]
        if new:
            yield "comment-added", {"account": account, "patch_set": it["current_patch_set"], "votes": new}
    if before and before["change"]["current_patch_set"] == it["current_patch_set"]:
        for account, label in sorted(were.keys() - are.keys()):
            yield "vote-deleted", {"account": account, "patch_set": it["current_patch_set"], "votes": [{"label": label, "value": 0, "was": were[account, label]}]}


def of_state(before, it):
    was = before["change"] if before else {"status": "NEW", "work_in_progress": False}
    if was["work_in_progress"] != it["work_in_progress"]:
        yield "wip-state-changed", {"patch_set": it["current_patch_set"], "wip": it["work_in_progress"]}
    word = {"MERGED": "change-merged", "ABANDONED": "change-abandoned", "NEW": "change-restored"}[it["status"]]
    if was["status"] != it["status"]:
        yield word, {"patch_set": it["current_patch_set"], "commit": it["commit"]}


def of_attention(before, attention):
    known = {(one["account"], one["request"]) for one in before["attention"]} if before else set()
    for one in attention:
        if (one["account"], one["request"]) not in known:
            yield "attention-added", {"account": one["account"], "reason": one["reason"], "request": one["request"]}


def happened(before, count, told, revisions):
    """The events between what was known of a change, with so many comments, and what is told of it now. Where nothing was known it is all that can be known of its past."""
    it = told["change"]
    return [*of_patch_sets(before, it, revisions), *of_people(before, it), *of_comments(told["threads"], count if before else 0), *of_votes(before, it), *of_state(before, it),
            *of_attention(before, told["attention"])]
