"""The last lines of a merge that `follow` makes: which changes it brings, and who has reviewed them, in Gerrit's words. A module."""
from checks import CONTROL, accounts, mails
from repository import commits, setting
from retry import NoAnswer, path_of

BY_LABEL = {"Code-Review": "Reviewed-by", "Verified": "Tested-by"}


def person(account):
    """A user with a mail address where the file of desk.mails has one; without a name the account's number."""
    try:
        known = accounts()
    except FileNotFoundError:
        known = {}
    name = next((name for name, number in known.items() if number == account), f"account {account}")
    addresses = mails().get(name)
    return CONTROL.sub(" ", f"{name} <{addresses[0]}>" if addresses else name)


def footers_of(brought, desk):
    """The lines for changes that have merged, as the desk tells them by now: their votes stay as they are. Of several changes each has its own."""
    lines, page = [], setting("desk.page", "")
    for it in brought:
        status, told = desk.ask("GET", path_of("changes", it["change"]))
        if status != 200:
            raise NoAnswer(f"the desk says {told} of change {it['change']}")
        found = [(BY_LABEL[vote["label"]], person(vote["account"])) for vote in told["votes"] if vote["label"] in BY_LABEL and vote["value"] > 0]
        lines += [f"{word}: {who}" for word, who in sorted(set(found))]
        lines += [f"Reviewed-on: {page}{it['change']}"] if page else []
        lines += [f"Change-Id: {footer}" for commit in commits("--no-walk", it["commit"]) for footer in commit.change_ids[:1]]
    return "".join(f"{line}\n" for line in lines)
