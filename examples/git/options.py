"""What a pusher says behind the branch, as in Gerrit: refs/for/BRANCH%wip,r=bob,cc=cal. A module.

An option asks for a state, and not for a step: whoever pushes the same again asks for the same, and what is so already isn't asked of the desk. So a push that was stopped
anywhere can be pushed again.
"""
import collections
import urllib.parse

from asking import epoch, spend
from checks import Refused, accounts, mails
from repository import desk_for
from retry import new_id, path_of

ROLES = {"r": "REVIEWER", "reviewer": "REVIEWER", "cc": "CC"}
FLAGS = {"wip": True, "work-in-progress": True, "ready": False}
TAKEN = "taken are topic=, wip, ready, r= and cc="

Options = collections.namedtuple("Options", "topic is_wip people", defaults=("", None, {}))


def account_named(name):
    """The account of a person by the user's name or mail address."""
    known = accounts()
    user = next((user for user, addresses in mails().items() if name.lower() in (it.lower() for it in addresses)), name)
    if user not in known:
        raise Refused(f"nobody here is {name}", "r= and cc= take the name of a user, or a mail address that the file of desk.mails has")
    return known[user]


def read(text):
    """The options that a text says, or Refused. A desk has no topics: one is taken, since git-review sends it by itself, and is kept nowhere."""
    topic, is_wip, people = "", None, {}
    for option in text.split(",") if text else []:
        name, has_value, value = option.partition("=")
        value = urllib.parse.unquote_plus(value)
        if name == "topic" and has_value:
            topic = value
        elif name in FLAGS and not has_value:
            if is_wip is not None and is_wip != FLAGS[name]:
                raise Refused("wip and ready are said both", TAKEN)
            is_wip = FLAGS[name]
        elif name in ROLES and value:
            account = account_named(value)
            people[account] = "REVIEWER" if people.get(account) == "REVIEWER" else ROLES[name]
        else:
            raise Refused(f"the option {option} isn't taken", TAKEN)
    return Options(topic, is_wip, people)


def split(ref):
    """The branch of refs/for/BRANCH%OPTIONS, and the text of the options."""
    branch, _, options = ref.removeprefix("refs/for/").removeprefix("refs/heads/").partition("%")
    return branch, options


def ask(account, *path, body=None):
    """Asks the desk for what isn't so yet: nothing, or the desk's word where it refuses. Where another was faster it is so."""
    spend(account, body)
    status, told = desk_for(account).ask("POST", path_of("changes", *path), {} if body is None else body, new_id(), epoch())
    word = None if status == 200 else told.get("refused") or told.get("fault")
    return None if word == "SAME_STATE" else word


def set_flag(account, change, options):
    """Says that an open change is worked on, or that it is ready, before it gets a patch set: as it is by then, nobody is called for what isn't ready. Else the desk's word."""
    if options.is_wip is None or options.is_wip == change["work_in_progress"]:
        return None
    return ask(account, change["change"], "wip" if options.is_wip else "ready")


def add_people(account, change, options):
    """Makes reviewers and CCs of a change: what wasn't done, and the desk's word. Who pushes is none, and who is a reviewer already isn't made a CC."""
    for person, role in sorted(options.people.items()):
        if person == account or person in change["reviewers"] or (role == "CC" and person in change["ccs"]):
            continue
        word = ask(account, change["change"], "reviewers", body={"reviewer": person, "state": role})
        if word:
            yield f"account {person} isn't made {role.lower()} of change {change['change']}: the desk says {word}"


__all__ = ["Options", "add_people", "read", "set_flag", "split"]
