"""Attacks on what reviewers are shown of a patch set, and for what a vote was given. Cases of
bench/attacks.
"""
import re

from attacked_team import check, path_of
from attacks_again import changes_at, commit_of, name_of, pushed, tree_of, whole

LINES = "".join(f"line {number}\n" for number in range(40))


def a_head_that_says_things_twice(team):
    """Of two lines `committer` git tells the last one, and `git log --format=raw` both.

    Refused, as are two authors, encodings and signatures.
    """
    tip, blob = team.tip(), name_of("blob", b"evil\n")
    tree = tree_of((b"100644", b"evil", blob))
    author, committer = (
        "{} {} <{}@localhost> 1700000000 +0000\n".format(role, *[who] * 2)
        for role, who in (("author", "mallory"), ("committer", "ann"))
    )
    heads = {
        "two committers": (author + committer + committer.replace("ann", "mallory"), ""),
        "two authors": (author + author.replace("mallory", "ann") + committer, ""),
        "a committer far below": (author + committer, "x-more it\n" + committer),
        "two encodings": (author + committer, "encoding UTF-8\nencoding ISO-8859-1\n"),
        "two signatures": (author + committer, "gpgsig it\ngpgsig it\n"),
        "an author below": (author + committer, "gpgsig it\n it\n" + author),
    }
    for name, (people, more) in heads.items():
        commit = commit_of(name_of("tree", tree), tip, more=more, people=people)
        said = pushed(
            team,
            [whole("commit", commit), whole("tree", tree), whole("blob", b"evil\n")],
            (name_of("commit", commit), "refs/for/main"),
        )
        check(
            "ng refs/for/main" in said and not changes_at(team, name_of("commit", commit)),
            name,
            "was taken",
            said,
        )
    commit = commit_of(
        name_of("tree", tree),
        tip,
        more="encoding UTF-8\ngpgsig it\n author it\n",
        people=author + committer,
    )
    said = pushed(
        team,
        [whole("commit", commit), whole("tree", tree), whole("blob", b"evil\n")],
        (name_of("commit", commit), "refs/for/main"),
    )
    check("ok refs/for/main" in said, "a signature with a line that begins with a space", said)


def another_author_keeps_no_vote(team):
    """After the +2 the author is somebody else, with the same code and the same message.

    The vote isn't kept, whether the parent is the same or not.
    """
    branch, clone = team.new_branch(), team.clone("mallory")
    number, _ = team.change("mallory", {"mine": "it\n"}, "Mine", f"origin/{branch}", branch, clone)
    check(team.vote("bob", number, 1, 2)[0] == 200, "a vote")
    for at, (words, kind, copied) in enumerate(
        (([], "NO_CHANGE", 1), (["--author=bob <bob@localhost>"], "NO_CODE_CHANGE", 0)), 2
    ):
        team.git(
            "mallory",
            "commit",
            "--quiet",
            "--amend",
            "--no-edit",
            "--date",
            f"{1700000000 + at} +0000",
            *words,
            cwd=clone,
        )
        said = team.push("mallory", clone, branch)
        check(f"({kind}, votes copied: {copied}" in said, "a vote for another author", words, said)
    check(
        team.submit("mallory", number)[0] == 409 and team.vote("bob", number, 3, 2)[0] == 200,
        "submitted with a vote for another author",
    )
    team.merged("ann", {"beside": "it\n"}, "Beside it", branch)
    team.git("mallory", "fetch", "--quiet", "origin", cwd=clone)
    team.git("mallory", "rebase", "--quiet", f"origin/{branch}", cwd=clone)
    team.git(
        "mallory",
        "commit",
        "--quiet",
        "--amend",
        "--no-edit",
        "--author=ann <ann@localhost>",
        cwd=clone,
    )
    said = team.push("mallory", clone, branch)
    check(
        "(TRIVIAL_REBASE_WITH_MESSAGE_UPDATE, votes copied: 0" in said
        and team.submit("mallory", number)[0] == 409,
        "a vote for another author of a rebase",
        said,
    )


def a_revert_is_shown(team):
    """Patch set 2 stands on the mended branch, and has `auth` as it was before.

    The push says so, and so does the comparison of both patch sets.
    """
    branch, clone = team.new_branch(), team.clone("mallory")
    team.merged(
        "ann", {"auth": "open to all\n", 'odd é"': "before\n", "part": LINES}, "Begin", branch
    )
    base = team.tip(branch)
    number, _ = team.change(
        "mallory",
        {"own": "it\n", "part": LINES.replace("line 9\n", "nine\n")},
        "Mine",
        base,
        branch,
        clone,
    )
    team.merged(
        "ann",
        {
            "auth": "mended\n",
            'odd é"': "after\n",
            "part": LINES.replace("line 30\n", "thirty\n"),
            "far": "it\n",
        },
        "Mend it",
        branch,
    )
    message = team.git("mallory", "log", "-1", "--format=%B", cwd=clone).strip()
    files = {
        "own": "it\n",
        "auth": "open to all\n",
        'odd é"': "before\n",
        "part": LINES.replace("line 9\n", "nine\n").replace("line 30\n", "30\n"),
    }
    team.commit("mallory", clone, files, message, f"origin/{branch}")
    said = team.push("mallory", clone, branch)
    told = re.search(r"it takes back what its new parent has got since patch set 1: (.*)", said)
    check(
        "REWORK" in said and told and told[1].strip() == 'auth, odd é"',
        "a push that takes something back",
        said,
    )
    path = path_of("changes", number, "revisions", 2, "difference")
    status, told, _ = team.ask("bob", "GET", path + "?base=1")
    noted = dict(re.findall(r'diff --git ("?a/.*) "?b/.*\n(?:index .*\n)?note: (.*)', told))
    check(
        status == 200 and set(noted) == {"a/auth", '"a/odd \\303\\251\\""', "a/part"},
        "what is compared",
        status,
        told,
        noted,
    )
    check(
        "takes back" in noted["a/auth"] and "both changes" in noted["a/part"] and "far" not in told,
        "what is noted",
        told,
    )
    team.amended("mallory", {"own": "more\n"}, branch, clone)
    status, told, _ = team.ask(
        "bob", "GET", path_of("changes", number, "revisions", 3, "difference") + "?base=2"
    )
    check(
        status == 200 and "note:" not in told and "+more" in told,
        "patch sets on one parent",
        status,
        told,
    )


CASES = {
    function.__name__: function
    for function in (
        a_head_that_says_things_twice,
        another_author_keeps_no_vote,
        a_revert_is_shown,
    )
}
