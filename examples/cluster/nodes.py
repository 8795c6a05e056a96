"""What the nodes of a cluster tell one another of their answers, and who is right. A module."""
from typing import NamedTuple


class Verdict(NamedTuple):
    """Who gave the same answers as this node up to an entry, and who gave others."""

    agree: list[str]
    differ: list[str]
    # Those who haven't told yet.
    silent: list[str]

    def is_alone(self) -> bool:
        """Returns whether more nodes differ than agree: then this one is wrong."""
        return len(self.differ) > len(self.agree)

    def is_undecided(self) -> bool:
        """Returns whether as many differ as agree: then nobody knows who is wrong."""
        return 0 < len(self.differ) == len(self.agree)

    def is_outvoting(self) -> bool:
        return 0 < len(self.differ) < len(self.agree)


def compared(name: str, own: str, told: dict[str, str], nodes: set[str]) -> Verdict:
    """Compares this node's sum of answers with those that others told of the same entry.

    Only the operator's nodes count: whoever else writes into the log decides nothing.
    """
    sums = {it: sum for it, sum in told.items() if it in nodes} | {name: own}
    return Verdict(
        sorted(it for it, sum in sums.items() if sum == own),
        sorted(it for it, sum in sums.items() if sum != own),
        sorted(nodes - sums.keys()),
    )
