"""How many bytes each account may put into the log. A module; standard library only."""
import math
import threading
import time
from collections.abc import Callable

# What an entry takes beside its request: its key and its sum in etcd, and what each desk keeps.
OVERHEAD = 300


class Budget:
    """Bytes for each account: so many at once, and then so many a second."""

    def __init__(
        self, at_once: int, each_second: int, clock: Callable[[], float] = time.monotonic
    ) -> None:
        self.at_once, self.each_second, self.clock = at_once, each_second, clock
        # When the bytes of an account will all be there again.
        self.full_at: dict[int, float] = {}
        self.lock = threading.Lock()

    def take(self, account: int, size: int) -> int:
        """Takes the bytes of a request, and returns 0, or else the seconds until there are enough.

        A request of any size is taken once nothing is owed.
        """
        with self.lock:
            now = self.clock()
            if len(self.full_at) > 10_000:
                self.full_at = {it: at for it, at in self.full_at.items() if at > now}
            full_at = max(self.full_at.get(account, now), now)
            costs = (size + OVERHEAD) / self.each_second
            most = self.at_once / self.each_second
            lacks = full_at - now + costs - most
            if lacks > 0 and full_at > now:
                return max(1, math.ceil(min(lacks, full_at - now)))
            self.full_at[account] = full_at + costs
            return 0
