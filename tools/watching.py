"""Runs the tasks of the kit's `rt ci` for a build, and tells a person of them."""
import os
from collections.abc import Callable
from typing import Any

from proving import Progress

# The kit's command as a module, and a crate as it knows it: neither has types.
Kit = Any
Crate = Any


class Watch:
    """Runs rt's tasks, and tells which crates are at work.

    What the store has is taken first. So a crate that waits for nothing else gets all processors.
    """

    def __init__(self, rt: Kit, progress: Progress, seconds: dict[str, float]) -> None:
        self.rt, self.progress, self.seconds = rt, progress, seconds
        self.lanes, self.give, self.begin = rt.in_lanes, rt.Kept.give, rt.Kept.__init__
        self.kept: Kit = None
        rt.in_lanes, rt.Kept.give = self.run, lambda *given: self.given(*given)
        rt.Kept.__init__ = lambda *given: self.begun(*given)

    def begun(self, kept: Kit, *given: Any) -> None:
        self.kept = kept
        self.begin(kept, *given)

    def given(self, kept: Kit, crate: Crate, tests: bool, key: str) -> bool:
        is_given: bool = self.give(kept, crate, tests, key)
        if is_given and not tests:
            self.progress.keep(crate.name)
        return is_given

    def run(self, tasks: dict[Any, Any]) -> dict[Any, Any]:
        """Does what rt's in_lanes does: runs tasks, and returns what each gave."""
        every = {it.name: it for it in self.rt.rtlib.crates_below(os.getcwd())}
        done = {key: True for key in tasks if key[1] == "tests" and not every[key[0]].has_tests()}
        for key, (waits, _, _, call) in tasks.items():
            if key[1] == "proof" and all(done.get(it) for it in waits) and self.has(every[key[0]]):
                done[key] = self.timed(key[0], call, done)({}, 1)
        rest = {
            key: (
                [it for it in waits if it not in done],
                self.seconds.get(key[0], 0.0) if key[1] == "proof" else lines,
                needs,
                self.timed(key[0], call, done) if key[1] == "proof" else joined(call, done),
            )
            for key, (waits, lines, needs, call) in tasks.items()
            if key not in done
        }
        return {**done, **self.lanes(rest)}

    def has(self, crate: Crate) -> bool:
        """Returns whether the store has a crate, over libraries that were taken from it."""
        return os.path.isdir(self.kept.place(crate, False, self.kept.key(crate)))

    def timed(
        self, crate: str, call: Callable[..., Any], done: dict[Any, Any]
    ) -> Callable[..., Any]:
        def run(given: Any, jobs: int) -> Any:
            self.progress.begin(crate)
            is_proved = joined(call, done)(given, jobs)
            self.progress.end(crate, bool(is_proved))
            return is_proved

        return run


def joined(call: Callable[..., Any], done: dict[Any, Any]) -> Callable[..., Any]:
    """Returns a task's call that also sees what was done before."""
    return lambda given, jobs: call({**done, **given}, jobs)
