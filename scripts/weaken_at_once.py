"""Asks crates which functions fail if all that nothing has refused is dropped at once."""
import re
import time
from typing import Dict, List, Set

from stand_ins import Room
from weaken_readers import FAILED, Outcomes, Reader
from weaker_forms import Form, Function

CALLS = "it calls"  # comes before the names of callees that are not proved


class AtOnce(Reader):
    """A crate that is checked without all clauses, or all fields, that nothing has refused.

    None of its functions is a stand-in at first. Errors name some of what is missing. A function
    that is proved may still need something, since its own promise also says less. So this refuses
    forms and says which functions are tried first, but it rules none of them out.
    """

    def __init__(self, room: Room, name: str, outcomes: Outcomes, is_field: bool):
        super().__init__(room, name, outcomes, is_field)
        self.failed = outcomes.failed.setdefault((name, is_field), set())  # are tried first

    def dropped(self) -> List[Form]:
        """Returns the forms that drop at once what is left."""
        raise NotImplementedError

    def missed(self, forms: List[Form], text: str) -> Dict[Form, str]:
        """Returns the forms, of those that a check had at once, that its errors name."""
        raise NotImplementedError

    def check_only(self, forms: List[Form], real: List[Function], only: List[str]) -> str:
        """Checks some paths of the crate, or all, with some functions that are no stand-ins."""
        raise NotImplementedError

    def with_stand_ins(
        self, sources: Set[str], forms: List[Form], real: List[Function]
    ) -> Dict[str, Dict[str, str]]:
        """Returns the files of the crate, in which some functions are real, and of some below."""
        name, crates = self.crate.name, self.room.crates
        low = {each: crates[each].with_stand_ins(forms, []) for each in sources}
        return {**low, name: self.crate.with_stand_ins(forms, real)}

    def check_all(self, forms: List[Form], failed: Set[Function]) -> str:
        """Checks the whole crate, with stand-ins for functions that fail."""
        every = [it for each in self.crate.functions.values() for it in each]
        return self.check_only(forms, [it for it in every if it not in failed], [])

    def drops_all(self) -> None:
        """Drops all that is left, until no error names any of it, and notes what fails then."""
        while gone := self.dropped():
            since = time.monotonic()
            text = self.check_all(gone, set())
            found = self.missed(gone, text)
            self.outcomes.settle(found)
            self.tells(len(gone), len(found), since)
            if not found:
                self.failed |= self.failing(gone, text)
                break

    def failing(self, forms: List[Form], text: str) -> Set[Function]:
        """Returns the functions that a check of all functions doesn't prove without some forms.

        It doesn't try a function that calls such a one. So there are further checks, in which those
        that fail are stand-ins. A function that no check tries is among those that fail.
        """
        failed: Set[Function] = set()
        while True:
            new: Set[Function] = set()
            waiting: Set[Function] = set()
            for it in [one for one in self.functions if one not in failed]:
                said = self.verdicts(it, text)
                waits = [self.waits(how, failed) for how in said if how.startswith(FAILED)]
                if not all(waits):
                    new.add(it)
                elif waits or not said:
                    waiting.add(it)
            failed |= new
            if not new or not waiting:
                return failed | waiting
            text = self.check_all(forms, failed)

    def waits(self, how: str, failed: Set[Function]) -> bool:
        """Returns whether a verdict names a callee that isn't proved and is no stand-in.

        The crates below have stand-ins only, and no stand-in is proved.
        """
        called = re.findall(rf"`({self.crate.name}::[^`]+)`", how.partition(CALLS)[2])
        stand_ins = [self.crate.name_in_lines(it) for it in failed]
        return any(not any(it.fullmatch(name) for it in stand_ins) for name in called)
