"""A second set of coefficients: read once, and lent to each room that is judged by it."""

from typing import NamedTuple

from textform.looks_wrong import nothing_inhaled
from textform.said import said_of_set
from textform.second_set import SecondSet, read_set, set_bytes
from textform.words import Mistake, in_line, placed

from .tool import read_source, within


class Lender(NamedTuple):
    second: SecondSet
    file: str

    def shown(self):
        return f"{self.second.name} ({self.file})"

    def bytes_for(self, given):
        """The set's bytes for a room's chain. What is wrong with it there is said of the set's file."""
        try:
            return set_bytes(self.second, given.read[1])
        except Mistake as mistake:
            raise Mistake(placed(self.file, in_line(mistake.line, mistake)))

    def told_to(self, given, is_both):
        """The room with what looks wrong in the set. What is said of its own coefficients stays where these are in use too."""
        own = [] if is_both else [remark.said for remark in nothing_inhaled(*given.read)]
        kept = [remark for remark in given.remarks if remark.said not in own]
        found = [remark._replace(said=placed(self.file, remark.said)) for remark in said_of_set(*given.read, self.second)]
        return given._replace(remarks=[*kept, *found])


def lender_of(file):
    return Lender(within(file, read_set, read_source(file)), file)
