"""All that there is to say of a job and a book that were read, each with its kind: warnings, what is to be refused, notes. And
what there is to say of a second set for them."""

from typing import NamedTuple

from .looks_wrong import nothing_inhaled, warnings
from .remarks import grounds, notes
from .second_set import with_set
from .words import in_line, placed


class Line(NamedTuple):
    kind: str
    line: int  # of the text, or 0
    said: str

    def placed(self):
        return in_line(self.line, self.said)

    def whole(self, name):
        """With the file's name, line and kind: `cellar.txt, line 7: warning: ...`."""
        return placed(name, in_line(self.line, f"{self.kind}: {self.said}"))


def said_of(job, book):
    """The job is None in a book alone."""
    found = [Line("warning", remark.line, remark.said) for remark in warnings(job, book)]
    found += [Line("to be refused", each.line, f"{each.said} (ground {each.ground})") for each in grounds(job, book)]
    return found + [Line("note", remark.line, remark.said) for remark in notes(job, book)]


def said_of_set(job, book, second):
    """What looks wrong in a set for this job. The line of the kind is no line of the set's text."""
    return without_lines(Line("warning", remark.line, remark.said) for remark in nothing_inhaled(job, with_set(second, book)))


def without_lines(found):
    """Of a text that was made from bytes, whose lines nobody has seen."""
    return [remark._replace(line=0) for remark in found]
