"""The faults of what `./derive` reads. Each is a message of one line, which begins with the line of the file that it is about."""
import re

from plain import plain


class Refused(Exception):
    """Types that can't be taken; the arguments are their faults."""


class Faults(list):
    """The faults of a file so far."""

    def seen(self, check, *given):
        """Returns what a check returns; if it refuses what it is given, keeps the faults and returns None."""
        try:
            return check(*given)
        except Refused as error:
            self += error.args
            return None

    def in_order(self):
        """Returns the faults by their lines, each once, without the marks of names (`own.py`)."""
        return sorted(dict.fromkeys(map(plain, self)), key=lambda fault: int(re.match(r"line (\d+)", fault)[1]))
