"""The mean of readings that were repeated, as a laboratory writes it: `12.34 V s=0.05 n=10`.

Its standard uncertainty is s / sqrt(n). Of few readings *s* is not known well either: so it is
taken by Student's distribution where three times would be taken of a normal one.
"""

import re
from fractions import Fraction
from math import isqrt

from propbench.measuring.amounts import NoReading
from propbench.measuring.exact import short

_MEAN = re.compile(r"(?P<value>.*?)[,;]?\s+s\s*=(?P<s>.*?)[,;]?\s+n\s*=\s*(?P<n>\d{1,6})")
_HAS_MEAN = re.compile(r"\ss\s*=")
# By degrees of freedom: between what 99.73 of 100 lie, in hundredths (GUM, table G.2), rounded up.
_STUDENT = {
    **{1: 23_581, 2: 1921, 3: 922, 4: 663, 5: 551, 6: 491, 7: 453, 8: 428, 9: 410, 10: 396},
    **{11: 385, 12: 377, 13: 370, 14: 364, 15: 359, 16: 355, 17: 351, 18: 348, 19: 345, 20: 343},
    **{25: 333, 30: 328, 40: 320, 50: 316, 100: 308},
}
_PLACES = 10**30


def mean_in(text: str) -> tuple[str, Fraction, Fraction] | None:
    """A value with what its readings scatter by as a standard uncertainty (`12.34 V u=0.05`), what
    times that the mean's is, and how much more often than of a normal distribution that is taken;
    None for a text that is no mean. Raises NoReading."""
    if not _HAS_MEAN.search(text):
        return None
    found = _MEAN.fullmatch(text)
    if not found:
        raise NoReading(
            f"{short(text)!r}: behind `s=` stands of how many readings it is: `s=0.05 n=10`"
        )
    if "+-" in text:
        raise NoReading(f"{short(text)!r} has a bound and a standard uncertainty: say one of them")
    count = int(found["n"])
    if count < 2:
        raise NoReading(f"{short(text)!r}: of {count} readings nothing scatters, so n is 2 or more")
    freedom = max(each for each in _STUDENT if each < count)
    # (the root, rounded down)
    root = Fraction(isqrt(count * _PLACES**2), _PLACES)
    return f"{found['value']} u={found['s']}", 1 / root, Fraction(_STUDENT[freedom], 300)
