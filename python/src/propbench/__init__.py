"""propbench: propagator networks whose answers are proved, from Python.

A `Workbench` has cells, expressions, and premises: `help(Workbench)` tells what it does, by what it
is for. `w.project()` makes a `Project` of tasks and people, `w.measured()` a `Quantity`. A
`Session` is the program as an object.

    >>> w = Workbench()
    >>> days, price = w.number("days", 0, 60), w.number("price", 0, 9000)
    >>> w.require(price >= 400 * days)
    >>> w.require(price <= 2000, under="cheap")
    >>> print(days.ask())
    days = 0..5 because of cheap

What follows, and what can't be, is the program's reply. This package works out which lines say a
constraint, which word of a line is at fault and what to complete; and that a plan fits is said only
where each constraint holds on it, as it evaluates them (`violated` in model/seam.py).

What is raised stands in `propbench.errors`, what a session replies in `propbench.replies`. The
handbook is docs/ of the sources, /usr/share/doc/propbench/docs of the Debian package: CLAIMS.md
tells what is proved, PIPE.md how a program in any language drives this one, HOSTING.md how a crate
of Rattle embeds it. A loop in Python that tells, asks and kicks out, with limits of time, stands in
python/README.md; what to catch around it, `help(propbench.errors)` tells.
"""

from typing import TYPE_CHECKING

from propbench.lazily import all_of, names_of

if TYPE_CHECKING:
    from propbench import errors as errors
    from propbench import replies as replies
    from propbench.errors import *
    from propbench.finding import find_program as find_program
    from propbench.finding import find_wide as find_wide
    from propbench.measuring.elementary import acos as acos
    from propbench.measuring.elementary import asin as asin
    from propbench.measuring.elementary import at_level as at_level
    from propbench.measuring.elementary import at_pH as at_pH
    from propbench.measuring.elementary import atan as atan
    from propbench.measuring.elementary import atan2 as atan2
    from propbench.measuring.elementary import cos as cos
    from propbench.measuring.elementary import curve as curve
    from propbench.measuring.elementary import degrees as degrees
    from propbench.measuring.elementary import exp as exp
    from propbench.measuring.elementary import exp10 as exp10
    from propbench.measuring.elementary import hypot as hypot
    from propbench.measuring.elementary import level as level
    from propbench.measuring.elementary import ln as ln
    from propbench.measuring.elementary import log10 as log10
    from propbench.measuring.elementary import pH as pH
    from propbench.measuring.elementary import pi as pi
    from propbench.measuring.elementary import radians as radians
    from propbench.measuring.elementary import sin as sin
    from propbench.measuring.elementary import tan as tan
    from propbench.measuring.functions import maximum as maximum
    from propbench.measuring.functions import mean as mean
    from propbench.measuring.functions import minimum as minimum
    from propbench.measuring.functions import total as total
    from propbench.measuring.quantities import Quantity as Quantity
    from propbench.measuring.terms import Law as Law
    from propbench.model.answers import Answer as Answer
    from propbench.model.answers import Conflict as Conflict
    from propbench.model.expressions import all_different as all_different
    from propbench.model.expressions import count as count
    from propbench.model.expressions import element as element
    from propbench.model.expressions import if_else as if_else
    from propbench.model.expressions import implies as implies
    from propbench.model.expressions import pairs as pairs
    from propbench.planning import Project as Project
    from propbench.planning import Task as Task
    from propbench.planning import any_of as any_of
    from propbench.planning import holidays as holidays
    from propbench.planning import skilled as skilled
    from propbench.questions.bounding import Optimum as Optimum
    from propbench.questions.certificate import Certificate as Certificate
    from propbench.questions.conflicts import Conflicts as Conflicts
    from propbench.questions.conflicts import Repairs as Repairs
    from propbench.questions.outcomes import NothingFits as NothingFits
    from propbench.questions.plans import Plans as Plans
    from propbench.questions.solution import Solution as Solution
    from propbench.replies import *
    from propbench.session import Session as Session
    from propbench.values import Elements as Elements
    from propbench.values import Nothing as Nothing
    from propbench.values import Span as Span
    from propbench.workbench import Workbench as Workbench
else:
    # What users name first.
    _HOMES = {
        "propbench.errors": "",
        "propbench.finding": "find_program find_wide",
        "propbench.measuring.functions": "maximum mean minimum total",
        "propbench.measuring.quantities": "Quantity",
        "propbench.measuring.terms": "Law",
        "propbench.model.answers": "Answer Conflict",
        "propbench.model.expressions": "all_different count element if_else implies pairs",
        "propbench.planning": "Project Task any_of holidays skilled",
        "propbench.questions.bounding": "Optimum",
        "propbench.questions.certificate": "Certificate",
        "propbench.questions.conflicts": "Conflicts Repairs",
        "propbench.questions.outcomes": "NothingFits",
        "propbench.questions.plans": "Plans",
        "propbench.questions.solution": "Solution",
        "propbench.replies": "",
        "propbench.session": "Session",
        "propbench.values": "Elements Nothing Span",
        "propbench.workbench": "Workbench",
    }
    # Functions that stand in laws: no star brings them in, since `math` has many of these names.
    _FUNCTIONS = {
        "propbench.measuring.elementary": """
            acos asin at_level at_pH atan atan2 cos curve degrees exp exp10 hypot level ln log10 pH
            pi radians sin tan
        """
    }
    # What has a module of its own since, and stays here for who wrote it so.
    _OLDER = {
        "propbench.errors": """
            BadTable CertificateError EmptyValue Interrupted IsAChoice LimitReached
            LineTooLong MixedUnits NameTaken NoBound NoGraphviz NoLibrary NoProgram
            NoReading NoScipy NoSuchCell NoSuchDomain NoSuchName NoSuchPremise
            NoSuchProcedure NoSuchRelation NotALaw NotAName NotANumberInRange
            NotAWorkbench NotInTheDomain NotSettled NotUtf8 OutOfMemory OutOfTime
            ProgramEnded Refused SessionInUse TooCoarse TooLong Undefined UnknownCommand
            UnknownUnit WrongCountOfCells WrongForm WrongKind WrongParameter WrongReply
        """,
        "propbench.replies": """
            Best Blamed Called Contradiction Done How Impossible Instance Listing Moved Nogoods
            NoneFits Points Reply Searched Settled Several Silent SoFar Stand Stated Step Symbol
            Unsettled Value Worldview
        """,
    }
    __all__ = sorted(["errors", "replies", *all_of(_HOMES)])
    __getattr__ = names_of(__name__, _HOMES, _FUNCTIONS, _OLDER)

    def __dir__():
        return sorted({*globals(), *__all__, *all_of(_FUNCTIONS)})
