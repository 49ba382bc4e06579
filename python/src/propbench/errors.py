"""What propbench raises, by what it is about.

Every refusal of the program is a `Refused`, of a class for each number (docs/LANGUAGE.md,
"Refusals"). A session raises what befell its program; a workbench `Conflict` where what is believed
can't all hold, and a question of many asks `NothingFits`. What a user writes of quantities is
refused by ValueErrors that say what is wrong with it.

Around the calls of a workbench catch

- `Conflict` of `ask`: its `premises` can't all hold, so kick one out and ask again;
- `NothingFits` of `solve`: where its `premises` are None there was not the time to find a plan, or
  to refute that there is one;
- `OutOfTime`: no answer came; the next call goes on from there;
- `ProgramEnded`: `w.session.replay()` begins the program anew with all that was stated before;
- `Refused`: there is too much of something (`LimitReached`), or no memory (`OutOfMemory`);
- ValueError and TypeError: what you told or asked for can't be taken, and nothing was stated;
- `NoProgram` of `Workbench()`.

That `seconds` are over is no error where something is known: an answer isn't `settled`, a best is
not `proved` (and its `value` None where no plan was found), a list is not `complete`.
"""

from typing import TYPE_CHECKING

from propbench.lazily import all_of, names_of

if TYPE_CHECKING:
    from propbench.conversation import WrongReply as WrongReply
    from propbench.finding import NoProgram as NoProgram
    from propbench.laboratory.least_squares import NoScipy as NoScipy
    from propbench.laboratory.sheets import BadTable as BadTable
    from propbench.measuring.amounts import NoReading as NoReading
    from propbench.measuring.bounds import NoBound as NoBound
    from propbench.measuring.enclosing import NoLibrary as NoLibrary
    from propbench.measuring.exact import TooLong as TooLong
    from propbench.measuring.law_texts import NotALaw as NotALaw
    from propbench.measuring.shapes import Undefined as Undefined
    from propbench.measuring.translation import TooCoarse as TooCoarse
    from propbench.measuring.units import MixedUnits as MixedUnits
    from propbench.measuring.units import UnknownUnit as UnknownUnit
    from propbench.model.answers import Conflict as Conflict
    from propbench.model.answers import NotSettled as NotSettled
    from propbench.model.saving import NotAWorkbench as NotAWorkbench
    from propbench.pictures import NoGraphviz as NoGraphviz
    from propbench.program import OutOfTime as OutOfTime
    from propbench.program import ProgramEnded as ProgramEnded
    from propbench.questions.asking import Interrupted as Interrupted
    from propbench.questions.asking import NoSuchName as NoSuchName
    from propbench.questions.checker import CertificateError as CertificateError
    from propbench.questions.outcomes import NothingFits as NothingFits
    from propbench.refusals import EmptyValue as EmptyValue
    from propbench.refusals import IsAChoice as IsAChoice
    from propbench.refusals import LimitReached as LimitReached
    from propbench.refusals import LineTooLong as LineTooLong
    from propbench.refusals import NameTaken as NameTaken
    from propbench.refusals import NoSuchCell as NoSuchCell
    from propbench.refusals import NoSuchDomain as NoSuchDomain
    from propbench.refusals import NoSuchPremise as NoSuchPremise
    from propbench.refusals import NoSuchProcedure as NoSuchProcedure
    from propbench.refusals import NoSuchRelation as NoSuchRelation
    from propbench.refusals import NotAName as NotAName
    from propbench.refusals import NotANumberInRange as NotANumberInRange
    from propbench.refusals import NotInTheDomain as NotInTheDomain
    from propbench.refusals import NotUtf8 as NotUtf8
    from propbench.refusals import OutOfMemory as OutOfMemory
    from propbench.refusals import Refused as Refused
    from propbench.refusals import UnknownCommand as UnknownCommand
    from propbench.refusals import WrongCountOfCells as WrongCountOfCells
    from propbench.refusals import WrongForm as WrongForm
    from propbench.refusals import WrongKind as WrongKind
    from propbench.refusals import WrongParameter as WrongParameter
    from propbench.session import SessionInUse as SessionInUse
else:
    _HOMES = {
        "propbench.conversation": "WrongReply",
        "propbench.finding": "NoProgram",
        "propbench.laboratory.least_squares": "NoScipy",
        "propbench.laboratory.sheets": "BadTable",
        "propbench.measuring.amounts": "NoReading",
        "propbench.measuring.bounds": "NoBound",
        "propbench.measuring.enclosing": "NoLibrary",
        "propbench.measuring.exact": "TooLong",
        "propbench.measuring.law_texts": "NotALaw",
        "propbench.measuring.shapes": "Undefined",
        "propbench.measuring.translation": "TooCoarse",
        "propbench.measuring.units": "MixedUnits UnknownUnit",
        "propbench.model.answers": "Conflict NotSettled",
        "propbench.model.saving": "NotAWorkbench",
        "propbench.pictures": "NoGraphviz",
        "propbench.program": "OutOfTime ProgramEnded",
        "propbench.questions.asking": "Interrupted NoSuchName",
        "propbench.questions.checker": "CertificateError",
        "propbench.questions.outcomes": "NothingFits",
        "propbench.refusals": """
            EmptyValue IsAChoice LimitReached LineTooLong NameTaken NoSuchCell NoSuchDomain
            NoSuchPremise NoSuchProcedure NoSuchRelation NotAName NotANumberInRange
            NotInTheDomain NotUtf8 OutOfMemory Refused UnknownCommand WrongCountOfCells
            WrongForm WrongKind WrongParameter
        """,
        "propbench.session": "SessionInUse",
    }
    __all__ = all_of(_HOMES)
    __getattr__ = names_of(__name__, _HOMES)

    def __dir__():
        return sorted({*globals(), *__all__})
