"""How each command is written and what it does, as docs/LANGUAGE.md has it (a test compares)."""

from dataclasses import dataclass


@dataclass(frozen=True)
class Usage:
    """A way to write a command, and what it does then."""

    form: str
    meaning: str

    @property
    def command(self) -> str:
        """The command's word."""
        return self.form.split()[0]


USAGES = tuple(
    Usage(form, meaning)
    for form, meaning in (
        ("domain D e1 e2 ..", "declares a domain D of one or more elements, up to 64"),
        (
            "relation R D E = a b ; c d ..",
            "declares a relation R between the domains D and E: the pairs of an element of D and"
            " one of E",
        ),
        ("cell X span", "makes a cell X for a whole number"),
        ("cell X truth", "makes a cell X for `yes` or `no`"),
        ("cell X symbol", "makes a cell X for a symbol, which is any name"),
        ("cell X D", "makes a cell X for an element of the domain D"),
        (
            "define N p .. = step ; step ..",
            'defines a compound N with the parameters p .. ("Definitions" below)',
        ),
        (
            "attach N X ..",
            "puts the procedure N (a *propagator*, as the field says), its output last, or the"
            " compound N between cells",
        ),
        ("attach N X .. by K", "the same with a scale K, a number from 1 to 1,000,000,000"),
        ("attach N X .. by R", "the same with a relation R"),
        ("fix X V", "states that X has the value V"),
        ("tell P X V", "states the same under the premise P; a new premise is believed"),
        (
            "kick P",
            "P is no longer believed; what was told under it is kept, and does not count",
        ),
        ("bring P", "P is believed again"),
        (
            "forget P",
            "all that was told under P goes for good, with what was found and learned from it; P"
            " keeps its name, and whether it is believed",
        ),
        (
            "choose C X V or W ..",
            "makes a choice C between two to eight values of X, the one to be tried first in front"
            ' ("Choices" below)',
        ),
        ("limit N", "from now on a run takes at most N steps, 0 to 1,000,000,000,000,000"),
        ("ask X", "what follows for X"),
        ("why X", "what follows for X, and from which premises"),
        ("core X", "the same as `why X`, from premises of which none can be left out"),
        ("settle", "whether all that follows was found"),
        (
            "worldview",
            "which premises are believed, and which are not; of each choice one side is",
        ),
        ("nogoods", "which premises were found to be impossible together"),
    )
)

# Those that propwide has beside them, as docs/WIDE.md has them.
TOLD = tuple(
    Usage(form, f"{meaning}; propwide alone has this command")
    for form, meaning in (
        ("step", "takes one step of a run, and tells it"),
        ("how X", "what makes up what is known of X: statements and calls"),
        ("list", "what there is: cells, procedures, premises, choices"),
        ("solve [X ..]", "points that fit, by values of X .. first"),
        ("least X [Y ..]", "the least that X can be at points that fit, and because of what"),
        ("greatest X [Y ..]", "the greatest that X can be at such points"),
        ("plans N X ..", "N points that fit, and differ at X .."),
        ("conflicts N", "N minimal sets of premises that can't all hold"),
        (
            "repairs N [by P M ..]",
            "N minimal sets of premises without which the others can hold; the cheapest, where P"
            " costs M, and others 1",
        ),
        (
            "require E [under P]",
            "has a constraint hold, such as `x + 2 <= y`, where P is believed if that is said",
        ),
    )
)


def usages_of(command: str) -> tuple[Usage, ...]:
    """The ways to write a command, none where it is no command."""
    return tuple(usage for usage in USAGES + TOLD if usage.command == command)
