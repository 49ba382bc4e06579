"""A conversation: a program, the lines that it carried out, and the names that these declared.

What was carried out and what the program has done are in step, but where an exception came between
the two; then the program is begun anew with the lines that are known to be carried out. So
`in_step` is False from before a line is sent until all that came of it is taken in, and an
exception may cut that short at any place. Where the time of a question was over before that, and
the program is at work on it yet, it is `owed`, and can be taken in later.
"""

from dataclasses import dataclass

from propbench.blame import blame_for
from propbench.grammar import ASKING, SEARCHING
from propbench.known import Known
from propbench.program import Program, ProgramEnded, StillAtWork
from propbench.refusals import CLASSES, Refused
from propbench.replies import SEVERAL, NotAReply, Reply, lines_in, refusal_in, reply_of
from propbench.showing import printable

# The question for points that any for plans is told apart from.
_OTHER = "solve"
# A line that changes nothing, and what is answered to it.
_MARK, _MARKED = "mark", "error 3: unknown command"
# So many characters are shown of a line and of a reply that don't belong together.
_SHOWN = 80


class WrongReply(ProgramEnded):
    """The program answered something that is no reply to its line, and was ended for that. The next
    use of the session begins it anew. `errors` says which."""

    def __str__(self) -> str:
        return f"{self.errors}, and was ended"


@dataclass(frozen=True)
class Owed:
    """A line whose reply is still to come: a question under a limit of so many steps, or that
    limit. All that was done before it is taken in."""

    line: str
    words: list[str]
    steps: int


class Conversation:
    """What was said to a program so far."""

    def __init__(self, command: list[str], limit: int, show_errors: bool = False) -> None:
        """Starts the program, whose runs take at most `limit` steps. What it says on standard error
        is kept, or shown. Raises ProgramEnded."""
        self.program = Program([*command, "--limit", str(limit)], show_errors)
        self.known = Known()
        self.kinds = self.known.cells
        self.lines: list[str] = []
        # The limit that the user gave, and the one that the program was told last.
        self.limit = limit
        self.program_limit = limit
        self._learns = self.known.learns
        # The question for points that the program goes on with where it is asked again at once:
        # what is sought, and behind how many lines.
        self.sought = ("", 0)
        # The cells of the question for plans that would be gone on with by the lines.
        self._listed: list[str] = []
        self.in_step = True
        self.owed: Owed | None = None

    def tell(self, line: str, steps: int) -> None:
        """Sends a line, under a limit of so many steps. The conversation is out of step until its
        reply is taken in, and it is said to be in step."""
        if steps != self.program_limit:
            self.set_limit(steps)
        self.in_step = False
        self.program.tell(line)

    def hear(self, command: str) -> str:
        """The whole reply to a line with this command."""
        program = self.program
        if command not in SEVERAL:
            return program.hear()
        lines = program.first_lines(1)
        while (count := lines_in(command, lines)) > len(lines):
            lines = program.first_lines(count)
        program.rest()
        return "\n".join(lines)

    def late(self) -> str:
        """What is there of the reply to a line that was told, "" where all of it was read and lost:
        what comes before the reply to a mark behind it."""
        self.program.tell(_MARK)
        lines: list[str] = []
        while (line := self.program.next_line()) != _MARKED:
            lines.append(line)
        return "\n".join(lines)

    def set_limit(self, steps: int) -> None:
        """Gives the program a limit, which is not the user's. (Between the slices of a question the
        conversation stays out of step: what they did is not taken in yet.)"""
        was_in_step = self.in_step
        self.in_step = False
        line = f"limit {steps}"
        self.program.tell(line)
        said = self.hear("limit")
        if said != "ok":
            raise self.wrong(line, said)
        self.program_limit = steps
        self.in_step = was_in_step

    def begin_anew(self, cells: list[str]) -> None:
        """Has a question for plans that differ at these cells begin anew: another one is asked
        before, for no steps. So it does by the lines."""
        self.set_limit(0)
        was_in_step = self.in_step
        self.in_step = False
        self.program.tell(_OTHER)
        self.hear(_OTHER)
        if cells and self._listed == cells:
            self.lines += ["limit 0", _OTHER, f"limit {self.limit}"]
            self._listed = []
        self.in_step = was_in_step

    def leave(self, line: str, words: list[str], steps: int) -> None:
        """Has a question owed that is under way, under so many steps; or the limit before it."""
        if steps == self.program_limit:
            self.owed = Owed(line, words, steps)
        else:
            self.owed = Owed(f"limit {steps}", ["limit", str(steps)], steps)

    def take_in(self) -> None:
        """Waits for what is owed, and takes it in. It is owed yet where StillAtWork is raised; all
        else that cuts this short leaves the conversation out of step, with nothing owed."""
        owed, self.owed = self.owed, None
        assert owed
        try:
            text = self.hear(owed.words[0])
        except StillAtWork:
            self.owed = owed
            raise
        if owed.words[0] == "limit":
            if text != "ok":
                raise self.wrong(owed.line, text)
            self.program_limit = owed.steps
        elif refusal_in(text) is None:
            self.reply(owed.line, owed.words, text)
            if owed.words[0] == "plans":
                # (nobody is told of these: so they are told once more)
                self.sought = ("", 0)
            elif owed.words[0] not in SEARCHING:
                self.cut(owed.line, owed.steps)
        self.in_step = True

    def carried(self, line: str, words: list[str]) -> None:
        """Takes in that a line was carried out."""
        self.lines.append(line)
        if words[0] == "plans" or words[0] not in (*ASKING, "limit"):
            self._listed = words[2:] if words[0] == "plans" else []
        learn = self._learns.get(words[0])
        if learn:
            learn(words, line)
        elif words[0] == "limit":
            self.limit = self.program_limit = int(words[1])

    def read_known(self) -> Known:
        """The names that the lines have declared. (What was taken in last may have been cut short,
        where the conversation is out of step: then they are read anew.)"""
        if self.in_step or self.owed:
            return self.known
        known = Known()
        for line in self.lines:
            words = line.split()
            learn = known.learns.get(words[0])
            if learn:
                learn(words, line)
        return known

    def read_limit(self, first: int) -> int:
        """The limit that the user gave, by the lines: the first one where none of them gives it."""
        if self.in_step or self.owed:
            return self.limit
        words = (line.split() for line in reversed(self.lines))
        return next((int(each[1]) for each in words if each[0] == "limit"), first)

    def cut(self, line: str, steps: int) -> None:
        """Takes in that a question was run for so many steps."""
        self.lines += [f"limit {steps}", line, f"limit {self.limit}"]

    def refused(self, line: str, text: str, line_number: int) -> Refused | None:
        """The refusal that a text is, where it is one."""
        refusal = refusal_in(text)
        if refusal is None:
            return None
        number, said = refusal
        blame = blame_for(line, number, said, self.known)
        return CLASSES.get(number, Refused)(number, said, line, line_number, blame)

    def reply(self, line: str, words: list[str], text: str) -> Reply:
        """The reply that a text is to a line of these words, which is not refused. Raises
        WrongReply where it is none."""
        try:
            return reply_of(words, text, self.kinds)
        except NotAReply:
            raise self.wrong(line, text) from None

    def wrong(self, line: str, text: str) -> WrongReply:
        """What is raised where a text is no reply to a line: the program is ended."""
        self.in_step = False
        self.program.kill()
        return WrongReply(None, f"the program answered {_brief(text)} to {_brief(line)}")


def _brief(text: str) -> str:
    shown = printable(text.partition("\n")[0])
    return f"`{shown if len(shown) <= _SHOWN else shown[:_SHOWN] + '..'}`"
