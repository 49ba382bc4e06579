"""How the shell reads lines: with history, completion and colours where prompt_toolkit is there,
and by a plain prompt where it isn't or where no terminal is."""

import os
import sys
from collections.abc import Callable, Iterable
from pathlib import Path

from propbench.journal import state_folder
from propbench.session import Session
from propbench.shell import ASIDES

PROMPT = "> "


def history_file() -> Path:
    """Where the history is kept, which its owner alone may read; it is made. Raises OSError."""
    path = state_folder() / "history"
    os.close(os.open(path, os.O_WRONLY | os.O_CREAT | os.O_NOFOLLOW | os.O_CLOEXEC, 0o600))
    path.chmod(0o600)
    return path


def reader(session: Session) -> Callable[[], str]:
    """What reads a line of the user. It raises EOFError at the end, and KeyboardInterrupt."""
    if not sys.stdin.isatty():
        return _read_plainly
    try:
        return _rich_reader(session)
    except ImportError:
        return lambda: input(PROMPT)


def _read_plainly() -> str:
    line = sys.stdin.readline()
    if not line:
        raise EOFError
    return line.removesuffix("\n")


def _rich_reader(session: Session) -> Callable[[], str]:
    from prompt_toolkit import PromptSession
    from prompt_toolkit.completion import CompleteEvent, Completer, Completion
    from prompt_toolkit.document import Document
    from prompt_toolkit.history import FileHistory, History, InMemoryHistory
    from prompt_toolkit.lexers import PygmentsLexer

    from propbench.completion import completions
    from propbench.lexer import PropbenchLexer

    class Names(Completer):
        """Completes by what the session knows."""

        def get_completions(
            self, document: Document, complete_event: CompleteEvent
        ) -> Iterable[Completion]:
            asides = [*session.tells, *ASIDES]
            begun, found = completions(document.text_before_cursor, session.known, asides)
            return [Completion(word, start_position=-len(begun)) for word in found]

    history: History = InMemoryHistory()
    try:
        history = FileHistory(str(history_file()))
    except OSError:
        pass
    prompt: PromptSession[str] = PromptSession(
        PROMPT,
        history=history,
        completer=Names(),
        complete_while_typing=False,
        lexer=PygmentsLexer(PropbenchLexer),
    )
    return prompt.prompt
