"""`fzn-propbench` as it is started: what is imported stays, so it isn't looked through for garbage,
neither while it is imported nor at the end."""

import gc


def main() -> int:
    """Solves the model of the command line, and gives the exit status."""
    gc.disable()
    from propbench.flatzinc import command

    gc.freeze()
    gc.enable()
    return command.main()
