"""The clock that questions have: that of `propbench.clock`, which the model has too."""

from propbench.clock import Clock, Progress, on_terminal, show_by

__all__ = ["Clock", "Progress", "on_terminal", "show_by"]
