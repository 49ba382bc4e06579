"""Plans of tasks that people do: a thin layer over a workbench, in words of tasks and wishes."""

from propbench.planning.calendar import Calendar
from propbench.planning.calendar_files import holidays
from propbench.planning.project import Project
from propbench.planning.tasks import Task
from propbench.planning.who import any_of, skilled

__all__ = ["Calendar", "Project", "Task", "any_of", "holidays", "skilled"]
