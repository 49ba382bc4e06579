"""What is left for quantities where readings are in conflict: without each of those that are."""

from propbench.questions.clock import Clock
from propbench.questions.model import Model
from propbench.questions.rooms import NumberRoom, room_left
from propbench.questions.trial import Trial
from propbench.replies import Contradiction

# So many premises are left out in turn at the most.
_MOST = 12


def left_apart(model: Model, clock: Clock) -> list[dict[str, NumberRoom]]:
    """What is left for cells by name without each premise of a conflict in turn, where that is none
    then; nothing where there is no conflict. Raises OutOfTime."""
    believed = list(model.believed())
    with Trial(model, [], clock) as trial:
        clash = trial.look(believed, [])
        if not isinstance(clash, Contradiction):
            return []
        found = []
        for name in [each for each in believed if trial.line[each] in clash.premises][:_MOST]:
            seen = trial.look([each for each in believed if each != name], [])
            if isinstance(seen, dict):
                rooms = {cell: room_left(held, None) for cell, held in seen.items()}
                kept = {cell: it for cell, it in rooms.items() if isinstance(it, NumberRoom)}
                found.append(kept)
        return found
