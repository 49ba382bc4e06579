"""Bugs that are planted in a copy of the package: what stands there, what is put in its place, and
the tests that have to find it out. `tools/planted` plants them; a test sees that each still fits.

Operators are swapped, gates left out, bounds off by one, cases of trees dropped.
"""

from dataclasses import dataclass


@dataclass(frozen=True)
class Bug:
    """A change of one place in a file of the package that some tests have to find out."""

    file: str
    old: str
    new: str
    # The likeliest first: a file in tests/ and a test in it, both without `test_`.
    tests: str

    @property
    def name(self) -> str:
        """The file, and the place, by the first line that stands there."""
        return f"{self.file}: {self.old.strip().splitlines()[0].strip()}"


_MEANING = "meaning::each_operation_at_all_points"
_RANGES = "meaning::ranges_have_each_value"
_POINTS = "workbench_files::what_points_violate"
_JUDGED = "workbench_random::points_are_judged_as_by_brute_force"
_LEFT = "workbench_random::no_solution_is_left_out"
_STRONG = "workbench_random::a_believed_premise_is_as_strong_as_none"
_ALTERNATIVES = "workbench_random::alternatives_hold_in_their_plans"
_LINES = "workbench_files::the_lines_of_a_constraint_are_all_that_it_needs"
_CONFLICTS = "questions::conflicts_and_repairs_are_all_there_are"
_GOES_ON = "questions::a_question_goes_on_from_the_one_before"
_BOUNDS = "questions::bounds_are_those_of_all_plans"
_PLANS = "questions::plans_are_all_there_are"
_PROJECTS = "planning::best_plans_are_those_of_all"
_FLAT = "flatzinc_meaning::each_constraint_at_all_points"
_APART = "flatzinc_random::values_that_are_told_apart_are_elements"
_BLAMED = "flatzinc_blame::conflicts_and_repairs_are_those_of_brute_force"
_FUNCTIONS = "functions::each_function_in_both_directions"
_PIECES = "bends::pieces_hold_at_all_reals"
_REALS = f"real_functions::reals_lie_in_every_answer {_FUNCTIONS}"
_TWICE = "narrow_forms::a_quantity_that_stands_twice"

BUGS = [
    # What an expression means.
    Bug(
        "model/meaning.py",
        "Op.DIFFERENCE: lambda node, numbers: numbers[0] - numbers[1]",
        "Op.DIFFERENCE: lambda node, numbers: numbers[1] - numbers[0]",
        _MEANING,
    ),
    Bug(
        "model/meaning.py",
        "Op.AT_MOST: _ordered(operator.le)",
        "Op.AT_MOST: _ordered(operator.lt)",
        _MEANING,
    ),
    Bug(
        "model/meaning.py",
        "    return left // right\n",
        "    return int(left / right)\n",
        _MEANING,
    ),
    Bug(
        "model/meaning.py",
        "node.args[1] if reading.value(node.args[0]) else node.args[2]",
        "node.args[2] if reading.value(node.args[0]) else node.args[1]",
        _MEANING,
    ),
    Bug(
        "model/meaning.py",
        "        if reading.value(arg):\n            found = True\n",
        "        found = bool(reading.value(arg))\n",
        _MEANING,
    ),
    # What it stands for in fewer operations.
    Bug(
        "model/core.py",
        "Op.AT_MOST: (1, 0, True)",
        "Op.AT_MOST: (0, 1, True)",
        f"{_JUDGED} {_LEFT}",
    ),
    Bug(
        "model/core.py",
        "Op.AT_LEAST: (0, 1, True)",
        "Op.AT_LEAST: (1, 0, False)",
        f"{_JUDGED} {_LEFT}",
    ),
    Bug(
        "model/core.py",
        "combinations(each.args, 2))",
        "zip(each.args, each.args[1:]))",
        f"{_JUDGED} {_LEFT}",
    ),
    Bug(
        "model/core.py",
        "if (element, other) in pair.entries)",
        "if (other, element) in pair.entries)",
        f"{_JUDGED} {_LEFT}",
    ),
    Bug(
        "model/core.py",
        "any_of([negated(each.args[0]), each.args[1]])",
        "any_of([each.args[0], each.args[1]])",
        f"{_JUDGED} {_LEFT}",
    ),
    Bug(
        "model/definedness.py",
        "needs.append(nonzero(each.args[1]))",
        "needs.append(nonzero(each.args[0]))",
        f"{_JUDGED} workbench::divisions",
    ),
    Bug(
        "model/ranges.py",
        "return left_low - right_high, left_high - right_low",
        "return left_low - right_low, left_high - right_high",
        _RANGES,
    ),
    Bug(
        "model/ranges.py",
        "return min(low + 1, 0), max(high - 1, 0)",
        "return min(low + 1, 0), max(high - 2, 0)",
        _RANGES,
    ),
    # The lines that state it.
    Bug(
        "model/translation.py",
        "(low, number - 1) if holds",
        "(low, number) if holds",
        f"{_JUDGED} {_LEFT} {_STRONG}",
    ),
    Bug(
        "model/translation.py",
        "else (low, number)\n",
        "else (low, number - 1)\n",
        f"{_JUDGED} {_LEFT} {_STRONG}",
    ),
    Bug(
        "model/translation.py",
        "if (name in elements) is holds)",
        "if name in elements)",
        f"{_JUDGED} {_LEFT} {_STRONG}",
    ),
    Bug(
        "model/translation.py",
        "is_outside = context.outer is self.root and is_harmless(each)",
        "is_outside = context.outer is self.root",
        f"workbench::what_is_out_says_nothing workbench::what_lies_beyond_is_named {_STRONG}",
    ),
    Bug(
        "model/numbers.py",
        'self._writer.attach("sum", cell, right, left)',
        'self._writer.attach("sum", cell, left, right)',
        f"{_JUDGED} {_LEFT} workbench::lists_and_tables workbench::long_lists",
    ),
    Bug(
        "model/numbers.py",
        "((test, values[0]), (negated(test), values[1]))",
        "((test, values[0]), (test, values[1]))",
        f"{_JUDGED} {_LEFT} workbench::lists_and_tables workbench::long_lists",
    ),
    Bug(
        "model/numbers.py",
        "if entry <= step)",
        "if entry < step)",
        f"{_JUDGED} {_LEFT} workbench::lists_and_tables workbench::long_lists",
    ),
    Bug(
        "model/numbers.py",
        "each.args[first : first + _MOST_COUNTED]",
        "each.args[first : first + _MOST_COUNTED - 1]",
        f"{_JUDGED} {_LEFT} workbench::lists_and_tables workbench::long_lists",
    ),
    Bug(
        "model/numbers.py",
        "            if needed is TRUE or needed in around.stated:\n",
        "            if needed is not around:\n",
        f"workbench::divisions workbench::a_condition_guards_a_division {_JUDGED}",
    ),
    Bug(
        "model/truths.py",
        "((cell, True), (other, False))",
        "((cell, False), (other, True))",
        f"{_JUDGED} {_LEFT}",
    ),
    Bug(
        "model/truths.py",
        '"in" if name in each.entries else "out"',
        '"out" if name in each.entries else "in"',
        f"{_JUDGED} {_LEFT}",
    ),
    Bug(
        "model/writer.py",
        'self.line(f"tell {context.premise} {cell} {text}")',
        'self.line(f"fix {cell} {text}")',
        f"{_STRONG} {_JUDGED} {_ALTERNATIVES}",
    ),
    Bug(
        "model/writer.py",
        '            self.attach("passer", context.gate, inside, outside)\n',
        "",
        f"{_STRONG} {_JUDGED} {_ALTERNATIVES}",
    ),
    Bug(
        "model/writer.py",
        '            self.attach("passer", context.gate, outside, inside)\n',
        '            self.attach("same", outside, inside)\n',
        f"{_STRONG} {_JUDGED} {_ALTERNATIVES}",
    ),
    # Choices, premises and answers.
    Bug(
        "model/choosing.py",
        "sides[0] * MOST_SIDES + sides[1]",
        "sides[1] * MOST_SIDES + sides[0]",
        "workbench::many_alternatives",
    ),
    Bug(
        "model/events.py",
        "int(low) <= int(point) <= int(high)",
        "int(low) <= int(point) < int(high)",
        f"{_POINTS} workbench_files::the_seam",
    ),
    Bug(
        "model/network.py",
        "for name, is_in in believed.items() if not is_in]",
        "for name, is_in in believed.items() if is_in]",
        "workbench_files::a_file_is_the_workbench what_ifs::what_if_leaves_no_trace",
    ),
    Bug(
        "model/network.py",
        "        self._written = self._told = self._index.record = None\n",
        "        self._index.record = None\n",
        "all_or_nothing::each_line_of_a_call_may_go_wrong",
    ),
    Bug(
        "model/network.py",
        "        if self._is_stating:\n            return state()\n",
        "",
        "planning::what_is_refused_leaves_nothing",
    ),
    Bug(
        "plain.py",
        "            copy, self._network = self._network, kept\n",
        "            copy = self._network\n",
        "what_is_left::a_what_if_leaves_nothing",
    ),
    Bug(
        "plain.py",
        "            if known.get(cell.name) is not cell:\n",
        "            if cell.name not in known:\n",
        "what_is_left::what_was_made_in_a_what_if_says_that_it_is_gone",
    ),
    Bug(
        "model/record.py",
        "        self.events = [each for each in self.events if each.premise != premise]\n",
        "",
        "workbench::a_premise_is_forgotten",
    ),
    Bug(
        "model/seam.py",
        "self._points(plan), {None, *believed}",
        "self._points(plan), {*believed}",
        _POINTS,
    ),
    Bug("model/seam.py", "if self._last != points:", "if not self._last:", _BLAMED),
    Bug(
        "model/either.py",
        "(holds, max(others))",
        "(holds, min(others))",
        "either::room_is_how_far_apart_numbers_may_be",
    ),
    Bug(
        "model/events.py",
        "int(value) <= cell.high)",
        "True)",
        "workbench_files::the_seam",
    ),
    Bug(
        "model/lowering.py",
        "if _raise(raised, at) else dict(points)",
        "if not raised else dict(points)",
        "kept::plans_have_the_lowest_numbers",
    ),
    Bug(
        "questions/kept.py",
        "sorted(other.out - self.out)",
        "sorted(other.out & self.out)",
        "kept::only_what_changed_is_told",
    ),
    Bug(
        "model/shrinking.py",
        "    while tried and not clock.is_over():\n",
        "    while tried[1:] and not clock.is_over():\n",
        "cases::what_is_needless_is_left_out",
    ),
    Bug(
        "model/answers.py",
        "None if value.low == -MOST_NUMBER else value.low",
        "None if value.low == MOST_NUMBER else value.low",
        "workbench::ends_that_are_not_known",
    ),
    # Questions.
    Bug(
        "questions/bounding.py",
        "self.proved = self._low == best",
        "self.proved = self._low >= best - 1",
        f"{_BOUNDS} {_PROJECTS}",
    ),
    Bug(
        "questions/bounding.py",
        "return self.beyond(self._best - 1)",
        "return self.beyond(self._best)",
        f"what_ifs::room_and_what_is_critical certificates::each_checks",
    ),
    Bug(
        "questions/leaving.py",
        "return Span(-MOST_NUMBER, value - 1)",
        "return Span(-MOST_NUMBER, value)",
        "chains::a_chain_is_the_reason",
    ),
    Bug(
        "questions/leaving.py",
        "it == name or it not in self.names",
        "it == name",
        "blamed::what_was_left_out_doesnt_come_back",
    ),
    Bug(
        "planning/rooms.py",
        "value < best if sort == LEAST else value > best",
        "value < best",
        "chains::a_chain_is_the_reason",
    ),
    Bug(
        "questions/exploring.py",
        "            if not mask & bit:\n",
        "            if mask & bit:\n",
        _CONFLICTS,
    ),
    Bug(
        "questions/searching.py",
        "    for part in parts:\n",
        "    for part in parts[:-1]:\n",
        "cases::large_numbers_are_tried_in_halves",
    ),
    Bug(
        "questions/rooms.py",
        "NumberRoom(point + 1, room.high),",
        "NumberRoom(point + 2, room.high),",
        "cases::cases_have_each_number_once",
    ),
    Bug(
        "questions/rooms.py",
        "NumberRoom(middle + 1, room.high)]",
        "NumberRoom(middle + 2, room.high)]",
        "cases::cases_have_each_number_once",
    ),
    Bug(
        "questions/plans.py",
        "        self.complete = not self._has_open\n",
        "        self.complete = True\n",
        _PLANS,
    ),
    Bug(
        "questions/hitting.py",
        "            if not conflict & seen:\n",
        "            if conflict:\n",
        "hitting::sets_that_overlap_are_hit_at_once",
    ),
    Bug(
        "questions/trial.py",
        '_cover(fork, _EITHER, [["yes", "no"] if yes >= no else ["no", "yes"]])',
        '_cover(fork, _EITHER, [["yes", "yes"] if yes >= no else ["no", "yes"]])',
        f"{_PROJECTS} planning::facts_are_premises",
    ),
    Bug(
        "questions/trial.py",
        "key=lambda fork: sum(rooms[fork])",
        "key=lambda fork: -sum(rooms[fork])",
        "either::what_leaves_little_room_is_decided_first",
    ),
    Bug(
        "questions/hitting.py",
        "while self._open and not is_over():",
        "while self._open:",
        "hitting::nothing_is_looked_at_where_the_time_is_over",
    ),
    Bug(
        "questions/hitting.py",
        "(max(child.spent, least), next(self._order), child)",
        "(least, next(self._order), child)",
        "hitting::each_least_set_comes_once_cheapest_first",
    ),
    Bug(
        "questions/conflicts.py",
        "explored.complete and len(explored.repairs) <= most",
        "explored.complete",
        "questions::what_is_known_is_not_asked_again",
    ),
    Bug(
        "questions/conflicts.py",
        "known.base == list(model.base())",
        "known.base",
        "questions::what_is_known_is_not_asked_again",
    ),
    Bug(
        "questions/conflicts.py",
        "found.complete or found.weights == dict(weight)",
        "found.complete or found.weights",
        "questions::other_weights_give_another_order",
    ),
    Bug(
        "questions/exploring.py",
        "            made._hitting.learn(refuted.mask)\n",
        "            made._hitting.finish(refuted.mask)\n",
        _GOES_ON,
    ),
    Bug(
        "questions/trial.py",
        "if not self.model.is_measured(cell)",
        "if self.whole[cell]",
        "measured::plans_are_told_without_quantities",
    ),
    Bug(
        "questions/changes.py",
        "    out = set(kicked) - set(brought)\n",
        "    out = set(kicked)\n",
        "what_ifs::scenarios_are_what_ifs",
    ),
    Bug(
        "questions/sensitivity.py",
        "held.low + quarter, held.high - quarter",
        "held.low + quarter, held.high",
        "what_ifs::what_premises_are_worth",
    ),
    # What checks certificates.
    Bug(
        "questions/checker.py",
        "[hit - {name} for hit in hits if hit & names == {name}]",
        "[hit for hit in hits if hit & names == names]",
        "hitting::each_least_set_comes_once_cheapest_first",
    ),
    Bug(
        "questions/checker.py",
        "if first <= low else low",
        "if first <= low + 1 else low",
        "cases::what_covers_a_room",
    ),
    Bug(
        "questions/checker.py",
        "if cell not in plan]",
        "if cell not in plan and cell[0] != '_']",
        "spoilt::spoilt_ones_are_refused",
    ),
    Bug(
        "questions/checker.py",
        "        self.believe(self.tries, given)\n",
        "        demand(given, 'no premise')\n",
        "certificates::each_checks",
    ),
    Bug(
        "questions/checker.py",
        'demand(covers(rooms, self.rooms[cell]), f"a choice leaves out values of {cell}")',
        'demand(rooms, f"a choice leaves out values of {cell}")',
        "certificates::a_choice_that_leaves_out_a_value",
    ),
    Bug(
        "questions/checker.py",
        'self.untold = [*used & {"divider", "parter", "" if listed else "local"}]',
        'self.untold = [*used & {"" if listed else "local"}]',
        "spoilt::spoilt_ones_are_refused",
    ),
    Bug(
        "questions/checker.py",
        "demand(kept <= every and all(s <= every - kept for s in sets + outs),",
        "demand(all(s <= every for s in sets + outs),",
        "spoilt::spoilt_ones_are_refused",
    ),
    Bug(
        "questions/completing.py",
        "                found[cell] = point\n",
        "                pass\n",
        "certificates::plans_that_give_up_a_premise",
    ),
    Bug(
        "reports.py",
        '        while name in found:\n            name += " once more"\n',
        "",
        "reports::what_is_spoilt_shows",
    ),
    # Plans over days.
    Bug(
        "planning/project.py",
        "if not self._has(task.end):",
        "if not self.workbench:",
        "planning::what_is_wrong",
    ),
    Bug(
        "model/seam.py",
        "name: choices[name].stands_on(side) for",
        "name: choices[name].stands_on(0) for",
        "planning::the_best_plan_says_which_options_it_takes",
    ),
    Bug(
        "planning/project.py",
        "(other.end <= task.start) |",
        "(other.end < task.start) |",
        _PROJECTS,
    ),
    Bug(
        "planning/pausing.py",
        "(task.start >= away.last)",
        "(task.start > away.last)",
        f"planning::facts_are_premises {_PROJECTS}",
    ),
    Bug(
        "planning/calendar.py",
        "        while found < wanted:\n",
        "        while found <= wanted:\n",
        "planning::dates",
    ),
    # Models in FlatZinc.
    Bug(
        "flatzinc/arithmetic.py",
        "return if_else((left < 0) == (right < 0), found, -found)",
        "return if_else(left < 0, -found, found)",
        _FLAT,
    ),
    Bug(
        "flatzinc/arithmetic.py",
        "return (plus, minus + bound) if bound > 0 else",
        "return (plus, minus) if bound > 0 else",
        _FLAT,
    ),
    Bug(
        "flatzinc/meaning.py",
        "return give(left, right), right != 0",
        "return give(left, right), arithmetic.YES",
        "flatzinc::what_a_definition_needs_holds_always",
    ),
    Bug(
        "flatzinc/meaning.py",
        "negative = [~each for each in terms.truths(args[1])]",
        "negative = list(terms.truths(args[1]))",
        _FLAT,
    ),
    Bug(
        "flatzinc/building.py",
        "return first == second if name.endswith",
        "return first != second if name.endswith",
        _APART,
    ),
    Bug(
        "flatzinc/symbolic.py",
        "        numbers = {each for each in group if isinstance(each, int)}\n",
        "        numbers = set[int]()\n",
        f"flatzinc::what_is_told_apart {_APART}",
    ),
    Bug(
        "flatzinc/building.py",
        "            self._believe(self.truth(holds), label.text)\n",
        "            self._require(self.truth(holds))\n",
        _BLAMED,
    ),
    Bug(
        "flatzinc/marking.py",
        'if "/\\\\" in plain:',
        'if False and "/\\\\" in plain:',
        "flatzinc_blame::marks_stand_around_each_constraint",
    ),
    Bug(
        "flatzinc/writing.py",
        "        return [UNSATISFIABLE if found.is_complete else UNKNOWN]\n",
        "        return [UNSATISFIABLE]\n",
        "flatzinc::no_time_is_unknown_and_statistics",
    ),
    Bug(
        "watching/claims.py",
        "        while both(known, self._together[first]) != known:\n",
        "        while False:\n",
        "how::the_shell_tells_how_as_a_tree",
    ),
    Bug(
        "watching/instances.py",
        "return replace(call, inputs=found.inputs, output=found.output) if found else call",
        "return call",
        "how::the_shell_tells_how_as_a_tree",
    ),
    Bug(
        "model/script.py",
        "Owner(event, place in making)",
        "Owner(event, False)",
        "how::what_only_makes_an_expression_is_not_named",
    ),
    Bug(
        "watching/owned.py",
        'text = f"{event.told} ({premise})" if premise else event.told',
        "text = event.told",
        "how::a_workbench_tells_how",
    ),
    Bug(
        "files.py",
        "            os.fsync(descriptor)\n        before()",
        "            pass\n        before()",
        "files::it_is_on_the_disk_before_it_takes_the_place",
    ),
    Bug(
        "files.py",
        "if there not in (None, data) and _checksum(there) != self._known:",
        "if there not in (None, data) and _checksum(there) == self._known:",
        "files::what_another_changed_is_neither_lost_nor_hidden",
    ),
    Bug(
        "files.py",
        "write_file(self.path, data, check if not overwrite else lambda: None)",
        "write_file(self.path, data)",
        "files::a_change_at_the_last_moment_is_seen",
    ),
    Bug(
        "journal.py",
        'head, *lines = file.read().split(b"\\n")[:-1] or [b""]',
        'head, *lines = file.read().split(b"\\n") or [b""]',
        "journal::a_torn_line_is_dropped",
    ),
    Bug(
        "journal.py",
        "descriptor = os.open(path, flags, 0o600)",
        "descriptor = os.open(path, flags, 0o644)",
        "journal::its_owner_alone_may_read_it",
    ),
    Bug(
        "shell.py",
        "        self._keep()\n        if not isinstance(reply, Silent):",
        "        if not isinstance(reply, Silent):",
        "journal::a_line_is_on_the_disk_before_its_reply_is_shown",
    ),
    Bug(
        "page/asking.py",
        '"/" in name or ',
        "",
        "files::the_page_sees_a_change",
    ),
    Bug(
        "showing.py",
        "if text.isprintable() and not _HAS_UNSEEN.search(text):",
        "if text.isprintable():",
        "texts::a_terminal_gets_no_orders",
    ),
    # Sessions that are supervised.
    Bug(
        "process.py",
        "                _tie(leash, self.pid)\n",
        "                pass\n",
        "supervised::a_program_ends_with_its_parent",
    ),
    Bug(
        "process.py",
        """        signal.pthread_sigmask(signal.SIG_BLOCK, handlers)
        for number in handlers:
            signal.signal(number, lambda number, frame: came.append((number, frame)))
""",
        "",
        "interrupts::ctrl_c_is_held_back_while_a_program_is_started_or_ended",
    ),
    Bug(
        "session.py",
        "            session._turn = _NOBODYS\n",
        "            pass\n",
        "supervised::a_forked_child_is_told_whose_session_it_is",
    ),
    Bug(
        "replies.py",
        'text.startswith(f"{name} = ") and name in kinds',
        '" = " in text and name in kinds',
        "supervised::a_reply_to_another_question_is_found_out",
    ),
    Bug(
        "page/asking.py",
        "self._is_closed or self._is_gone():",
        "self._is_closed:",
        "page_server::what_a_page_asked_ends_with_it",
    ),
    # What a laboratory reads.
    Bug(
        "measuring/means.py",
        "if each < count)",
        "if each <= count)",
        "means::how_often_it_is_taken_is_what_student_has",
    ),
    Bug(
        "laboratory/tabled.py",
        'unit = "" if quantity.unit.text == "1" else quantity.unit.text',
        "pass",
        "tables::a_number_is_in_the_quantity_s_unit_whatever_its_uncertainty_is_in",
    ),
    Bug(
        "laboratory/adjustment.py",
        "divisor if reading.shape is None else SHAPES[reading.shape]",
        "divisor",
        "means::distributions_of_readings",
    ),
    Bug(
        "laboratory/paths.py",
        "fewer.interval == path.interval",
        "fewer.interval",
        "laboratory_report::a_quantity_that_is_not_read_has_bars_by_each_path",
    ),
    Bug(
        "laboratory/curve_files.py",
        'cell if between == "," else cell.replace(",", ".")',
        "cell",
        "curves::points_of_a_file",
    ),
    Bug(
        "measuring/devices.py",
        "_times_gain(factored(part), device, degree - lowest)",
        "_times_gain(factored(part), device, 0)",
        "devices::a_difference_keeps_no_offset_and_a_ratio_no_scale",
    ),
    Bug(
        "laboratory/rounding.py",
        "wide = ceil(max(",
        "wide = round(max(",
        "tables::nothing_is_lost_by_rounding",
    ),
    Bug(
        "laboratory/tabled.py",
        "        if quantity in before:\n",
        "        if name in before:\n",
        "tables::bad_rows",
    ),
    Bug(
        "laboratory/least_squares.py",
        "len(self._observations) - rank,",
        "len(self._observations) - rank - 1,",
        "adjustment::a_net_of_levels_as_the_normal_equations_have_it",
    ),
    # Functions of measured quantities, which may lose no real, and are as narrow as they can be.
    Bug(
        "measuring/bends.py",
        "off = HALF + (self.off + _TINY) / self._measures[1].step",
        "off = (self.off + _TINY) / self._measures[1].step",
        _PIECES,
    ),
    Bug(
        "measuring/bends.py",
        "more = abs(of_argument) * HALF",
        "more = of_argument * HALF",
        _PIECES,
    ),
    Bug(
        "measuring/bends.py",
        "(self.off + _TINY)",
        "_TINY",
        _PIECES,
    ),
    Bug(
        "measuring/bends.py",
        "min(low for low, _ in rests) - max(bend[1], Fraction(0)) * scale",
        "min(low for low, _ in rests) - max(-bend[0], Fraction(0)) * scale",
        _PIECES,
    ),
    Bug(
        "measuring/bends.py",
        "scale = argument.step**2 / value.step * (last - first) ** 2 / 8",
        "scale = argument.step**2 / value.step * (last - first) ** 2 / 16",
        _PIECES,
    ),
    Bug(
        "measuring/bounds.py",
        "return low - off, high + off",
        "return low, high",
        f"functions::a_curve_of_calibration {_REALS}",
    ),
    Bug(
        "measuring/shapes.py",
        "Join.GREATEST if curve.rises else Join.LEAST",
        "Join.LEAST if curve.rises else Join.GREATEST",
        "functions::a_sine_beyond_its_turns",
    ),
    Bug(
        "measuring/curves.py",
        "_is_past(curve, above, value, not curve.rises)",
        "_is_past(curve, above, value, curve.rises)",
        "functions::curves_and_their_inverses",
    ),
    Bug(
        "measuring/refining.py",
        "for each in (place, place + (1 if is_above else -1)):",
        "for each in (place,):",
        _FUNCTIONS,
    ),
    Bug("measuring/once.py", "constant(-factor * share**2)", "constant(-(share**2))", _TWICE),
    Bug(
        "measuring/logarithms.py",
        "return high > _WIDE * low",
        "return False",
        "narrow_forms::an_exponential_that_may_be_much_or_little",
    ),
]
