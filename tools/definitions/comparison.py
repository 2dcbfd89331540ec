"""Compares what an action does with what the slow model does, each on a copy of the same machine."""

from collections import Counter
from collections.abc import Callable, Iterable
from dataclasses import dataclass, replace

from actions import ActionError, ActionRun
from expressions import DefinitionError, forced
from model import Ending

SHOWN_DIFFERENCES = 10
SHOWN_CHARACTERS = 600


@dataclass(frozen=True)
class Trial:
    """An action on a machine of the model, which stays as it is, and what the model does in its place.

    `by_model` does it on the machine that it is given, and gives the answer as `plain_answer` does. `names` are the
    cells that the action is called with.
    """

    name: str
    machine: object
    by_model: Callable
    action: Callable
    names: Iterable = ()


def plain_answer(answer):
    """What an action gives as a value of Python.

    It is a truth value, None where the action only goes on, or a constructor's name, in lower case, and its arguments.
    """
    if isinstance(answer, bool):
        return answer
    if answer.name in ("tt", "Went"):
        return None
    return (answer.name.lower(), *map(forced, answer.arguments))


class Comparison:
    """Runs actions by their definitions and by the model, and keeps how they ended.

    `definitions` are those of the words; the other names that are compared are those of definitions.
    """

    def __init__(self, model, definitions):
        self.model = model
        self.definitions = definitions
        self.endings = {word: Counter() for word in definitions}
        self.differences = Counter()

    def compare(self, trial):
        """Compares the action of a trial with what the model does."""
        machine = trial.machine.clone()
        expected = self.model.ending_of(lambda: trial.by_model(machine), machine)
        self.take(trial.name, expected, self.by_definition(trial))

    def by_definition(self, trial):
        """How the defined action ends. One that has written something before it throws differs from any other."""
        machine = trial.machine.clone()
        run = ActionRun(self.model, machine, trial.names)
        try:
            ending = self.model.ending_of(lambda: plain_answer(run.result_of(trial.action())), machine)
        except (ActionError, DefinitionError) as error:
            return Ending("failed", str(error))
        if run.has_written and ending.state is None:
            return replace(ending, kind=f"{ending.kind} after a write")
        return ending

    def take(self, name, expected, found):
        """Counts how the model and the definition ended, and shows both where they differ."""
        self.endings.setdefault(name, Counter())[expected.kind] += 1
        if found != expected:
            self.differences[name] += 1
            if self.differences.total() <= SHOWN_DIFFERENCES:
                show(self.label_of(name), expected, found)

    def label_of(self, name):
        """A name as it is printed; a word stands between its tag and its definition."""
        if name not in self.definitions:
            return name
        return f"{self.model.tag_of(name):3} {name:16} {self.definitions[name]}"

    def report(self):
        """Prints how often each ended how, and how many differences there were."""
        for name, endings in self.endings.items():
            counts = ", ".join(f"{kind} {count}" for kind, count in sorted(endings.items())) or "not tried"
            differing = f"; {self.differences[name]} differ" if self.differences[name] else ""
            print(f"{self.label_of(name):50} {counts}{differing}")
        print(f"{sum(map(Counter.total, self.endings.values()))} runs, {self.differences.total()} differences")


def show(label, expected, found):
    """Prints a difference: how the two ended, and what of their states differs."""
    print(f"{label} differs")
    for side, ending in (("model", expected), ("definition", found)):
        detail = "" if ending.detail is None else f"{ending.detail!r:.{SHOWN_CHARACTERS}}"
        print(f"  {side}: {ending.kind} {detail}".rstrip())
    if expected.state and found.state:
        for part, content in expected.state.items():
            if found.state[part] != content:
                show_part(part, content, found.state[part])


def show_part(part, expected, found):
    """Prints a part of two states, of a region only the bytes that differ."""
    if part == "region":
        places = [offset for offset, byte in enumerate(expected) if found[offset] != byte]
        expected, found = ({offset: region[offset] for offset in places} for region in (expected, found))
    print(f"  {part} by the model: {expected!r:.{SHOWN_CHARACTERS}}")
    print(f"  {part} by the definition: {found!r:.{SHOWN_CHARACTERS}}")
