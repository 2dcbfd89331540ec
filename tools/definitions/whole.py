"""Compares whole fresh builds and runs at the plain pair, as `fresh_build` and `run` of the definitions give them.

Both are evaluated as they are written, but for what an action does to a machine, which `ActionRun` does, and the first
machines, which are the model's. The definitions ask for the same outcomes again and again, once for the output and
once for the end, so each machine keeps those of its actions, and all builds share those of the seed and the prelude.
"""

from dataclasses import dataclass

from actions import ActionRun
from expressions import NOTHING, Constructed, forced, items_of, list_of, some
from model import STAGE, Ending, state_of
from states import REGION_BYTES

TURNS = 3000
INTERPRETED = (
    b"",
    b"1 2 + .\r\nNOSUCH\n2 3 * .\nABORT\n",
    b": OPEN 1\n",
    b"1 .\n2 ." + bytes(1020) + b"\n3 .",
    b": L BEGIN AGAIN ; 7 . L",
)
ENTRY_WITH_INPUT = b": GO PAD 9 ACCEPT PAD SWAP TYPE REFILL . @ ;"
FAULTS = (b'X @ X - .\n: E ABORT" no" ; 1 E\n@\n0 0 /\nBYE\n9 .\n',)


@dataclass(frozen=True)
class Build:
    """A build from sources, with an entry name or none, and the inputs for runs of what it builds."""

    name: str
    sources: tuple
    entry: bytes | None = None
    turns: int = TURNS
    inputs: tuple = ()


BUILDS = [
    Build("nothing", (), inputs=INTERPRETED),
    Build("a variable", (b"VARIABLE X HERE X !\n",), inputs=FAULTS),
    Build("a defining word", (b": CONST CREATE , DOES> @ ; 5 CONST FIVE\nFIVE .",)),
    Build("a marker", (b"MARKER BACK : A 1 ; WORDLIST CONSTANT W\nVARIABLE V BACK\n: B 2 ; B .\n",)),
    Build("a loop", (b": S 0 ROT ROT OVER + SWAP ?DO I C@ + 1 +LOOP ;\nREGION 16 S . : T 3 0 DO I . LOOP ; T",)),
    Build("a throw", (b"1 2 +\r\n", b"\nDROP NOSUCH\n")),
    Build("escapes", (rb'S\" a\n\x41\m\q\z" TYPE : T S\" \tb\"c" TYPE ; T',)),
    Build("a bad escape", (rb'65 EMIT S\" \y"',)),
    Build("EVALUATE", (b'S" 1 2 + . 5" EVALUATE . : E S" .( in) 7" EVALUATE ; E .',)),
    Build("REFILL", (b": R REFILL . ; R\nSOURCE TYPE R .( behind)\nPAD 9 ACCEPT . R",)),
    Build("ACCEPT", (b"PAD 4 ACCEPT . PAD 3 TYPE PAD 9 ACCEPT .\nabcdef\ngh\n",)),
    Build("an entry word", (b": GO 71 EMIT ;\n", b""), b"go", inputs=(b"", b"GO")),
    Build("an entry word that throws", (ENTRY_WITH_INPUT,), b"GO", inputs=(b"ab\ncd", b"")),
    Build("no entry word", (b": GO ;",), b"GONE"),
    Build("BYE", (b"1 . BYE 2 .\n3 .\n",)),
    Build("an open definition", (b": OPEN 1\n\n",)),
    Build("a long line", (b"1 .\n", b"2 .\n" + b" " * 1021)),
    Build("no end", (b"1 . : L BEGIN AGAIN ; L\n",), turns=60),
    Build("turns that just suffice", (b"VARIABLE X HERE X !\n",), turns=14, inputs=(b"1 2 3 4 5 6", b"1 2")),
    Build("a turn too few", (b"VARIABLE X HERE X !\n",), turns=13),
    Build("no turns", (b"1\n",), turns=0),
]


class Snapshot:
    """A machine that stays as it is, with the outcomes of the actions that were done to it."""

    def __init__(self, machine):
        self.machine = machine
        self.outcomes = {}


def remembered(function, key=lambda argument: argument):
    """The function of an argument whose values are kept, each by the key of its argument."""
    values = {}

    def value(argument):
        argument = forced(argument)
        found = key(argument)
        if found not in values:
            values[found] = (argument, function(argument))
        return values[found][1]

    return value


def text_of(items):
    return bytes(items_of(items))


class WholeDefinitions:
    """The definitions of builds and runs, at an arithmetic of the model."""

    def __init__(self, model, modules):
        self.model = model
        self.modules = modules
        self.arithmetic = model.arithmetic("plain", REGION_BYTES)
        self.kernel = modules.module("Kernel").value_of("whole_kernel")
        blank = remembered(lambda size: self.snapshot(bytes(size)))
        at_loop = remembered(self.at_loop)
        self.replace("Outcome", "outcome_of", self.outcome_of)
        self.replace("Seed", "blank_machine", lambda ops: blank)
        self.replace("Seed", "at_loop", lambda ops: at_loop)
        self.replace("Run", "machine_on", lambda ops: self.snapshot)
        for module, name, key in (("Seed", "seed", id), ("Table", "step", id), ("Input", "give_line", text_of)):
            self.replace(module, name, remembered(modules.module(module).value_of(name), key))
        for name in ("prelude_done", "prelude_emitted"):
            self.replace("Build", name, self.of_one_machine(modules.module("Build").value_of(name)))

    def of_one_machine(self, function):
        """A function of the kernel, the arithmetic and a machine, whose values are kept."""
        value = remembered(function(self.kernel)(self.arithmetic))
        return lambda kernel: lambda ops: value

    def replace(self, module, name, value):
        """Lets a name stand for this value in all files."""
        self.modules.module(module).values[name] = value

    def snapshot(self, region):
        """A machine on these bytes that has taken no instruction."""
        machine = self.model.machine_on(self.arithmetic, forced(region))
        machine.ip = 0
        return Snapshot(machine)

    def at_loop(self, snapshot):
        machine = snapshot.machine.clone()
        machine.ip = self.arithmetic.region_cell(self.modules.module("Layout").value_of("interpreter_loop"))
        return Snapshot(machine)

    def outcome_of(self, ops):
        """A function of an action, a machine and the cells that it is called with, of which there are none here."""
        return lambda action: lambda before: lambda names: self.outcome(action, before)

    def outcome(self, action, before):
        """What an action gives, and the machine after it, or the fault."""
        action, before = forced(action), forced(before)
        if action not in before.outcomes:
            before.outcomes[action] = self.done(action, before.machine)
        return before.outcomes[action]

    def done(self, action, before):
        machine = before.clone()
        try:
            answer = ActionRun(self.model, machine).result_of(action)
        except self.model.Throw as thrown:
            return Constructed("Err", (Constructed("Throw", (thrown.code,)),))
        except self.model.Refused as refused:
            return Constructed("Err", (Constructed("Refused", refused.args),))
        if machine.mem == before.mem:
            machine.mem, machine.cells = before.mem, before.cells
        return Constructed("Ok", ((answer, Snapshot(machine)),))

    def build(self, build):
        """How the build ends by the definitions."""
        fresh_build = self.modules.module("Build").value_of("fresh_build")
        texts = list_of([list_of(list(source)) for source in build.sources])
        entry = NOTHING if build.entry is None else some(list_of(list(build.entry)))
        whole = applied(fresh_build, self.kernel, self.arithmetic, REGION_BYTES, texts, entry, build.turns)
        return build_ending(text_of(whole["output"]), forced(whole["end"]))

    def run(self, region, text, turns):
        """How a run of a region ends by the definitions."""
        run = self.modules.module("Run").value_of("run")
        whole = applied(run, self.kernel, self.arithmetic, region, list_of(list(text)), turns)
        end = forced(whole["end"])
        return Ending(end.name, (*map(forced, end.arguments), text_of(whole["output"])))


def applied(function, *arguments):
    """A function of several arguments, applied to them."""
    for argument in arguments:
        function = function(argument)
    return function


def build_ending(output, end):
    """How a build of the definitions ends."""
    match end.name, *map(forced, end.arguments):
        case "Done", after, used, taken:
            return Ending("Done", (used, taken, output), state_of(after.machine))
        case "Failed", fault, file, line:
            return Ending("Failed", (fault.name, *map(forced, fault.arguments), file, line, output))
        case name, *arguments:
            return Ending(name, (*arguments, output))


def build_by_model(model, arithmetic, build):
    """How the build ends by the model, in the definitions' words."""
    end = model.machine.build(arithmetic, list(build.sources), build.entry, build.turns, STAGE)
    match end.end:
        case "done":
            return Ending("Done", (end.used, end.taken, end.output), state_of(end.machine))
        case "thrown":
            return Ending("Failed", ("Throw", end.code, end.file, end.line, end.output))
        case "step":
            return Ending("Failed", ("Refused", end.first, end.second, end.why, end.file, end.line, end.output))
        case "noentry":
            return Ending("EntryMissing", (end.output,))
    return Ending("Spent", (end.turns, end.output))


def run_by_model(model, arithmetic, region, text, turns):
    """How a run ends by the model, in the definitions' words."""
    result = model.machine.run(model.machine_on(arithmetic, region), turns, text)
    name = {"bye": "Bye", "thrown": "Thrown", "spent": "Spent", "toolong": "InputTooLong"}[result.end]
    code = [result.code] if result.end == "thrown" else []
    return Ending(name, (*code, bytes(result.output)))


def compare_whole(comparison, modules):
    """Compares the builds, and the runs of those that are done."""
    model = comparison.model
    definitions = WholeDefinitions(model, modules)
    for build in BUILDS:
        expected = build_by_model(model, definitions.arithmetic, build)
        comparison.take(f"Build.fresh_build: {build.name}", expected, definitions.build(build))
        for text in build.inputs:
            region = expected.state["region"]
            by_model = run_by_model(model, definitions.arithmetic, region, text, build.turns)
            comparison.take(f"Run.run: {build.name}", by_model, definitions.run(region, text, build.turns))
