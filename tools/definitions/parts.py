"""Compares what the machine does beside the actions of words, on random states: an instruction, giving a line or the
end of the input, the recovery after a throw, the finish of a build, and where a run begins."""

from comparison import Trial
from expressions import NOTHING, list_of, some
from states import REGION_BYTES, SCRATCH, STACK_ITEMS, RandomState

INSTRUCTION = "Table.step"
WAITS = ["line", "refill", "accept"]
LINE_LENGTHS = [0, 1, 5, 30, 80, 1020, 1021, 1021]
ACCEPTED_COUNTS = [0, 0, 1, 5, 80, 1019, 1020, 3000]
ENTRIES = [None, None, b"DUP", b"dup", b"(DOVAR)", b"none", b"", b"none" * 9]
THROWN_CODE = -13
TAGS = 120
CODE_BYTES = 16


class Parts:
    """The trials of these parts, each made from a random state."""

    def __init__(self, model, modules):
        self.model = model
        self.modules = modules
        self.makers = {
            INSTRUCTION: self.instruction,
            "Input.give_line": self.line,
            "Input.give_end": self.end,
            "Recovery.recover": self.recovery,
            "Finish.finish": self.finish,
            "Run.start_entry": self.entry,
        }

    def trial(self, name, seed, random):
        """A trial of the part of this name; its state is made from the seed."""
        word = random.choice(self.model.words) if name == INSTRUCTION else None
        state = RandomState(self.model, seed, random, word)
        by_model, action = self.makers[name](state, word)
        return Trial(name, state.machine, by_model, action)

    def defined(self, module, name):
        """The value of a definition."""
        return self.modules.module(module).value_of(name)

    def instruction(self, state, word):
        put_instruction(state, self.model.tag_of(word))
        kernel = self.defined("Kernel", "whole_kernel")
        return (lambda machine: machine.step()), (lambda: self.defined("Table", "step")(kernel))

    def line(self, state, word):
        put_wait(state, state.random.choice(WAITS))
        line = state.random.randbytes(state.random.choice(LINE_LENGTHS))
        give_line = self.defined("Input", "give_line")
        return (lambda machine: machine.give_line(line)), (lambda: give_line(list_of(list(line))))

    def end(self, state, word):
        put_wait(state, state.random.choice(WAITS))
        return end_by_model, (lambda: self.defined("Input", "give_end"))

    def recovery(self, state, word):
        state.machine.due = state.random.choice([None, state.cell()])
        put_wait(state, state.random.choice([None, *WAITS]))
        return recovery_by_model, (lambda: self.defined("Recovery", "recover"))

    def finish(self, state, word):
        entry = state.random.choice(ENTRIES)
        if state.chance(0.7):
            state.put(self.model.machine.STATE, 0)
        name = NOTHING if entry is None else some(list_of(list(entry)))
        return (lambda machine: finish_by_model(machine, entry)), (lambda: self.defined("Finish", "finish")(name))

    def entry(self, state, word):
        state.put(self.model.machine.ENTRY, state.random.choice([0, state.address(), state.cell()]))
        return entry_by_model, (lambda: self.defined("Run", "start_entry"))


# the model's side of a part


def end_by_model(machine):
    machine.give_end()
    return ("halt",) if machine.halted else None


def recovery_by_model(machine):
    machine.recover(THROWN_CODE)


def finish_by_model(machine, entry):
    used = machine.finish(entry)
    return ("noentry",) if used is None else ("ready", used)


def entry_by_model(machine):
    machine.start_entry()
    return machine.due is not None


# states


def put_instruction(state, tag):
    """A token is due or stands at ip: mostly the one of the state, which has the tag's code, or that of the tag."""
    machine, random = state.machine, state.random
    token = random.choice([state.token, state.address_of(state.layout.token_of(tag))])
    place = machine.a.place(token) if token == state.token and state.chance(0.9) else None
    if place in SCRATCH:
        state.put(place, code_of(state, tag))
    if state.chance(0.5):
        machine.due = token
    elif state.chance(0.9):
        ip = random.choice(SCRATCH)
        state.put(ip, token)
        machine.ip = state.address_of(ip)


def code_of(state, tag):
    """The address of the tag's code, or that of no tag's code."""
    code = state.machine.a.code_cell(tag)
    if state.chance(0.8):
        return code
    unknown = [state.machine.a.code_cell(TAGS), state.machine.a.add(code, CODE_BYTES // 2), tag, state.cell()]
    return state.random.choice(unknown)


def put_wait(state, wait):
    """The machine waits for this, as it does only where there is room for what is pushed then."""
    machine, random = state.machine, state.random
    del machine.ds[STACK_ITEMS - 1 :]
    if wait == "accept":
        count = random.choice(ACCEPTED_COUNTS)
        address = state.address_of(random.randrange(REGION_BYTES - count + 1)) if count else state.cell()
        wait = (wait, address, count)
    machine.wait = wait
