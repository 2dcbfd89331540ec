"""Finds the actions that are defined for words, and runs an action on a machine of the slow model."""

from dataclasses import dataclass

from expressions import Constructed, forced, items_of, some
from model import RETURN_OVERFLOW, RETURN_UNDERFLOW, STACK_OVERFLOW, STACK_UNDERFLOW
from reader import Module

STACK_ITEMS = 4096
CELL_BYTES = 8
CELL_MASK = 2**64 - 1
INVALID_ADDRESS, DIVISION_BY_ZERO, RESULT_OUT_OF_RANGE = -9, -10, -11
SOURCE_POSITION = 24  # the offset of the cell >IN

TWO = {
    "Add": "add",
    "Sub": "sub",
    "Mul": "mul",
    "And": "and_",
    "Or": "or_",
    "Xor": "xor",
    "LeftShift": "lshift",
    "RightShift": "rshift",
}
ONE = {"Negate": "negate", "Invert": "invert", "Half": "half"}
TESTS = {"Equal": "equal", "Less": "less", "Below": "below"}
DIVISIONS = {"Unsigned": "um_div", "Symmetric": "sm_div", "Floored": "fm_div"}


class ActionError(Exception):
    """An action does what no action may, such as a write outside the region."""


@dataclass(frozen=True)
class DefinedAction:
    """The name of the definition of a word's action, and the file that it is in."""

    module: Module
    name: str

    def __str__(self):
        return f"{self.module.name}.{self.name}"

    def value(self):
        return self.module.value_of(self.name)


def defined_actions(modules, words):
    """The actions of these words by word; the comment above the definition of an action begins with its word."""
    found = {}
    for module in modules:
        for signature in module.signatures:
            if not signature.name.startswith("do_") or signature.type != "Action Effects":
                continue
            first = signature.comment.split(" ")[0]
            word = first if first in words else first.rstrip(":,.")
            if word in words:
                found[word] = DefinedAction(module, signature.name)
    return found


class ActionRun:
    """One run of an action on a machine of the model, which it changes.

    Each method `step_X` does the step X of an action, and gives the rest of the action. The cells and the memory are
    those of the model's machine, so a step may raise the model's Throw or Refused. `has_written` says whether a stack
    or the region has changed, but for the cell >IN, which the machine puts back after a throw.
    """

    def __init__(self, model, machine, names=()):
        self.model = model
        self.machine = machine
        self.arithmetic = machine.a
        self.names = list(names)
        self.callers = []
        self.has_written = False

    def result_of(self, action):
        """Does the action and gives its answer."""
        while True:
            step = forced(action)
            if step.name != "Give":
                action = self.rest_behind(step)
            elif self.callers:
                rest, self.names = self.callers.pop()
                action = rest(step.arguments[0])
            else:
                return forced(step.arguments[0])

    def rest_behind(self, step):
        """Does one step and gives the rest of the action."""
        method = getattr(self, f"step_{step.name}", None)
        if method is None:
            raise ActionError(f"unknown step {step.name}")
        return method(*step.arguments)

    # cells

    def cell_of(self, operand):
        """The value of an operand."""
        operand = forced(operand)
        arguments = [forced(argument) for argument in operand.arguments]
        match operand.name, *arguments:
            case "Named", index:
                return self.names[index] if index < len(self.names) else 0
            case "At", offset:
                return self.machine.get(self.cell_within(offset))
            case "Ip",:
                return self.machine.ip
            case "Plain", number:
                return number & CELL_MASK
            case "Address", offset:
                return self.arithmetic.region_cell(offset)
            case "CodeAddress", tag:
                return self.arithmetic.code_cell(tag)
            case "Of", operation, first, second:
                operate = getattr(self.arithmetic, TWO[operation.name])
                return operate(self.cell_of(first), self.cell_of(second))
        raise ActionError(f"unknown operand {operand.name}")

    def cells_of(self, operands):
        return [self.cell_of(operand) for operand in items_of(operands)]

    def named(self, rest, *cells):
        """The rest, which is given names for these cells."""
        for cell in cells:
            rest = forced(rest)(Constructed("Named", (len(self.names),)))
            self.names.append(cell)
        return rest

    def item_of(self, stack, above):
        """The item that has so many above it, or 0 where there is none."""
        return stack[-1 - above] if above < len(stack) else 0

    # tests

    def bytes_within(self, offset, count):
        """The offset, where so many bytes from it on are in the region."""
        if offset + count > self.machine.size:
            raise ActionError(f"{count} bytes at {offset} aren't in the region")
        return offset

    def cell_within(self, offset):
        """The offset, where a whole cell of the region is there."""
        if offset % CELL_BYTES:
            raise ActionError(f"no cell is at offset {offset}")
        return self.bytes_within(offset, CELL_BYTES)

    def require(self, test, code):
        if not test:
            raise self.model.Throw(code)

    def test_stacks(self, ins, outs, return_ins, return_outs):
        """Throws where the stacks have too few items, or too many when the results are there."""
        items, return_items = len(self.machine.ds), len(self.machine.rs)
        self.require(items >= ins, STACK_UNDERFLOW)
        self.require(return_items >= return_ins, RETURN_UNDERFLOW)
        self.require(items - ins + outs <= STACK_ITEMS, STACK_OVERFLOW)
        self.require(return_items - return_ins + return_outs <= STACK_ITEMS, RETURN_OVERFLOW)

    # steps of stacks

    def step_Throws(self, code):
        raise self.model.Throw(forced(code))

    def step_Needs(self, ins, outs, return_ins, return_outs, rest):
        self.test_stacks(forced(ins), forced(outs), forced(return_ins), forced(return_outs))
        return rest

    def step_Takes(self, ins, outs, return_ins, return_outs, rest):
        ins, return_ins = forced(ins), forced(return_ins)
        self.test_stacks(ins, forced(outs), return_ins, forced(return_outs))
        first = len(self.names)
        self.names += self.machine.ds[len(self.machine.ds) - ins :]
        self.names += self.machine.rs[len(self.machine.rs) - return_ins :]
        return forced(rest)(first)

    def step_Drop(self, count, return_count, rest):
        self.has_written = True
        for stack, dropped in ((self.machine.ds, forced(count)), (self.machine.rs, forced(return_count))):
            del stack[max(0, len(stack) - dropped) :]
        return rest

    def step_Push(self, operand, rest):
        self.machine.ds.append(self.cell_of(operand))
        self.has_written = True
        return rest

    def step_RPush(self, operand, rest):
        self.machine.rs.append(self.cell_of(operand))
        self.has_written = True
        return rest

    def step_Empty(self, rest):
        self.machine.ds.clear()
        self.machine.rs.clear()
        self.has_written = True
        return rest

    def step_EmptyReturn(self, rest):
        self.machine.rs.clear()
        self.has_written = True
        return rest

    def step_Depth(self, rest):
        return forced(rest)(len(self.machine.ds))

    def step_Item(self, above, rest):
        return self.named(rest, self.item_of(self.machine.ds, forced(above)))

    def step_RItem(self, above, rest):
        return self.named(rest, self.item_of(self.machine.rs, forced(above)))

    # steps of cells

    def step_Name(self, operand, rest):
        return self.named(rest, self.cell_of(operand))

    def step_Single(self, operation, operand, rest):
        operate = getattr(self.arithmetic, ONE[forced(operation).name])
        return self.named(rest, operate(self.cell_of(operand)))

    def step_Product(self, first, second, rest):
        low, high = self.arithmetic.um_mul(self.cell_of(first), self.cell_of(second))
        return self.named(rest, low, high)

    def step_Divide(self, division, low, high, by, rest):
        divide = getattr(self.arithmetic, DIVISIONS[forced(division).name])
        cells = [self.cell_of(operand) for operand in (low, high, by)]
        try:
            remainder, quotient = divide(*cells)
        except self.model.ByZero:
            raise self.model.Throw(DIVISION_BY_ZERO) from None
        except self.model.OutOfRange:
            raise self.model.Throw(RESULT_OUT_OF_RANGE) from None
        return self.named(rest, remainder, quotient)

    def step_Check(self, test, first, second, rest):
        holds = getattr(self.arithmetic, TESTS[forced(test).name])
        return forced(rest)(bool(holds(self.cell_of(first), self.cell_of(second))))

    def step_Ask(self, question, operand, rest):
        return forced(rest)(self.answer_to(forced(question), self.cell_of(operand)))

    def answer_to(self, question, cell):
        """The answer of a cell to a question, which is a number."""
        match question.name:
            case "Offset":
                offset = self.arithmetic.place(cell)
                self.require(offset is not None, INVALID_ADDRESS)
                return offset
            case "CellAt":
                return self.machine.cell_place(cell)
            case "ByteAt":
                return self.machine.range_place(cell, 1)
            case "RangeOf":
                return self.machine.range_place(cell, forced(question.arguments[0])) or 0
            case "Number":
                return self.arithmetic.number(cell)
            case "LowByte":
                return self.arithmetic.low_byte(cell)
            case "ByteOf":
                return self.machine.fetch_byte(cell)
        raise ActionError(f"unknown question {question.name}")

    def step_Tag(self, operand, rest):
        return forced(rest)(some(self.arithmetic.tag(self.cell_of(operand))))

    # steps of memory

    def step_Size(self, rest):
        return forced(rest)(self.machine.size)

    def step_Fetch(self, operand, rest):
        return self.named(rest, self.machine.fetch(self.cell_of(operand)))

    def step_FetchByteAt(self, offset, rest):
        return forced(rest)(self.machine.byte_value(self.bytes_within(forced(offset), 1)))

    def step_PutCell(self, offset, operand, rest):
        offset = self.cell_within(forced(offset))
        self.machine.put(offset, self.cell_of(operand))
        self.has_written |= offset != SOURCE_POSITION
        return rest

    def step_PutByte(self, offset, byte, rest):
        self.machine.put_byte(self.bytes_within(forced(offset), 1), forced(byte))
        self.has_written = True
        return rest

    def step_Move(self, origin, target, count, rest):
        count = forced(count)
        if count:
            origin = self.bytes_within(forced(origin), count)
            target = self.bytes_within(forced(target), count)
            self.machine.put_bytes(target, self.machine.get_bytes(origin, count))
            self.has_written = True
        return rest

    def step_Fill(self, offset, count, byte, rest):
        count = forced(count)
        if count:
            self.machine.fill_bytes(self.bytes_within(forced(offset), count), count, forced(byte))
            self.has_written = True
        return rest

    def step_PutText(self, offset, text, rest):
        text = items_of(text)
        if any(byte > 255 for byte in text):
            raise ActionError("a text has what is no byte")
        if text:
            self.machine.put_bytes(self.bytes_within(forced(offset), len(text)), bytes(text))
            self.has_written = True
        return rest

    # steps of control

    def step_SetIp(self, operand, rest):
        self.machine.ip = self.cell_of(operand)
        return rest

    def step_TakeDue(self, rest):
        due, self.machine.due = self.machine.due, None
        if due is None:
            return forced(rest)(some(None))
        self.names.append(due)
        return forced(rest)(some(Constructed("Named", (len(self.names) - 1,))))

    def step_SetDue(self, operand, rest):
        self.machine.due = self.cell_of(operand)
        return rest

    def step_SetWait(self, wait, rest):
        wait = forced(wait)
        if wait.name == "Accept":
            address, count = wait.arguments
            self.machine.wait = ("accept", self.cell_of(address), forced(count))
        else:
            self.machine.wait = {"Idle": None, "Line": "line", "Refill": "refill"}[wait.name]
        return rest

    def step_TakeWait(self, rest):
        wait, self.machine.wait = self.machine.wait, None
        match wait:
            case ("accept", address, count):
                self.names.append(address)
                taken = Constructed("Accept", (Constructed("Named", (len(self.names) - 1,)), count))
            case _:
                taken = Constructed({None: "Idle", "line": "Line", "refill": "Refill"}[wait])
        return forced(rest)(taken)

    def step_Call(self, part, operands, rest):
        cells = self.cells_of(operands)
        self.callers.append((forced(rest), self.names))
        self.names = cells
        return part

    def step_Again(self, operands, rest):
        self.names = self.cells_of(operands)
        return rest
