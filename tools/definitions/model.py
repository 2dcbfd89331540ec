"""The slow model of the machine, which was written without the definitions."""

import importlib
import sys
from dataclasses import dataclass

STACK_OVERFLOW, STACK_UNDERFLOW, RETURN_OVERFLOW, RETURN_UNDERFLOW = -3, -4, -5, -6
STAGE = 20  # the stage of the model at which it has every word
GRID = 4096
PAIR = (0x200000000, 0x500000000000)


@dataclass(frozen=True)
class Ending:
    """How an action ended: `kind` is ok, refused or a throw, and `state` is the machine after one that is ok."""

    kind: str
    detail: object = None
    state: dict | None = None


class Model:
    """The model's module, and what a comparison asks of it."""

    def __init__(self, folder):
        sys.path.insert(0, str(folder))
        self.machine = importlib.import_module("machine")
        self.tables = importlib.import_module("tables")
        sys.path.remove(str(folder))
        self.words = [name.decode() for name, _, _ in self.tables.TAGS]
        self.Throw, self.Refused = self.machine.Throw, self.machine.Refused
        self.ByZero, self.OutOfRange = self.machine.ByZero, self.machine.OutOfRange

    def tag_of(self, word):
        return self.words.index(word)

    def arithmetic(self, name, region_bytes):
        """The arithmetic of this name, plain or origin."""
        if name == "plain":
            return self.machine.Plain(PAIR, region_bytes)
        return self.machine.Origin(region_bytes, GRID)

    def blank(self, arithmetic, region_bytes):
        """A machine on a region of zeros."""
        return self.machine.Machine(self.arithmetic(arithmetic, region_bytes), STAGE)

    def machine_on(self, arithmetic, region):
        """A machine on a region of these bytes."""
        machine = self.machine.Machine(arithmetic, STAGE)
        machine.put_bytes(0, region)
        return machine

    def seed(self, arithmetic, region_bytes):
        """A machine that has done nothing."""
        return self.machine.seed(self.arithmetic(arithmetic, region_bytes), STAGE)

    def kernel(self, arithmetic, region_bytes):
        """A machine that has every word of the kernel, and waits for a line."""
        return self.machine.kernel(self.arithmetic(arithmetic, region_bytes), STAGE)

    def ending_of(self, work, machine):
        """How this work on a machine ended, which gives an effect of the model."""
        try:
            effect = work()
        except self.Throw as thrown:
            return Ending(f"throw {thrown.code}")
        except self.Refused as refused:
            return Ending("refused", (refused.first, refused.second, refused.why))
        return Ending("ok", effect, state_of(machine))

    def instruction(self, machine, word, token):
        """Does the word's instruction as the model's machine does it when it runs the token, and gives the effect."""
        tag = self.tag_of(word)
        ins, outs, return_ins, return_outs = self.machine.EFFECTS[tag]
        items, return_items = len(machine.ds), len(machine.rs)
        if items < ins:
            raise self.Throw(STACK_UNDERFLOW)
        if return_items < return_ins:
            raise self.Throw(RETURN_UNDERFLOW)
        if outs > ins and items - ins + outs > self.machine.STACK:
            raise self.Throw(STACK_OVERFLOW)
        if return_outs > return_ins and return_items - return_ins + return_outs > self.machine.STACK:
            raise self.Throw(RETURN_OVERFLOW)
        machine.undo_in = None
        return machine.actions[tag](token)


def state_of(machine):
    """All that an action may change; cells that aren't plain are told apart by their bytes."""
    region = bytearray(machine.mem)
    forms = {}
    for cell in machine.odd:
        begin, end = 8 * cell, 8 * cell + 8
        content = [machine.get_byte(offset) for offset in range(begin, end)]
        if all(isinstance(byte, int) for byte in content):
            region[begin:end] = bytes(content)
        else:
            region[begin:end] = bytes(8)
            forms[begin] = content
    return {
        "region": bytes(region),
        "forms": forms,
        "stack": list(machine.ds),
        "return stack": list(machine.rs),
        "ip": machine.ip,
        "due": machine.due,
        "wait": machine.wait,
    }
