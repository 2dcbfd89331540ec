"""Compares the tables and texts of the definitions, and the seed, with what the model has."""

from comparison import Trial
from expressions import forced, items_of, list_of
from model import Ending
from states import REGION_BYTES

THROW_CODES = [*range(-80, 3), 17, 2**63 - 1, -(2**63)]
TEXTS = [b"", b"\n", b"a", b"a\n", b"\n\n", b"a\r\nb\r", b"\r", b"\r\r\n\r\n", b"a\rb\n\r\nc", b"\n\r", b"\r\r"]


def compare_texts(comparison, modules, arithmetics):
    """Compares the tags, the instruction table, the prelude, lines, the texts of throws, and the seed by arithmetic."""
    model = comparison.model

    def take(name, expected, found):
        comparison.take(name, Ending("ok", expected), Ending("ok", found))

    take("Tags.tag_table", model.tables.TAGS, defined_tags(modules.module("Tags").value_of("tag_table")))
    table = items_of(modules.module("Table").value_of("table"))
    actions = [comparison.definitions[word].value() for word in model.words if word in comparison.definitions]
    take("Table.table", list(map(id, actions)), list(map(id, table)))
    take("Prelude.prelude_text", model.tables.PRELUDE, bytes_of(modules.module("Prelude").value_of("prelude_text")))
    for text in [*TEXTS, model.tables.PRELUDE]:
        lines = modules.module("Lines").value_of("lines_of")(list_of(list(text)))
        take("Lines.lines_of", model.machine.split_lines(text), [bytes_of(line) for line in items_of(lines)])
    for code in THROW_CODES:
        text = bytes_of(modules.module("Recovery").value_of("recovery_text")(code))
        take("Recovery.recovery_text", model.seed("plain", REGION_BYTES).recover(code), text)
    for name in arithmetics:
        comparison.compare(seed_trial(model, modules, name))


def bytes_of(text):
    """The bytes of a text of the definitions."""
    return bytes(items_of(text))


def defined_tags(table):
    """The entries of the tag table as the model has them: the name, and whether it is immediate and compile-only."""
    entries = items_of(table)
    return [(bytes_of(entry["name"]), forced(entry["immediate"]), forced(entry["compile_only"])) for entry in entries]


def seed_trial(model, modules, arithmetic):
    """The trial of the seed on an empty region, whose machine has its ip at the interpreter loop from the start."""
    kernel = modules.module("Kernel").value_of("whole_kernel")
    seeded = model.seed(arithmetic, REGION_BYTES)

    def by_model(machine):
        machine.put_bytes(0, seeded.get_bytes(0, REGION_BYTES))

    blank = model.blank(arithmetic, REGION_BYTES)
    return Trial("Seed.seed", blank, by_model, lambda: modules.module("Seed").value_of("seed")(kernel))
