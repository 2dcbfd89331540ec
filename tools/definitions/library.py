"""What the definitions use of the standard library: numbers, truth values and lists, and how tight operators bind."""

from expressions import DefinitionError, delayed_items, forced, items_of, list_of

WORD_BITS = 64

# how tight an operator binds, and whether of two the right one comes first
FIXITIES = {
    "^": (75, True),
    "*": (70, False),
    "/": (70, False),
    "%": (70, False),
    "∷": (67, True),
    "+": (65, False),
    "-": (65, False),
    "++": (65, False),
    "==": (40, False),
    "&&": (35, False),
    "||": (30, False),
}


def of_one(function):
    """A function of a value, as one of a value that may not be computed yet."""
    return lambda value: function(forced(value))


def of_two(function):
    """A function of two values, as one that takes them one after the other."""
    return lambda first: lambda second: function(forced(first), forced(second))


def chosen(test):
    """The first of two where the test holds, and else the second; the other one isn't computed."""
    return lambda first: lambda second: forced(first if forced(test) else second)


def cast_signed(bits, number):
    """The number read as a signed one of so many bits."""
    return number - (1 << bits) if number >> (bits - 1) else number


def item_or(items):
    """A function of an index and a value: the item of the list at the index, or the value where there is none."""

    def at(index):
        def found(default):
            rest = forced(items)
            for _ in range(forced(index)):
                if rest.name == "[]":
                    break
                rest = forced(rest.arguments[1])
            return forced(default if rest.name == "[]" else rest.arguments[0])

        return found

    return at


def item_at(items, index):
    """The item of a list at an index, which it has."""
    listed = items_of(items)
    if index >= len(listed):
        raise DefinitionError(f"index {index} of a list of {len(listed)}")
    return listed[index]


VALUES = {
    "zero": 0,
    "true": True,
    "false": False,
    "w64": WORD_BITS,
    "suc": of_one(lambda number: number + 1),
    "negsuc": of_one(lambda number: -number - 1),
    "+": of_two(lambda first, second: first + second),
    "-": of_two(lambda first, second: max(0, first - second)),
    "*": of_two(lambda first, second: first * second),
    "/": of_two(lambda first, second: first // second if second else 0),
    "%": of_two(lambda first, second: first % second if second else first),
    "^": of_two(lambda first, second: first**second),
    "min": of_two(min),
    "max": of_two(max),
    "==": of_two(lambda first, second: first == second),
    "nat_le": of_two(lambda first, second: first <= second),
    "nat_lt": of_two(lambda first, second: first < second),
    "not": of_one(lambda truth: not truth),
    "&&": lambda first: lambda second: forced(first) and forced(second),
    "||": lambda first: lambda second: forced(first) or forced(second),
    "cond": chosen,
    "is_some": of_one(lambda option: option.name == "Some"),
    "++": lambda first: lambda second: forced(list_of(delayed_items(first), second)),
    "length": lambda items: len(delayed_items(items)),
    "take": lambda count: lambda items: list_of(delayed_items(items)[: forced(count)]),
    "get_or": item_or,
    "codes": of_one(lambda text: list_of([ord(character) for character in text])),
    "signed_decimal": of_one(lambda number: list_of(list(str(number).encode()))),
    "int_eq": of_two(lambda first, second: first == second),
    "slice_index": of_two(item_at),
    "cast_signed": of_two(cast_signed),
}
