"""The expressions of the definitions, and their values.

A number is an int, a truth value a bool, a text a str, a pair or a longer product a tuple, a record a dict of its
fields, and a function a callable of one argument, whose value is computed when it is called. Every other value is
`Constructed`. An argument is computed when it is needed for the first time, since the definitions pass on what they
may never use.
"""

from dataclasses import dataclass


class DefinitionError(Exception):
    """A definition that can't be read, or has no value."""


class Delayed:
    """The value of an expression, computed when it is needed."""

    __slots__ = ("expression", "scope", "value")

    def __init__(self, expression, scope):
        self.expression = expression
        self.scope = scope

    def computed(self):
        """The value, computed on the first call."""
        if self.scope is not None:
            self.value = self.expression.value_in(self.scope)
            self.scope = None
        return self.value


def forced(value):
    """The value itself, where it may be one that is delayed."""
    return value.computed() if isinstance(value, Delayed) else value


class Constructed:
    """A constructor with the arguments that it has so far."""

    __slots__ = ("name", "arguments")

    def __init__(self, name, arguments=()):
        self.name = name
        self.arguments = arguments

    def __call__(self, argument):
        return Constructed(self.name, self.arguments + (argument,))

    def __repr__(self):
        return " ".join([self.name, *(f"({forced(argument)!r})" for argument in self.arguments)])


NOTHING = Constructed("None")
EMPTY = Constructed("[]")


def some(value):
    """The option that has this value, or none for None."""
    return NOTHING if value is None else Constructed("Some", (value,))


def list_of(values, rest=EMPTY):
    """These values as a list of the definitions, with the rest behind them."""
    for value in reversed(values):
        rest = Constructed("∷", (value, rest))
    return rest


def delayed_items(chain):
    """The items of a list of the definitions, each perhaps not computed yet."""
    items = []
    chain = forced(chain)
    while chain.name == "∷":
        items.append(chain.arguments[0])
        chain = forced(chain.arguments[1])
    return items


def items_of(chain):
    """The items of a list of the definitions."""
    return [forced(item) for item in delayed_items(chain)]


def taken_apart(value):
    """The constructor of a value and its arguments; those of numbers are zero and suc."""
    if isinstance(value, bool):
        return ("true" if value else "false"), ()
    if isinstance(value, int):
        return ("suc", (value - 1,)) if value else ("zero", ())
    return value.name, value.arguments


# Patterns. `match` says whether a value has the form of the pattern, and adds what the names in it stand for.


def match_all(patterns, values, found):
    """Does each of the values have the form of its pattern; the first that hasn't ends this."""
    for pattern, value in zip(patterns, values):
        if not pattern.match(value, found):
            return False
    return True


@dataclass(frozen=True)
class NamePattern:
    name: str

    def match(self, value, found):
        found[self.name] = value
        return True


@dataclass(frozen=True)
class NumberPattern:
    number: int

    def match(self, value, found):
        return forced(value) == self.number


@dataclass(frozen=True)
class TuplePattern:
    parts: tuple

    def match(self, value, found):
        return match_all(self.parts, forced(value), found)


@dataclass(frozen=True)
class ConstructorPattern:
    name: str
    parts: tuple = ()

    def match(self, value, found):
        name, arguments = taken_apart(forced(value))
        return name == self.name and match_all(self.parts, arguments, found)


class Scope:
    """What names stand for: local values, and the definitions of a module."""

    __slots__ = ("module", "local_values")

    def __init__(self, module, local_values):
        self.module = module
        self.local_values = local_values

    def matched(self, pattern, value):
        """The scope with the names of the pattern too, or None where the value hasn't its form."""
        if isinstance(pattern, NamePattern):
            return Scope(self.module, {**self.local_values, pattern.name: value})
        found = dict(self.local_values)
        return Scope(self.module, found) if pattern.match(value, found) else None


class Equations:
    """A function that is defined by equations, of which the first counts whose patterns match."""

    def __init__(self, name, module, equations):
        self.name = name
        self.module = module
        self.equations = equations
        self.arity = len(equations[0][0])

    def __call__(self, argument):
        return self.applied_to((argument,)) if self.arity == 1 else self.taking((argument,))

    def taking(self, arguments):
        """The function of the arguments that come after these."""

        def take(argument):
            taken = (*arguments, argument)
            return self.applied_to(taken) if len(taken) == self.arity else self.taking(taken)

        return take

    def applied_to(self, arguments):
        for patterns, body in self.equations:
            found = {}
            if match_all(patterns, arguments, found):
                return body.value_in(Scope(self.module, found))
        raise DefinitionError(f"no equation of {self.name} matches")


class Expression:
    """An expression; `value_in` is its value, and `delayed_in` the same, perhaps not computed yet."""

    def delayed_in(self, scope):
        return Delayed(self, scope)


@dataclass(frozen=True)
class Number(Expression):
    number: int

    def value_in(self, scope):
        return self.number

    def delayed_in(self, scope):
        return self.number


@dataclass(frozen=True)
class Text(Expression):
    text: str

    def value_in(self, scope):
        return self.text

    def delayed_in(self, scope):
        return self.text


@dataclass(frozen=True)
class Name(Expression):
    name: str

    def value_in(self, scope):
        if self.name in scope.local_values:
            return forced(scope.local_values[self.name])
        return scope.module.value_of(self.name)

    def delayed_in(self, scope):
        if self.name in scope.local_values:
            return scope.local_values[self.name]
        if self.name in scope.module.values:
            return scope.module.values[self.name]
        return Delayed(self, scope)


@dataclass(frozen=True)
class Apply(Expression):
    function: Expression
    arguments: tuple

    def value_in(self, scope):
        value = self.function.value_in(scope)
        arguments = [argument.delayed_in(scope) for argument in self.arguments]
        if isinstance(value, Equations) and value.arity == len(arguments):
            return value.applied_to(arguments)
        for argument in arguments:
            value = value(argument)
        return value


@dataclass(frozen=True)
class Function(Expression):
    pattern: object
    body: Expression

    def value_in(self, scope):
        return lambda argument: self.body.value_in(scope.matched(self.pattern, argument))


@dataclass(frozen=True)
class Tuple(Expression):
    parts: tuple

    def value_in(self, scope):
        return tuple(part.delayed_in(scope) for part in self.parts)


@dataclass(frozen=True)
class Condition(Expression):
    test: Expression
    then: Expression
    otherwise: Expression

    def value_in(self, scope):
        chosen = self.then if self.test.value_in(scope) else self.otherwise
        return chosen.value_in(scope)


@dataclass(frozen=True)
class Cases(Expression):
    """The alternative, a pattern and an expression, whose pattern matches first."""

    subject: Expression
    alternatives: tuple

    def value_in(self, scope):
        subject = self.subject.value_in(scope)
        for pattern, expression in self.alternatives:
            inner = scope.matched(pattern, subject)
            if inner is not None:
                return expression.value_in(inner)
        raise DefinitionError(f"no alternative for {subject!r}")


@dataclass(frozen=True)
class Record(Expression):
    """A record with these fields, and the other fields of another record, if there is one."""

    base: Expression | None
    fields: tuple

    def value_in(self, scope):
        record = dict(self.base.value_in(scope)) if self.base else {}
        record.update((name, expression.delayed_in(scope)) for name, expression in self.fields)
        return record


@dataclass(frozen=True)
class Field(Expression):
    """A field of a record, or the part of a product that has this number."""

    whole: Expression
    field: str

    def value_in(self, scope):
        whole = self.whole.value_in(scope)
        return forced(whole[int(self.field)] if self.field.isdigit() else whole[self.field])
