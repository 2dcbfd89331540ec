"""Reads the text of one equation of a definition."""

import re
from contextlib import contextmanager
from dataclasses import dataclass

from expressions import (
    Apply,
    Cases,
    Condition,
    ConstructorPattern,
    DefinitionError,
    Field,
    Function,
    Name,
    NamePattern,
    Number,
    NumberPattern,
    Record,
    Text,
    Tuple,
    TuplePattern,
)

TOKEN = re.compile(
    r"""
    (?P<comment> -- (?=\s|$) .* )
  | (?P<text> " (?: [^"\\] | \\. )* " )
  | (?P<number> \d+ )
  | (?P<field> \.\w+ )
  | (?P<symbol> ← | λ | ↦ | ∷ | \+\+ | == | && | \|\| | >>= | >> | [-+*/%^()\[\]{};,=|.] )
  | ◌ (?P<operator> [^\s◌]+ ) ◌
  | (?P<name> [^\W\d] [\w']* (?: \.\w+ )* )
    """,
    re.VERBOSE,
)
ESCAPED = re.compile(r"\\(.)")
ENDING_WORDS = {"then", "else"}
LOWER_CASE_CONSTRUCTORS = {"zero", "suc", "true", "false", "tt"}


@dataclass(frozen=True)
class Token:
    kind: str
    text: str
    line: int
    column: int
    begins_line: bool


END = Token("end", "", -1, -1, False)


def tokens_of(text):
    """The tokens of a text, without its comments."""
    tokens = []
    for number, line in enumerate(text.split("\n")):
        line = line.rstrip()
        position = column = len(line) - len(line.lstrip())
        while position < len(line):
            found = TOKEN.match(line, position)
            if found is None:
                raise DefinitionError(f"unknown character in {line[position:]!r}")
            kind = found.lastgroup
            if kind != "comment":
                tokens.append(Token(kind, found[kind], number, position, position == column))
            position = found.end()
            while position < len(line) and line[position] == " ":
                position += 1
    return tokens


class Parser:
    """Goes through the tokens of an equation.

    A token that begins a line at the margin or left of it ends an expression, but for the one that a statement
    begins with. The margin is the column of the statements of a `do`, and in brackets there is none.
    """

    def __init__(self, text, fixities):
        self.tokens = tokens_of(text)
        self.fixities = fixities
        self.position = 0
        self.margin = 0
        self.begun_at = 0

    def equation(self):
        """The patterns of the arguments, and what the equation says is equal to them."""
        self.take()
        patterns = []
        while self.peek().text != "=":
            patterns.append(self.pattern())
        self.take("=")
        body = self.expression()
        if self.position != len(self.tokens):
            raise DefinitionError(f"{self.tokens[self.position].text!r} isn't understood")
        return tuple(patterns), body

    # tokens

    def peek(self):
        """The next token, or END where the expression ends."""
        if self.position == len(self.tokens):
            return END
        token = self.tokens[self.position]
        outside = token.begins_line and token.column <= self.margin and self.position != self.begun_at
        return END if outside else token

    def take(self, wanted=None):
        """The next token, which has to be the one that is wanted; the one behind it is then the next."""
        token = self.peek()
        if token is END or wanted not in (None, token.text):
            raise DefinitionError(f"{token.text!r} where {wanted or 'more'!r} has to stand")
        self.position += 1
        return token

    def took(self, text):
        """Takes the next token, if it is this one, and says whether it was."""
        found = self.peek().text == text
        self.position += found
        return found

    @contextmanager
    def margin_at(self, column):
        """Within this the margin is at the column."""
        outer, self.margin = self.margin, column
        yield
        self.margin = outer

    @contextmanager
    def brackets(self, opening, closing):
        """Takes the brackets around what is taken within this."""
        self.take(opening)
        with self.margin_at(-1):
            yield
            self.take(closing)

    # expressions

    def expression(self, least=0):
        """An expression whose operators outside brackets bind at least so tight."""
        left = self.application()
        while True:
            operator = self.peek().text
            strength, right_first = self.fixities.get(operator, (-1, False))
            if strength < least:
                return left
            self.take()
            right = self.expression(strength + (0 if right_first else 1))
            left = Apply(Name(operator), (left, right))

    def application(self):
        """A function with its arguments, or an atom alone."""
        function = self.atom()
        arguments = []
        while self.begins_atom(self.peek()):
            arguments.append(self.atom())
        return Apply(function, tuple(arguments)) if arguments else function

    def begins_atom(self, token):
        if token.kind == "name":
            return token.text not in ENDING_WORDS and token.text not in self.fixities
        return token.kind in ("number", "text") or token.text in ("(", "[", "λ")

    def atom(self):
        """A number, a text, a name with its fields, a form that a word begins, or an expression in brackets."""
        forms = {
            "λ": self.function,
            "(": self.in_parentheses,
            "[": self.empty_list,
            "if": self.condition,
            "elim": self.cases,
            "record": self.record,
            "do": self.block,
        }
        token = self.peek()
        if token.text in forms:
            return forms[token.text]()
        self.take()
        if token.kind == "number":
            return Number(int(token.text))
        if token.kind == "text":
            return Text(ESCAPED.sub(r"\1", token.text[1:-1]))
        if token.kind not in ("name", "operator"):
            raise DefinitionError(f"{token.text!r} begins no expression")
        name, *fields = token.text.split(".")
        expression = Name(name)
        for field in fields:
            expression = Field(expression, field)
        return expression

    def function(self):
        self.take("λ")
        patterns = []
        while not self.took("."):
            patterns.append(self.pattern())
        body = self.expression()
        for pattern in reversed(patterns):
            body = Function(pattern, body)
        return body

    def in_parentheses(self):
        with self.brackets("(", ")"):
            parts = [self.expression()]
            while self.took(","):
                parts.append(self.expression())
        expression = parts[0] if len(parts) == 1 else Tuple(tuple(parts))
        while self.peek().kind == "field":
            expression = Field(expression, self.take().text[1:])
        return expression

    def empty_list(self):
        self.take("[")
        self.take("]")
        return Name("[]")

    def condition(self):
        self.take("if")
        test = self.expression()
        self.take("then")
        then = self.expression()
        self.take("else")
        return Condition(test, then, self.expression())

    def cases(self):
        self.take("elim")
        subject = self.atom()
        alternatives = []
        with self.brackets("[", "]"):
            while True:
                pattern = self.applied_pattern()
                self.take("↦")
                alternatives.append((pattern, self.expression()))
                if not self.took("|"):
                    break
        return Cases(subject, tuple(alternatives))

    def record(self):
        self.take("record")
        base = None if self.peek().text == "{" else self.atom()
        fields = []
        with self.brackets("{", "}"):
            while self.peek().text != "}":
                name = self.take().text
                self.take("=")
                fields.append((name, self.expression()))
                self.took(";")
        return Record(base, tuple(fields))

    # statements

    def block(self):
        """The statements behind `do`, joined by the operators >>= and >>."""
        self.take("do")
        statements = []
        with self.margin_at(self.column_here()):
            while self.begins_statement():
                self.begun_at = self.position
                statements.append(self.statement())
        if not statements:
            raise DefinitionError("no statement stands behind do")
        (_, whole), *earlier = reversed(statements)
        for pattern, first in earlier:
            if pattern is None:
                whole = Apply(Name(">>"), (first, whole))
            else:
                whole = Apply(Name(">>="), (first, Function(pattern, whole)))
        return whole

    def column_here(self):
        return self.tokens[self.position].column if self.position < len(self.tokens) else 0

    def begins_statement(self):
        """Does the next token begin a line at the margin."""
        if self.position == len(self.tokens):
            return False
        token = self.tokens[self.position]
        return token.begins_line and token.column == self.margin

    def statement(self):
        """The pattern in front of an arrow, or None, and the expression."""
        if not self.has_arrow():
            return None, self.expression()
        lone = self.tokens[self.position + 1].text == "←"
        pattern = NamePattern(self.take().text) if lone else self.pattern()
        self.take("←")
        return pattern, self.expression()

    def has_arrow(self):
        """Does an arrow stand in the line, in front of any statement or function within the line."""
        line = self.tokens[self.position].line
        for token in self.tokens[self.position :]:
            if token.line != line or token.text in ("do", "λ"):
                return False
            if token.text == "←":
                return True
        return False

    # patterns

    def pattern(self):
        """A name, a number, or a pattern in brackets."""
        if self.peek().text == "(":
            with self.brackets("(", ")"):
                return self.pattern_in_brackets()
        if self.took("["):
            self.take("]")
            return ConstructorPattern("[]")
        token = self.take()
        if token.kind == "number":
            return NumberPattern(int(token.text))
        if token.text[0].isupper() or token.text in LOWER_CASE_CONSTRUCTORS:
            return ConstructorPattern(token.text)
        return NamePattern(token.text)

    def applied_pattern(self):
        """A constructor with the patterns of its arguments, or another pattern."""
        first = self.pattern()
        arguments = []
        while self.peek().text not in (")", ",", "∷", "↦"):
            arguments.append(self.pattern())
        return ConstructorPattern(first.name, tuple(arguments)) if arguments else first

    def pattern_in_brackets(self):
        """What stands in brackets: a pattern, the front and the rest of a list, or the parts of a product."""
        first = self.applied_pattern()
        if self.took("∷"):
            return ConstructorPattern("∷", (first, self.pattern_in_brackets()))
        parts = [first]
        while self.took(","):
            parts.append(self.applied_pattern())
        return first if len(parts) == 1 else TuplePattern(tuple(parts))
