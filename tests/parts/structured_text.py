"""Reads and runs the part of structured text (IEC 61131-3) that tools/header writes: function blocks of numbers of 32
bits and of truth values, arrays of them, assignments, IF, FOR, WHILE, RETURN. Knows nothing of tools/. A number out of
its type's range, an index out of its array's and a name that isn't declared are faults."""

import re

TOKEN = re.compile(r"\s+|\(\*.*?\*\)|(:=|<=|>=|<>|\.\.|[A-Za-z_][A-Za-z0-9_]*|[0-9]+|[-+*/()<>=,;:\[\]])", re.DOTALL)
RANGES = {"DINT": (-(2**31), 2**31 - 1), "UINT": (0, 2**16 - 1), "USINT": (0, 255), "BOOL": (0, 1)}
BINARY = [("OR",), ("AND",), ("=", "<>"), ("<", ">", "<=", ">="), ("+", "-"), ("*", "/", "MOD")]


class Fault(Exception):
    """What is wrong with a text, or with a run of it."""


class Return(Exception):
    """A RETURN was met."""


def tokens_of(text):
    tokens, at = [], 0
    while at < len(text):
        found = TOKEN.match(text, at)
        if not found:
            raise Fault(f"no token at {text[at:at + 30]!r}")
        tokens += [found[1]] if found[1] else []
        at = found.end()
    return tokens


class Reader:
    def __init__(self, text):
        self.tokens, self.at = tokens_of(text), 0

    def peek(self):
        return self.tokens[self.at] if self.at < len(self.tokens) else None

    def take(self, *due):
        token = self.peek()
        if token is None or due and token not in due:
            raise Fault(f"token {self.at}: {token!r} where one of {due} is due")
        self.at += 1
        return token

    def has(self, word):
        if self.peek() == word:
            self.at += 1
            return True
        return False

    def block(self):
        self.take("FUNCTION_BLOCK")
        name, variables = self.take(), {}
        while self.peek() in ("VAR_INPUT", "VAR_OUTPUT", "VAR"):
            section = self.take()
            constant = self.has("CONSTANT")
            while not self.has("END_VAR"):
                for variable in self.declared(section, constant):
                    if variable.name in variables:
                        raise Fault(f"{variable.name} is declared twice")
                    variables[variable.name] = variable
        body = self.statements("END_FUNCTION_BLOCK")
        if self.peek() is not None:
            raise Fault("something follows END_FUNCTION_BLOCK")
        return name, variables, body

    def declared(self, section, constant):
        names = [self.take()]
        while self.has(","):
            names.append(self.take())
        self.take(":")
        size = None
        if self.has("ARRAY"):
            self.take("[")
            self.take("0")
            self.take("..")
            size = int(self.take()) + 1
            self.take("]")
            self.take("OF")
        kind = self.take(*RANGES)
        values = self.initial(size) if self.has(":=") else None
        self.take(";")
        return [Variable(name, section, constant, kind, size, values) for name in names]

    def initial(self, size):
        if size is None:
            return self.number()
        self.take("[")
        values = [self.number()]
        while self.has(","):
            values.append(self.number())
        self.take("]")
        return values

    def number(self):
        sign = -1 if self.has("-") else 1
        return sign * int(self.take())

    def statements(self, *ends):
        found = []
        while self.peek() not in ends:
            found.append(self.statement())
        self.take(*ends)
        return found

    def statement(self):
        if self.has("RETURN"):
            self.take(";")
            return ("return",)
        for word in ("IF", "FOR", "WHILE"):
            if self.has(word):
                return getattr(self, f"{word.lower()}_statement")()
        name = self.take()
        index = self.index()
        self.take(":=")
        value = self.expression()
        self.take(";")
        return "assign", name, index, value

    def if_statement(self):
        test = self.expression()
        self.take("THEN")
        body, other = [], []
        while self.peek() not in ("ELSE", "END_IF"):
            body.append(self.statement())
        if self.take("ELSE", "END_IF") == "ELSE":
            other = self.statements("END_IF")
        self.take(";")
        return "if", test, body, other

    def for_statement(self):
        name = self.take()
        self.take(":=")
        first = self.expression()
        self.take("TO")
        last = self.expression()
        step = self.expression() if self.has("BY") else ("number", 1)
        self.take("DO")
        body = self.statements("END_FOR")
        self.take(";")
        return "for", name, first, last, step, body

    def while_statement(self):
        test = self.expression()
        self.take("DO")
        body = self.statements("END_WHILE")
        self.take(";")
        return "while", test, body

    def index(self):
        if not self.has("["):
            return None
        found = self.expression()
        self.take("]")
        return found

    def expression(self, level=0):
        if level == len(BINARY):
            return self.factor()
        left = self.expression(level + 1)
        while self.peek() in BINARY[level]:
            left = (self.take(), left, self.expression(level + 1))
        return left

    def factor(self):
        token = self.take()
        if token == "(":
            inner = self.expression()
            self.take(")")
            return inner
        if token in ("-", "NOT"):
            return ("minus" if token == "-" else "not", self.factor())
        if token.isdigit():
            return "number", int(token)
        if token in ("TRUE", "FALSE"):
            return "truth", token == "TRUE"
        if self.has("("):
            inner = self.expression()
            self.take(")")
            return "call", token, inner
        return "name", token, self.index()


class Variable:
    def __init__(self, name, section, constant, kind, size, values):
        self.name, self.section, self.constant, self.kind, self.size = name, section, constant, kind, size
        if values is not None and size is not None and len(values) != size:
            raise Fault(f"{name} has {size} elements and {len(values)} values")
        self.value = values if values is not None else 0 if size is None else [0] * size
        for value in self.value if size is not None else [self.value]:
            check_range(kind, value, name)


def check_range(kind, value, what):
    low, high = RANGES[kind]
    if not low <= value <= high:
        raise Fault(f"{what}: {value} is no {kind}")


class Machine:
    """A function block that keeps its variables from call to call."""

    def __init__(self, text):
        self.name, self.variables, self.body = Reader(text).block()

    def call(self, **inputs):
        """Runs the body; answers the outputs."""
        for name, value in inputs.items():
            if self.variables[name].section != "VAR_INPUT":
                raise Fault(f"{name} is no input")
            self.variables[name].value = value
        try:
            self.run(self.body)
        except Return:
            pass
        return {name: variable.value for name, variable in self.variables.items() if variable.section == "VAR_OUTPUT"}

    def run(self, statements):
        for kind, *parts in statements:
            getattr(self, f"run_{kind}")(*parts)

    def run_return(self):
        raise Return

    def run_assign(self, name, index, value):
        variable = self.variables[name]
        if variable.constant or variable.section == "VAR_INPUT":
            raise Fault(f"{name} can't be assigned")
        found = self.value(value)
        check_range(variable.kind, found, name)
        if variable.size is None:
            variable.value = found
        else:
            variable.value[self.at_index(variable, index)] = found

    def run_if(self, test, body, other):
        self.run(body if self.value(test) else other)

    def run_for(self, name, first, last, step, body):
        at, end, by = self.value(first), self.value(last), self.value(step)
        while at <= end if by > 0 else at >= end:
            self.variables[name].value = at
            self.run(body)
            at += by

    def run_while(self, test, body):
        while self.value(test):
            self.run(body)

    def at_index(self, variable, index):
        at = self.value(index)
        if not 0 <= at < variable.size:
            raise Fault(f"{variable.name}[{at}] is outside")
        return at

    def value(self, node):
        kind = node[0]
        if kind in ("number", "truth"):
            return node[1]
        if kind == "name":
            variable = self.variables[node[1]]
            return variable.value if variable.size is None else variable.value[self.at_index(variable, node[2])]
        if kind == "call":
            source, _, target = node[1].partition("_TO_")
            found = self.value(node[2])
            check_range(source, found, node[1])
            check_range(target, found, node[1])
            return found
        found = self.worked_out(kind, *map(self.value, node[1:]))
        if not isinstance(found, bool):
            check_range("DINT", found, kind)
        return found

    @staticmethod
    def worked_out(kind, left, right=None):
        # Quotients are rounded towards 0, and remainders have the dividend's sign.
        quotient = lambda: abs(left) // abs(right) * (1 if (left < 0) == (right < 0) else -1)
        return {
            "minus": lambda: -left,
            "not": lambda: not left,
            "OR": lambda: left or right,
            "AND": lambda: left and right,
            "=": lambda: left == right,
            "<>": lambda: left != right,
            "<": lambda: left < right,
            ">": lambda: left > right,
            "<=": lambda: left <= right,
            ">=": lambda: left >= right,
            "+": lambda: left + right,
            "-": lambda: left - right,
            "*": lambda: left * right,
            "/": quotient,
            "MOD": lambda: left - right * quotient(),
        }[kind]()
