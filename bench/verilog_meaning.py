#!/usr/bin/env python3
"""The meaning of the printed part of Verilog, read naively from ver_lang/specs: tokens, trees, sizes, values, edges, runs.

    verilog_meaning.py F.v STIMULUS    prints the rows of the module that the text spells: for each cycle all inputs and outputs

The stimulus is a list in JSON with an object for each cycle: the inputs' values by their names. Each function has the name of
its definition. A text that spells no module, or a value that the definitions don't give, ends the program with a message.
"""
import json
import sys
from collections import namedtuple

# ---------------------------------------------------------------------------------------------------------------- trees
Name = namedtuple("Name", "name")
Literal = namedtuple("Literal", "width value")
Part = namedtuple("Part", "name high low")
Word = namedtuple("Word", "memory index")
Joined = namedtuple("Joined", "high low")
Inverse = namedtuple("Inverse", "operand")
Negation = namedtuple("Negation", "operand")
Binary = namedtuple("Binary", "mark left right")
Choice = namedtuple("Choice", "condition yes no")
Bracketed = namedtuple("Bracketed", "inner")

Keeps = namedtuple("Keeps", "register value")
Stores = namedtuple("Stores", "memory index value")
When = namedtuple("When", "condition body")
WhenElse = namedtuple("WhenElse", "condition body other")
Block = namedtuple("Block", "statements")

Signal = namedtuple("Signal", "name width")
Constant = namedtuple("Constant", "width value")
Wire = namedtuple("Wire", "signal")
Register = namedtuple("Register", "signal constant")
Memory = namedtuple("Memory", "signal count")
Counter = namedtuple("Counter", "name")
Fill = namedtuple("Fill", "counter count memory word")
Assign = namedtuple("Assign", "target value")
Always = namedtuple("Always", "statement")
Module = namedtuple("Module", "name clock ins outs items")


class Refused(Exception):
    """The text spells no module of the subset, or the definitions give no value."""


# --------------------------------------------------------------------------------------------------------------- tokens
WHITE = " \t\n\f"
LETTERS = "ABCDEFGHIJKLMNOPQRSTUVWXYZabcdefghijklmnopqrstuvwxyz_"
DIGITS = "0123456789"
MARKS = (
    "( ) [ ] { } , ; : ? = @ # . $ ' \" ` + - * / % ! ~ & | ^ < > ** == != <= >= && || ~& ~| ~^ ^~ << >> -> => *> +: -: (* *) "
    "// /* === !== <<< >>> &&&"
).split(" ")


def run_of(text, at, some):
    """The place after the bytes from `at` on that are among some."""
    while at < len(text) and text[at] in some:
        at += 1
    return at


def words_at(text, at):
    """Each token that stands at a place, as (end, kind, value): the longest is taken."""
    found = []
    if text[at] in LETTERS:
        end = run_of(text, at, LETTERS + DIGITS + "$")
        found.append((end, "key", text[at:end]))
    for mark in MARKS:
        if text.startswith(mark, at):
            found.append((at + len(mark), "mark", mark))
    if text[at] == "\\":
        end = at + 1
        while end < len(text) and 33 <= ord(text[end]) <= 126:
            end += 1
        if end > at + 1 and end < len(text) and text[end] in WHITE:
            found.append((end + 1, "name", text[at + 1 : end]))
    if text[at] in DIGITS:
        end = run_of(text, at, DIGITS)
        found.append((end, "number", int(text[at:end])))
        if text.startswith("'d", end):
            last = run_of(text, end + 2, DIGITS)
            if last > end + 2:
                found.append((last, "sized", (int(text[at:end]), int(text[end + 2 : last]))))
    return found


def tokens_of(text):
    tokens, at = [], 0
    while at < len(text):
        if text[at] in WHITE:
            at += 1
            continue
        found = words_at(text, at)
        if not found:
            raise Refused(f"no token at byte {at}")
        end, kind, value = max(found)
        tokens.append((kind, value))
        at = end
    return tokens


# -------------------------------------------------------------------------------------------------------------- grammar
LEVELS = {
    "*": 10, "+": 9, "-": 9, "<<": 8, ">>": 8, "<": 7, ">": 7, "<=": 7, ">=": 7, "==": 6, "!=": 6,
    "&": 5, "^": 4, "|": 3, "&&": 2, "||": 1,
}


class Reader:
    """Reads the rules of Grammar.antt from the front."""

    def __init__(self, tokens):
        self.tokens, self.at = tokens, 0

    def peek(self):
        return self.tokens[self.at] if self.at < len(self.tokens) else ("end", None)

    def take(self, kind, value=None):
        token = self.peek()
        if token[0] != kind or (value is not None and token[1] != value):
            raise Refused(f"token {self.at} is {token}, and not {kind} {value}")
        self.at += 1
        return token[1]

    def has(self, kind, value=None):
        token = self.peek()
        return token[0] == kind and (value is None or token[1] == value)

    def bounds(self):
        self.take("mark", "[")
        high = self.take("number")
        self.take("mark", ":")
        low = self.take("number")
        self.take("mark", "]")
        return high, low

    def primary(self):
        if self.has("sized"):
            return Literal(*self.take("sized"))
        if self.has("mark", "("):
            self.take("mark", "(")
            inner = self.expr(0)
            self.take("mark", ")")
            return Bracketed(inner)
        if self.has("mark", "{"):
            self.take("mark", "{")
            high = self.expr(0)
            self.take("mark", ",")
            low = self.expr(0)
            self.take("mark", "}")
            return Joined(high, low)
        name = self.take("name")
        if not self.has("mark", "["):
            return Name(name)
        if self.tokens[self.at + 1][0] == "number":
            return Part(name, *self.bounds())
        self.take("mark", "[")
        index = self.expr(0)
        self.take("mark", "]")
        return Word(name, index)

    def unary(self):
        for mark, tree in (("~", Inverse), ("!", Negation)):
            if self.has("mark", mark):
                self.take("mark", mark)
                return tree(self.primary())
        return self.primary()

    def expr(self, least):
        left = self.unary()
        while self.peek()[0] == "mark":
            mark = self.peek()[1]
            if mark in LEVELS and LEVELS[mark] >= max(least, 1):
                self.take("mark", mark)
                left = Binary(mark, left, self.expr(LEVELS[mark] + 1))
            elif mark == "?" and least == 0:
                self.take("mark", "?")
                yes = self.expr(0)
                self.take("mark", ":")
                return Choice(left, yes, self.expr(0))
            else:
                break
        return left

    def condition(self):
        self.take("mark", "(")
        inner = self.expr(0)
        self.take("mark", ")")
        return inner

    def statement(self):
        if self.has("key", "begin"):
            self.take("key", "begin")
            statements = []
            while not self.has("key", "end"):
                statements.append(self.statement())
            self.take("key", "end")
            return Block(statements)
        if self.has("key", "if"):
            self.take("key", "if")
            condition, body = self.condition(), self.statement()
            if self.has("key", "else"):
                self.take("key", "else")
                return WhenElse(condition, body, self.statement())
            return When(condition, body)
        name, index = self.take("name"), None
        if self.has("mark", "["):
            self.take("mark", "[")
            index = self.expr(0)
            self.take("mark", "]")
        self.take("mark", "<=")
        value = self.expr(0)
        self.take("mark", ";")
        return Keeps(name, value) if index is None else Stores(name, index, value)

    def signal(self):
        high, low = self.bounds()
        if low != 0:
            raise Refused("a range that doesn't end with 0")
        return Signal(self.take("name"), high + 1)

    def fill(self):
        self.take("key", "for")
        self.take("mark", "(")
        counter = self.take("name")
        for kind, value in (("mark", "="), ("number", 0), ("mark", ";"), ("name", counter), ("mark", "<")):
            self.take(kind, value)
        count = self.take("number")
        for kind, value in (
            ("mark", ";"), ("name", counter), ("mark", "="), ("name", counter), ("mark", "+"), ("number", 1), ("mark", ")")
        ):
            self.take(kind, value)
        memory = self.take("name")
        for kind, value in (("mark", "["), ("name", counter), ("mark", "]"), ("mark", "=")):
            self.take(kind, value)
        return Fill(counter, count, memory, Constant(*self.take("sized")))

    def item(self, clock):
        word = self.take("key")
        if word == "always":
            self.take("mark", "@")
            self.take("mark", "(")
            self.take("key", "posedge")
            self.take("name", clock)
            self.take("mark", ")")
            return Always(self.statement())
        if word == "wire":
            item = Wire(self.signal())
        elif word == "integer":
            item = Counter(self.take("name"))
        elif word == "initial":
            item = self.fill()
        elif word == "assign":
            target = self.take("name")
            self.take("mark", "=")
            item = Assign(target, self.expr(0))
        elif word == "reg":
            signal = self.signal()
            if self.has("mark", "["):
                first, last = self.bounds()
                if first != 0:
                    raise Refused("a memory that doesn't begin with 0")
                item = Memory(signal, last + 1)
            else:
                self.take("mark", "=")
                item = Register(signal, Constant(*self.take("sized")))
        else:
            raise Refused(f"no item begins with {word}")
        self.take("mark", ";")
        return item

    def ports(self, direction):
        ports = []
        while self.has("mark", ",") and self.tokens[self.at + 1] == ("key", direction):
            self.at += 2
            self.take("key", "wire")
            ports.append(self.signal())
        return ports

    def module(self):
        self.take("key", "module")
        name = self.take("name")
        self.take("mark", "(")
        self.take("key", "input")
        self.take("key", "wire")
        clock = self.take("name")
        ins, outs = self.ports("input"), self.ports("output")
        self.take("mark", ")")
        self.take("mark", ";")
        items = []
        while not self.has("key", "endmodule"):
            items.append(self.item(clock))
        self.take("key", "endmodule")
        self.take("end")
        return Module(name, clock, ins, outs, items)


def spelled(text):
    """The module that the text spells."""
    return Reader(tokens_of(text)).module()


# ------------------------------------------------------------------------------------------------------ sizes and values
SIZED_BY_BOTH = "+ - * & | ^".split()
COMPARISONS = "== != < > <= >=".split()
SHIFTS = "<< >>".split()


def size(widths, e):
    if isinstance(e, (Name, Word)):
        return widths[e[0]]
    if isinstance(e, Literal):
        return e.width
    if isinstance(e, Part):
        return e.high + 1 - e.low
    if isinstance(e, Joined):
        return size(widths, e.high) + size(widths, e.low)
    if isinstance(e, (Inverse, Bracketed)):
        return size(widths, e[0])
    if isinstance(e, Negation):
        return 1
    if isinstance(e, Choice):
        return max(size(widths, e.yes), size(widths, e.no))
    if e.mark in SIZED_BY_BOTH:
        return max(size(widths, e.left), size(widths, e.right))
    return size(widths, e.left) if e.mark in SHIFTS else 1


def operand_sizes(mark, context, left, right):
    if mark in SIZED_BY_BOTH:
        return context, context
    if mark in COMPARISONS:
        return max(left, right), max(left, right)
    return (context, right) if mark in SHIFTS else (left, right)


def low_bits(w, v):
    return v & ((1 << w) - 1)


def operated(mark, w, x, y):
    if mark == "+":
        return low_bits(w, x + y)
    if mark == "-":
        return low_bits(w, x + (1 << w) - y)
    if mark == "*":
        return low_bits(w, x * y)
    if mark == "&":
        return x & y
    if mark == "|":
        return x | y
    if mark == "^":
        return x ^ y
    if mark == "<<":
        return low_bits(w, x << y) if y < w else 0
    if mark == ">>":
        return x >> y if y < w else 0
    return int({
        "==": x == y, "!=": x != y, "<": x < y, ">": x > y, "<=": x <= y, ">=": x >= y,
        "&&": x != 0 and y != 0, "||": x != 0 or y != 0,
    }[mark])


class Cycle:
    """What is held in one cycle; None where nothing is given."""

    def __init__(self, widths, row, words):
        self.widths, self.row, self.words = widths, row, words

    def value(self, w, e):
        widths = self.widths
        if isinstance(e, Name):
            return self.row(e.name)
        if isinstance(e, Literal):
            return low_bits(e.width, e.value)
        if isinstance(e, Part):
            if not e.low <= e.high < widths[e.name]:
                return None
            return low_bits(e.high + 1 - e.low, self.row(e.name) >> e.low)
        if isinstance(e, Word):
            index, words = self.value(size(widths, e.index), e.index), self.words[e.memory]
            return None if index is None or index >= len(words) else words[index]
        if isinstance(e, Joined):
            high, low = self.value(size(widths, e.high), e.high), self.value(size(widths, e.low), e.low)
            return None if high is None or low is None else (high << size(widths, e.low)) + low
        if isinstance(e, Inverse):
            v = self.value(w, e.operand)
            return None if v is None else (1 << w) - 1 - v
        if isinstance(e, Negation):
            v = self.value(size(widths, e.operand), e.operand)
            return None if v is None else int(v == 0)
        if isinstance(e, Bracketed):
            return self.value(w, e.inner)
        if isinstance(e, Choice):
            c = self.value(size(widths, e.condition), e.condition)
            return None if c is None else self.value(w, e.yes if c != 0 else e.no)
        left, right = operand_sizes(e.mark, w, size(widths, e.left), size(widths, e.right))
        x, y = self.value(left, e.left), self.value(right, e.right)
        return None if x is None or y is None else operated(e.mark, w, x, y)

    def assigned(self, w, e):
        v = self.value(max(w, size(self.widths, e)), e)
        if v is None:
            raise Refused("an x is assigned")
        return low_bits(w, v)

    def holds(self, e):
        v = self.value(size(self.widths, e), e)
        if v is None:
            raise Refused("a condition is x")
        return v != 0

    def updates(self, s):
        if isinstance(s, Block):
            return [update for inner in s.statements for update in self.updates(inner)]
        if isinstance(s, When):
            return self.updates(s.body) if self.holds(s.condition) else []
        if isinstance(s, WhenElse):
            return self.updates(s.body if self.holds(s.condition) else s.other)
        if isinstance(s, Keeps):
            return [(s.register, None, self.assigned(self.widths[s.register], s.value))]
        place = self.value(size(self.widths, s.index), s.index)
        if place is None or place >= len(self.words[s.memory]):
            raise Refused("a word out of range is written")
        return [(s.memory, place, self.assigned(self.widths[s.memory], s.value))]


# ------------------------------------------------------------------------------------------------------------------ runs
def signals(m):
    yield Signal(m.clock, 1)
    yield from m.ins
    yield from m.outs
    for item in m.items:
        if isinstance(item, (Wire, Register, Memory)):
            yield item.signal


def widths_of(m):
    widths = {}
    for s in signals(m):
        if s.name in widths:
            raise Refused(f"{s.name} is declared twice")
        widths[s.name] = s.width
    return widths


def settled(m, widths, inputs, registers, words):
    """The cycle in which every continuous assignment holds: each net is found when it is read."""
    found = {s.name: low_bits(s.width, inputs[s.name]) for s in m.ins}
    found.update(registers)
    drives = {item.target: item.value for item in m.items if isinstance(item, Assign)}
    waiting = set()

    def row(name):
        if name not in found:
            if name in waiting or name not in drives:
                raise Refused(f"{name} has no value")
            waiting.add(name)
            found[name] = now.assigned(widths[name], drives[name])
        return found[name]

    now = Cycle(widths, row, words)
    for name in drives:
        row(name)
    return now, found


def run_of_module(m, rows):
    """The cycles of the run with these inputs."""
    sys.setrecursionlimit(100_000)
    widths = widths_of(m)
    registers = {
        item.signal.name: low_bits(item.signal.width, low_bits(*item.constant))
        for item in m.items if isinstance(item, Register)
    }
    counts = {item.signal.name: item.count for item in m.items if isinstance(item, Memory)}
    words = {}
    for item in m.items:
        if isinstance(item, Fill):
            if counts[item.memory] != item.count or item.memory in words:
                raise Refused(f"{item.memory} isn't filled once")
            words[item.memory] = [low_bits(widths[item.memory], low_bits(*item.word))] * item.count
    if set(words) != set(counts):
        raise Refused("a memory isn't filled")
    for inputs in rows:
        now, found = settled(m, widths, inputs, registers, words)
        yield dict(found)
        due = [update for item in m.items if isinstance(item, Always) for update in now.updates(item.statement)]
        for name, place, value in due:
            if place is None:
                registers[name] = value
            else:
                words[name][place] = value


def main():
    if len(sys.argv) != 3:
        sys.exit(__doc__)
    m = spelled(open(sys.argv[1]).read())
    ports = [s.name for s in m.ins + m.outs]
    try:
        for t, found in enumerate(run_of_module(m, json.load(open(sys.argv[2])))):
            print(t, *(f"{port}={found[port]}" for port in ports))
    except Refused as refused:
        sys.exit(f"{sys.argv[1]}: {refused}")


if __name__ == "__main__":
    main()
