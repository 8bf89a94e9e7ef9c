"""Random scripts over conditional expressions, f-texts and `while`, each with what CPython makes of it.

A script stands in the subset, or has one form or two that scripts are refused: each such form has a mark in front while the script is made, so
that its line is known. What CPython computes and scripts don't is told by kind: arithmetic with truth values, and numbers past 64 bits.
"""
import ast
import operator
import random
import warnings
from collections import namedtuple

# CPython warns of `is` behind a number, and of a backslash that stays.
warnings.simplefilter("ignore")

# In front of a form that is refused: its kind, and whether CPython takes it.
MARKS = {"\ue000": ("BadField", True), "\ue001": ("BadField", False), "\ue002": ("BadByte", True), "\ue003": ("Unexpected", True),
         "\ue004": ("Unexpected", False), "\ue005": ("TooDeep", True)}
MARK_OF = {form: mark for mark, form in MARKS.items()}

# The kinds that are told before any token is read as a tree.
OF_TOKENS = {"BadField", "BadByte"}

# How deep a script may nest.
LEVELS = 100

# The levels of operators, from those that bind least.
CONDITIONAL, OR, AND, NOT, COMPARISON, SUM, PRODUCT, UNARY, POST = range(9)

Nesting = namedtuple("Nesting", "before opens behind level inside")

# What opens a level, between what stands before and behind it; its level among operators, and that of what stands in it.
NESTINGS = [Nesting("", "(", ")", POST, CONDITIONAL), Nesting("", "[", "][0]", POST, CONDITIONAL), Nesting("noted", "(", ")", POST, CONDITIONAL),
            Nesting("", "{1: ", "}[1]", POST, CONDITIONAL), Nesting("items", "[", "]", POST, CONDITIONAL), Nesting("f'", "{", "}'", POST, CONDITIONAL),
            Nesting("1 ", "if 0 else ", "", CONDITIONAL, CONDITIONAL), Nesting("2 ", "if ", " else 0", CONDITIONAL, OR),
            Nesting("", "not ", "", NOT, NOT), Nesting("", "-", "", UNARY, UNARY)]

START = """seen = []
def noted(x):
    seen.append(x)
    return x
n = %d
m = %d
s = 'ab'
t = "it's"
items = [3, 1, 2]
yes = %s
"""


def mark(kind, taken):
    return MARK_OF[kind, taken]


class Maker:
    """Makes one script."""

    def __init__(self, dice):
        self.dice = dice
        self.lines = []
        self.names = {"int": ["n", "m"], "text": ["s", "t"], "list": ["items"], "truth": ["yes"]}
        self.counters = 0
        # How many forms that are refused may still come.
        self.refusals = dice.choice([0] * 9 + [1, 2])

    def chance(self, share):
        return self.dice.random() < share

    def refuses(self, share=0.15):
        """Whether a form comes here that is refused."""
        if self.refusals and self.chance(share):
            self.refusals -= 1
            return True
        return False

    # Expressions. `room` is how deep they may still go, and `field` whether they stand in a field, where no quote stands.

    def put(self, kind, level=CONDITIONAL, room=None, field=False):
        """An expression of this kind that stands where operators of this level join."""
        room = self.dice.choice([1, 2, 2, 3]) if room is None else room
        text, own = self.made(kind, room, field)
        if own >= level and not self.chance(0.05):
            return text
        return f"({self.gap(field)}{text})"

    def gap(self, field):
        return "\n   " if not field and self.chance(0.04) else ""

    def made(self, kind, room, field):
        """An expression of this kind, and its level."""
        if not room:
            return self.leaf(kind, field), POST
        make = self.dice.choice([self.choice, self.choice, self.either, self.group, self.own, self.own, self.own])
        return make(kind, room - 1, field)

    def leaf(self, kind, field):
        names = self.names[kind]
        if kind == "int":
            return self.dice.choice([*names, str(self.dice.randrange(10)), str(self.dice.choice([97, 1000003, 2**62]))])
        if kind == "text":
            return self.dice.choice([*names, f"str({self.dice.choice(self.names['int'])})"] if field else [*names, self.plain_text()])
        if kind == "list":
            return self.dice.choice([*names, "[]", f"[{self.dice.choice(self.names['int'])}, 2]"])
        return self.dice.choice([*names, "True", "False"])

    def choice(self, kind, room, field):
        value, test = self.put(kind, OR, room, field), self.put("truth", OR, room, field)
        return f"{value} if {test} else {self.put(kind, CONDITIONAL, room, field)}", CONDITIONAL

    def either(self, kind, room, field):
        word, level = self.dice.choice([("or", OR), ("and", AND)])
        return f"{self.put(kind, level, room, field)} {word} {self.put(kind, level + 1, room, field)}", level

    def group(self, kind, room, field):
        inner = self.put(kind, CONDITIONAL, room, field)
        other = self.put(kind, CONDITIONAL, room, field)
        return self.dice.choice([
            f"noted({inner})", f"[{inner}, {other}][{self.dice.choice(['0', '-1', '1 if yes else 0'])}]",
            f"{{1: {inner}, 2: {other}}}[{self.dice.choice(['1', '2', '1 if n else 2'])}]", f"({inner})"]), POST

    def own(self, kind, room, field):
        return getattr(self, f"of_{kind}")(room, field)

    def of_int(self, room, field):
        put = lambda kind, level: self.put(kind, level, room, field)
        kind = self.dice.randrange(7)
        if kind == 0:
            return f"{put('int', SUM)} {self.dice.choice('+-')} {put('int', PRODUCT)}", SUM
        if kind == 1:
            return f"{put('int', PRODUCT)} {self.dice.choice(['*', '//', '%'])} {put('int', UNARY)}", PRODUCT
        if kind == 2:
            return f"-{put('int', UNARY)}", UNARY
        if kind == 3:
            return f"len({put(self.dice.choice(['text', 'list']), CONDITIONAL)})", POST
        if kind == 4:
            return f"({put('list', OR)} or [7])[{self.dice.choice(['0', '0', '-1', '-1', '1', 'n % 2'])}]", POST
        return self.leaf("int", field), POST

    def of_text(self, room, field):
        put = lambda kind, level: self.put(kind, level, room, field)
        kind = self.dice.randrange(4 if field else 8)
        if kind == 0:
            return f"{put('text', SUM)} + {put('text', PRODUCT)}", SUM
        if kind == 1:
            return f"{put('text', PRODUCT)} * {self.dice.randrange(3)}", PRODUCT
        if kind == 2:
            return f"str({put(self.dice.choice(list(self.names)), CONDITIONAL)})", POST
        if kind == 3:
            return f"{put('text', POST)}{self.dice.choice(['[1:]', '[:2]', '[:n]', '.strip()', '[n % 2:m]', '[n % 2:m]', '[0]'])}", POST
        if kind == 4:
            return f"'%s-%d' % ({put('text', CONDITIONAL)}, {put('int', CONDITIONAL)})", PRODUCT
        return self.pieces(room), POST

    def of_list(self, room, field):
        put = lambda kind, level: self.put(kind, level, room, field)
        kind = self.dice.randrange(4)
        if kind == 0:
            return f"[{put('int', CONDITIONAL)}, {put('int', CONDITIONAL)}]", POST
        if kind == 1:
            return f"{put('list', SUM)} + {put('list', PRODUCT)}", SUM
        if kind == 2:
            return f"{put('list', PRODUCT)} * {self.dice.randrange(3)}", PRODUCT
        return f"[v + {put('int', PRODUCT)} for v in {put('list', OR)} if {put('truth', OR)}]", POST

    def of_truth(self, room, field):
        put = lambda kind, level: self.put(kind, level, room, field)
        kind = self.dice.randrange(5)
        if kind == 0:
            return f"not {put(self.dice.choice(list(self.names)), NOT)}", NOT
        if kind == 1:
            one = self.dice.choice(["int", "text", "list"])
            return f"{put(one, SUM)} {self.dice.choice(['==', '!='])} {put(one, SUM)}", COMPARISON
        if kind == 2:
            one = self.dice.choice(["int", "text"])
            return f"{put(one, SUM)} {self.dice.choice(['<', '<=', '>', '>='])} {put(one, SUM)}", COMPARISON
        if kind == 3:
            one, many = self.dice.choice([("int", "list"), ("text", "text")])
            return f"{put(one, SUM)} {self.dice.choice(['in', 'not in'])} {put(many, SUM)}", COMPARISON
        return f"{put('int', SUM)} is {self.dice.choice(['', 'not '])}None", COMPARISON

    # Texts.

    def pieces(self, room):
        """An f-text, and maybe texts of each kind before and behind it."""
        made = [self.dice.choice([self.plain_text, lambda: self.f_text(room)])() for _ in range(self.dice.choice([0, 0, 1, 2]))]
        made.insert(self.dice.randrange(len(made) + 1), self.f_text(room))
        if len(made) == 1:
            return made[0]
        between = self.dice.choice([" ", " ", "  ", "\n  "])
        return f"({between.join(made)})"

    def plain_text(self):
        prefix, quotes = self.dice.choice(["", "", "r", "R"]), self.dice.choice(["'", '"', "'''", '"""'])
        return f"{prefix}{quotes}{''.join(self.characters(prefix != '', quotes, '{}') for _ in range(self.dice.randrange(4)))}{quotes}"

    def characters(self, raw, quotes, braces):
        """What stands in a text as it is, or for something."""
        other = '"' if quotes[0] == "'" else "'"
        choices = ["a", "b ", "%", "é", "漢", other, "$x", "\\\\", "\\" + quotes[0], "#", *braces]
        choices += ["\\d", "\\q"] if raw else ["\\n", "\\t", "\\x41", "\\x7b", "\\q", "\\a"]
        if len(quotes) == 3:
            choices += ["\n", "\\\n", f"{quotes[0]}a"]
        return self.dice.choice(choices)

    def f_text(self, room):
        """An f-text, maybe with a form that is refused."""
        prefix = self.dice.choice(["f", "f", "F", "rf", "fr", "Rf", "fR"])
        quotes = self.dice.choice(["'", '"', "'''", '"""'])
        parts = []
        for _ in range(self.dice.randrange(5)):
            kind = self.dice.randrange(5)
            if kind == 0:
                parts.append(self.dice.choice(["{{", "}}", "{{}}", "\\{{", "\\}}", "{{{{"]))
            elif kind == 1:
                parts.append(self.characters(len(prefix) > 1, quotes, []))
            elif self.refuses():
                parts.append(self.refused_field(quotes))
            else:
                parts.append(self.field(room))
        return f"{prefix}{quotes}{''.join(parts)}{quotes}"

    def field(self, room):
        value = self.put(self.dice.choice(list(self.names)), CONDITIONAL, min(room, 2), field=True)
        if self.chance(0.1):
            value = f"{{1: {value}}}"
        blank = " " if value.startswith("{") or self.chance(0.2) else ""
        return f"{{{blank}{value}{self.dice.choice(['', '', ' '])}}}"

    def refused_field(self, quotes):
        """A field, or a brace, that is refused."""
        other = '"' if quotes[0] == "'" else "'"
        forms = [f"{{n{mark('BadByte', True)}!r}}", f"{{s{mark('BadByte', True)}!s:>4}}", f"{{n{mark('Unexpected', True)}:>5}}",
                 f"{{n{mark('Unexpected', True)}=}}", f"{{n{mark('Unexpected', True)}, m}}",
                 f"{{{mark('BadField', True)}{other}x{other}}}", f"{{f{mark('BadField', True)}{other}{{n}}{other}}}",
                 f"{{n + len(r{mark('BadField', True)}{other}{{}}{other})}}",
                 f"{{{mark('Unexpected', False)}}}", f"{{n {mark('Unexpected', False)}m}}", f"{mark('BadField', False)}}}",
                 f"{{n {mark('BadField', False)}# }}", f"{{n{mark('BadField', False)}\\n}}"]
        if len(quotes) == 3:
            forms += [f"{{n{mark('BadField', True)}\n}}", f"{{(n{mark('BadField', True)}\r\n + m)}}"]
        return self.dice.choice(forms)

    # Statements.

    def line(self, depth, text):
        self.lines.append("    " * depth + text)

    def block(self, depth, room, loop, function):
        for _ in range(self.dice.choice([1, 1, 2, 3])):
            self.statement(depth, room, loop, function)

    def statement(self, depth, room, loop, function):
        kinds = [self.assign, self.assign, self.augment, self.show]
        if room:
            kinds += [self.branch, self.loop_while, self.loop_while, self.loop_for]
        if loop:
            kinds += [self.leave]
        if function:
            kinds += [self.give_back]
        self.dice.choice(kinds)(depth, room, loop, function)

    def assign(self, depth, *_):
        kind = self.dice.choice(list(self.names))
        name, value = self.dice.choice(self.names[kind]), self.put(kind)
        bound = {"int": f"({value}) % 97", "text": f"({value})[:9]", "list": f"({value})[:4]", "truth": value}[kind]
        self.line(depth, f"{name} = {bound}")

    def augment(self, depth, *_):
        kind = self.dice.choice(["int", "text", "list"])
        name, value = self.dice.choice(self.names[kind]), self.put(kind)
        self.line(depth, f"{name} {self.dice.choice(['+=', '-=', '*=']) if kind == 'int' else '+='} {value}")
        self.line(depth, f"{name} = {name}" + {"int": " % 97", "text": "[-9:]", "list": "[-4:]"}[kind])

    def show(self, depth, *_):
        values = ", ".join(self.put(self.dice.choice(list(self.names))) for _ in range(self.dice.randrange(1, 4)))
        self.line(depth, f"print({self.dice.choice([values, f'[{values}]', f'({values},)'])})")

    def branch(self, depth, room, loop, function):
        self.line(depth, f"if {self.put('truth')}:")
        self.block(depth + 1, room - 1, loop, function)
        if self.chance(0.3):
            self.line(depth, f"elif {self.put('int')}:")
            self.block(depth + 1, room - 1, loop, function)
        if self.chance(0.5):
            self.line(depth, "else:")
            self.block(depth + 1, room - 1, loop, function)

    def loop_while(self, depth, room, _, function):
        """A `while` that ends after few turns, whatever its body does."""
        self.counters += 1
        counter = f"i{self.counters}"
        self.line(depth, f"{counter} = {self.dice.randrange(4)}")
        test = self.dice.choice([counter, f"{counter} > 0 and ({self.put('truth')})", f"{counter} if {self.put('truth', OR)} else 0", "True",
                                 f"{self.put('truth', AND)} and {counter}", f"0 < {counter}"])
        self.line(depth, f"while {test}:")
        self.line(depth + 1, f"{counter} -= 1")
        if test == "True":
            self.line(depth + 1, f"if {counter} < 0: break")
        self.block(depth + 1, room - 1, True, function)
        if self.refuses(0.05):
            self.line(depth, f"{mark('Unexpected', True)}else:")
            self.line(depth + 1, "pass")

    def loop_for(self, depth, room, _, function):
        source = self.dice.choice(["range(3)", self.put("list"), f"{self.put('list', OR)} if {self.put('truth', OR)} else [1]"])
        self.line(depth, f"for v in ({source})[:3]:" if self.chance(0.5) else f"for v in {source}:")
        self.block(depth + 1, room - 1, True, function)

    def leave(self, depth, *_):
        word = self.dice.choice(["break", "continue"])
        self.line(depth, f"if {self.put('truth')}: {word}")

    def give_back(self, depth, *_):
        self.line(depth, f"return {self.put(self.dice.choice(list(self.names)))}")

    def function(self):
        """A function and its calls."""
        outside = self.names
        self.line(0, f"def f(a, b={self.put('int')}):")
        self.line(1, "r = []")
        self.line(1, "u = f'<{a}>'")
        self.names = {"int": ["a", "b"], "text": ["u"], "list": ["r"], "truth": ["yes"]}
        self.line(1, "yes = a < b")
        self.block(1, 2, False, True)
        self.line(1, "return r")
        self.names = outside
        self.line(0, f"print(f({self.put('int')}), f({self.put('int')}, b={self.put('int')}))")

    def script(self):
        """The script with its marks."""
        dice = self.dice
        start = START % (dice.randrange(5), dice.randrange(9), dice.choice(["True", "False"]))
        if self.chance(0.06):
            self.at_the_limit()
        else:
            if self.chance(0.3):
                self.function()
            self.block(0, 2, False, False)
        self.line(0, "print(seen, n, m, [s, t], items, yes)")
        return start + "\n".join(self.lines) + "\n"

    def at_the_limit(self):
        """Nesting about as deep as it may be: blocks, and an expression in the innermost one."""
        deep, blocks = self.dice.randrange(LEVELS - 3, LEVELS + 4), self.dice.choice([0, 0, self.dice.randrange(60)])
        # (CPython takes no more than 20 loops in one another)
        heads = [self.dice.choice(["if n > -1:", "for _ in [0]:", "while True:"]) if depth < 8 else "if True:" for depth in range(blocks)]
        for depth, head in enumerate(heads):
            self.line(depth, head)
        self.line(blocks, f"print({self.nested(deep - blocks - 1, LEVELS - blocks - 1)})")
        for depth in reversed(range(blocks)):
            self.line(depth + 1, "pass" if heads[depth].startswith("if") else "break")

    def nested(self, deep, left):
        """An expression so deep, with a mark in front of what opens a level too many."""
        front, back, level, field = "", "", CONDITIONAL, False
        for at in range(deep):
            forms = [it for it in NESTINGS if it.level >= level and not (field and it.before == "f'")]
            form = self.dice.choice(forms)
            blank = " " if field and form.opens.startswith("{") else ""
            front += blank + form.before + (mark("TooDeep", True) if at == left else "") + form.opens
            back = form.behind + back
            level, field = form.inside, field or form.before == "f'"
        return f"{front}{'0' if level > NOT else 'n'}{back}"


class Refused(Exception):
    """What scripts are refused and CPython does."""


def kind_of(value):
    return type(value).__name__


def stated(left, right, result):
    """Tells what is refused of an operation that CPython does."""
    if isinstance(left, bool) or isinstance(right, bool):
        raise Refused("Mismatch")
    if isinstance(result, int) and not -(2**63) <= result < 2**63:
        raise Refused("Overflow")
    return result


OPERATIONS = {"Add": operator.add, "Sub": operator.sub, "Mult": operator.mul, "FloorDiv": operator.floordiv, "Mod": operator.mod}
IN_PLACE = {"Add": operator.iadd, "Sub": operator.isub, "Mult": operator.imul}
ORDERS = {"Lt": operator.lt, "LtE": operator.le, "Gt": operator.gt, "GtE": operator.ge}


def binary(name, left, right):
    if name == "Mod" and isinstance(left, str):
        return left % right
    return stated(left, right, OPERATIONS[name](left, right))


def in_place(name, left, right):
    return stated(left, right, IN_PLACE[name](left, right))


def negative(value):
    return stated(value, 0, -value)


def ordered(name, left, right):
    for value in (left, right):
        if not isinstance(value, (int, str)) or isinstance(value, bool):
            raise Refused("Mismatch")
    return ORDERS[name](left, right)


def index(value):
    """A place: a truth value is none."""
    if isinstance(value, bool):
        raise Refused("Mismatch")
    return value


class Stated(ast.NodeTransformer):
    """Puts what is stated of operators into a tree of CPython."""

    def call(self, node, name, *arguments):
        """A call of one of the functions above, at this node's place."""
        place = {it: getattr(node, it) for it in ("lineno", "col_offset", "end_lineno", "end_col_offset")}
        arguments = [ast.Constant(it, **place) if isinstance(it, str) else it for it in arguments]
        return ast.Call(ast.Name(name, ast.Load(), **place), arguments, [], **place)

    def visit_BinOp(self, node):
        self.generic_visit(node)
        return self.call(node, "_binary", kind_of(node.op), node.left, node.right)

    def visit_UnaryOp(self, node):
        self.generic_visit(node)
        return self.call(node, "_negative", node.operand) if isinstance(node.op, ast.USub) else node

    def visit_Compare(self, node):
        self.generic_visit(node)
        name = kind_of(node.ops[0])
        return self.call(node, "_ordered", name, node.left, node.comparators[0]) if name in ORDERS else node

    def visit_AugAssign(self, node):
        self.generic_visit(node)
        there = ast.copy_location(ast.Name(node.target.id, ast.Load()), node)
        return ast.copy_location(ast.Assign([node.target], self.call(node, "_in_place", kind_of(node.op), there, node.value)), node)

    def visit_Subscript(self, node):
        self.generic_visit(node)
        if not isinstance(node.slice, ast.Slice):
            node.slice = self.call(node, "_index", node.slice)
        return node


# The kinds by which scripts tell what CPython raises.
KINDS = {"NameError": ["Name"], "UnboundLocalError": ["Name"], "ZeroDivisionError": ["Zero"], "IndexError": ["Index"], "KeyError": ["Key"],
         "TypeError": ["Mismatch", "Args", "NotCallable", "BadText"], "ValueError": ["BadText", "Mismatch", "Key"], "AttributeError": ["NoMethod"]}


class Expected:
    """What a script prints, and with which of these kinds on which of these lines it is refused, if it is."""

    def __init__(self, printed="", kinds=(), lines=range(0)):
        self.printed, self.kinds, self.lines = printed, kinds, lines


def first_mark(text):
    """The form of a script that is refused first, with its place."""
    found = [(MARKS[it][0] not in OF_TOKENS, place, it) for place, it in enumerate(text) if it in MARKS]
    return min(found, default=None)


def without_marks(text):
    return "".join(it for it in text if it not in MARKS)


def by_cpython(text):
    """What CPython makes of a script with marks, by what is stated."""
    first, plain = first_mark(text), without_marks(text)
    taken = all(MARKS[it][1] for it in text if it in MARKS)
    try:
        tree = ast.parse(plain, "<script>")
    except SyntaxError:
        if taken:
            raise
        tree = None
    if tree and not taken:
        raise AssertionError(f"CPython takes what it is said to refuse:\n{plain}")
    if first:
        line = 1 + text[: first[1]].count("\n")
        return Expected("", [MARKS[first[2]][0]], range(line, line + 1))
    return run(tree)


def run(tree):
    """What a tree of CPython prints, and how it ends."""
    printed = []
    told = lambda *values: printed.append(" ".join(map(str, values)) + "\n")
    names = {"print": told, "_binary": binary, "_negative": negative, "_ordered": ordered, "_in_place": in_place, "_index": index}
    code = compile(Stated().visit(tree), "<script>", "exec")
    try:
        exec(code, names)
    except Exception as why:
        kinds = [str(why)] if isinstance(why, Refused) else KINDS[type(why).__name__]
        return Expected("".join(printed), kinds, lines_of(tree, why.__traceback__))
    return Expected("".join(printed))


def lines_of(tree, trace):
    """The lines of the statement in which an exception was raised, the blocks below it left out."""
    line = None
    while trace:
        if trace.tb_frame.f_code.co_filename == "<script>":
            line = trace.tb_lineno
        trace = trace.tb_next
    spans = [(it.lineno, it.body[0].lineno if hasattr(it, "body") and it.body[0].lineno > it.lineno else it.end_lineno)
             for it in ast.walk(tree) if isinstance(it, ast.stmt)]
    return range(*max((first, last + 1) for first, last in spans if first <= line <= last))


def script(seed):
    """A random script, with its marks."""
    return Maker(random.Random(seed)).script()
