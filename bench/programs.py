"""Programs that alter accepts, by a seed: loops, arrays, structs, lists, `free`, calls, traps, and annotations of all
kinds. Loops are short and calls go downwards, so each program ends after some thousand steps."""
import random

POLICIES = ("RAW", "FULL", "WAW", "NONE")
ORDERS = ("InOrder", "OutOfOrder")
RISKS = 0.02


class Writer:
    """Writes one program. Where it is defined, C too says in which order all of it happens: a call is then a statement."""

    def __init__(self, seed, defined):
        self.random = random.Random(seed)
        self.defined = defined
        self.lines = []
        self.depth = 0
        self.names = 0
        # the integer locals in scope, and those that nothing may set
        self.locals = []
        self.fixed = set()
        # the reduction variables of the annotated loop around, with their operators
        self.reduced = {}
        self.callable = []
        self.in_loop = False
        self.annotated = False

    def choose(self, *among):
        return self.random.choice(among)

    def chance(self, share):
        return self.random.random() < share

    def line(self, text):
        self.lines.append("  " * self.depth + text)

    def fresh(self, head):
        self.names += 1
        return f"{head}{self.names}"

    # ---- expressions

    def readable(self):
        return [name for name in self.locals if name not in self.reduced]

    def atom(self):
        kinds = ["number", "global", "local", "local", "element", "input"]
        kind = self.choose(*kinds)
        if kind == "local" and self.readable():
            return self.choose(*self.readable())
        if kind == "global":
            return self.choose("g", "h")
        if kind == "element":
            return f"a[{self.index(1)}]"
        if kind == "input" and self.chance(0.5):
            return f"input({self.random.randrange(4)})"
        return f"{self.random.randrange(-3, 20) if self.chance(0.9) else self.random.randrange(2 ** 63)}L"

    def index(self, depth, most=15):
        if self.chance(RISKS):
            return self.value(depth)
        return f"({self.value(depth)} & {most})"

    def value(self, depth=2):
        if depth == 0 or self.chance(0.3):
            return self.atom()
        left, right = self.value(depth - 1), self.value(depth - 1)
        kind = self.random.randrange(10)
        if kind < 5:
            return f"({left} {self.choose('+', '-', '*', '&', '|', '^')} {right})"
        if kind == 5:
            return f"({left} {self.choose('<<', '>>')} {self.random.randrange(8)})"
        if kind == 6:
            divisor = right if self.chance(RISKS) else f"(({right} & 7) + 1)"
            return f"({left} {self.choose('/', '%')} {divisor})"
        if kind == 7:
            return f"{self.choose('min', 'max')}({left}, {right})"
        if kind == 8:
            return f"(({self.test(depth - 1)}) + 0L)"
        if self.callable and not self.defined and self.chance(0.5):
            return f"{self.choose(*self.callable)}({left}, {right})"
        return f"({self.choose('-', '~')}{left})" if not left.startswith("-") else left

    def test(self, depth=1):
        left, right = self.value(depth), self.value(depth)
        text = f"{left} {self.choose('<', '<=', '>', '>=', '==', '!=')} {right}"
        if self.chance(0.2):
            text = f"{text} {self.choose('&&', '||')} {self.choose('g', 'h')} {self.choose('<', '!=')} {self.atom()}"
        return text

    # ---- statements

    def settable(self):
        return [name for name in self.locals if name not in self.fixed and name not in self.reduced]

    def reduce(self):
        name, op = self.choose(*self.reduced.items())
        if op in ("min", "max"):
            return f"{name} = {op}({name}, {self.value(1)});"
        return f"{name} {op}= {self.value(1)};"

    def assignment(self):
        kind = self.random.randrange(7)
        if kind == 0 and self.settable():
            name = self.choose(*self.settable())
            return f"{name} {self.choose('=', '+=', '-=', '*=', '^=')} {self.value()};"
        if kind == 1:
            return f"{self.choose('g', 'h')} {self.choose('=', '+=', '|=')} {self.value()};"
        if kind == 2:
            return f"s[{self.index(1, 3)}].{self.choose('n', 'm')} = {self.value()};"
        if kind == 3 and self.settable():
            name = self.choose(*self.settable())
            if self.callable and self.chance(0.4):
                return f"{name} = {self.choose(*self.callable)}({self.value(1)}, {self.value(1)});"
            return f"{name}++;"
        return f"a[{self.index(1)}] {self.choose('=', '+=', '-=')} {self.value()};"

    def objects(self):
        """Something with objects: a list that grows, one that shrinks, a sum over it."""
        kind = self.random.randrange(5)
        p = self.fresh("p")
        if kind == 0:
            self.line(f"{{ struct node *{p} = calloc(1, sizeof(struct node)); {p}->n = {self.value(1)}; "
                      f"{p}->next = list; list = {p}; }}")
        elif kind == 1:
            self.line(f"if (list != NULL) {{ struct node *{p} = list; list = list->next; free({p}); }}")
        elif kind == 2:
            self.line(f"if (list != NULL) list->n += {self.value(1)};")
        elif kind == 3:
            risky = "" if self.chance(RISKS) else "if (kept != NULL) "
            self.line(f"{risky}kept->m = {self.value(1)};")
        else:
            self.line(f"{{ long *{p} = calloc({self.random.randrange(1, 6)}, sizeof(long)); *{p} = {self.value(1)}; "
                      f"g = g + {p}[0]; {'free(' + p + ');' if self.chance(0.6) else ''} }}")

    def printing(self):
        self.line(f'printf("%ld %ld\\n", {self.value(1)}, {self.atom()});')

    def block(self, depth):
        self.line("{")
        self.depth += 1
        known = len(self.locals)
        self.statements(depth)
        del self.locals[known:]
        self.depth -= 1
        self.line("}")

    def branch(self, depth):
        self.line(f"if ({self.test()})")
        self.block(depth - 1)
        if self.chance(0.4):
            self.line("else")
            self.block(depth - 1)

    def plain_loop(self, depth):
        i = self.fresh("j")
        self.line(f"for (long {i} = 0; {i} < {self.random.randrange(1, 5)}; {i}++)")
        self.locals.append(i)
        self.fixed.add(i)
        around, self.in_loop = self.in_loop, True
        self.block(depth - 1)
        self.in_loop = around
        self.locals.remove(i)

    def annotated_loop(self, depth):
        i = self.fresh("i")
        free = [name for name in self.locals if name not in self.fixed and name not in self.reduced]
        reduced = {}
        if self.chance(0.5):
            for name in self.random.sample(free, min(len(free), self.random.randrange(1, 3))):
                reduced[name] = self.choose("+", "*", "min", "max", "&", "|", "^")
        notes = "".join(f" reduce({op}: {name})" for name, op in reduced.items())
        policy, order = self.choose(*POLICIES), self.choose(*ORDERS)
        written = "" if self.chance(0.1) else f" {policy} {order}"
        bound = self.random.randrange(0, 12)
        self.line(f"#pragma alter{written}{notes}")
        self.line(f"for (long {i} = {self.random.randrange(0, 3)}; {i} < {bound}; {i}++)")
        self.locals.append(i)
        self.fixed.add(i)
        outer = self.reduced, self.in_loop, self.annotated
        self.reduced = {**self.reduced, **reduced}
        self.in_loop, self.annotated = False, True
        self.line("{")
        self.depth += 1
        known = len(self.locals)
        for _ in reduced:
            self.line(self.reduce())
        self.statements(depth - 1)
        if self.chance(0.3):
            self.printing()
        del self.locals[known:]
        self.depth -= 1
        self.line("}")
        self.reduced, self.in_loop, self.annotated = outer
        self.locals.remove(i)

    def statement(self, depth):
        kind = self.random.randrange(14)
        if kind < 5 or depth == 0:
            self.line(self.reduce() if self.reduced and self.chance(0.3) else self.assignment())
        elif kind == 5:
            name = self.fresh("x")
            self.line(f"long {name} = {self.value()};")
            self.locals.append(name)
        elif kind == 6:
            self.printing()
        elif kind in (7, 8):
            self.branch(depth)
        elif kind == 9:
            self.plain_loop(depth)
        elif kind in (10, 11):
            self.objects()
        elif kind == 12 and self.in_loop:
            self.line(f"if ({self.test()}) {self.choose('break', 'continue')};")
        else:
            self.annotated_loop(depth)

    def statements(self, depth):
        for _ in range(self.random.randrange(1, 5)):
            self.statement(depth)

    # ---- the program

    def function(self, name):
        self.line(f"long {name}(long n, long k) {{")
        self.depth += 1
        self.locals, self.fixed, self.reduced = ["n", "k"], set(), {}
        self.statements(1)
        self.line(f"return {self.value()};")
        self.depth -= 1
        self.line("}")

    def program(self):
        self.lines += [
            "struct node { long n; long m; struct node *next; };",
            "long a[16];", "long g;", "long h = 3;", "struct node s[4];",
            "struct node *list;", "struct node *kept;",
        ]
        for name in ("f1", "f2"):
            self.function(name)
            self.callable.append(name)
        self.line("int main(void) {")
        self.depth += 1
        self.locals, self.fixed, self.reduced = [], set(), {}
        for name in ("u", "v", "w"):
            self.line(f"long {name} = {self.random.randrange(9)};")
            self.locals.append(name)
        self.line("kept = calloc(1, sizeof(struct node));")
        for _ in range(self.random.randrange(1, 4)):
            self.statements(1)
            self.annotated_loop(2)
        self.line('printf("%ld %ld %ld %ld %ld\\n", u, v, w, g, h);')
        t = self.fresh("t")
        self.line(f'for (long {t} = 0; {t} < 16; {t}++) printf("%ld ", a[{t}]);')
        self.line("return 0;")
        self.depth -= 1
        self.line("}")
        return "\n".join(self.lines) + "\n"


def program(seed, defined):
    return Writer(seed, defined).program()
