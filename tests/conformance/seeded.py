"""Scripts at random, by a seed: expressions, locals, loops, switches, functions, classes, handles, arrays, interfaces, casts.

A script keeps to what the profile shares with AngelScript, so that both must agree on it: operands have no effect, each local has
an initializer, and numbers are below 2^31. One in four also has a function with a phrase that a rule of docs/LANGUAGE.md makes
differ, and its case names that rule."""

import random

from cases import Case, call, load

INTEGERS = ["int", "uint", "int64", "uint64"]
EDGES = {
    "int": [0, 1, -1, 7, -13, 2**31 - 1, -(2**31), 1000],
    "uint": [0, 1, 7, 2**31, 2**32 - 1, 1000],
    "int64": [0, 1, -1, 2**31, -(2**31) - 1, 2**63 - 1, -(2**63), 2**32 + 5],
    "uint64": [0, 1, 7, 2**32, 2**63, 2**64 - 1],
    "bool": ["true", "false"],
}
SIGNED = {"int", "int64"}

# a phrase in a function with `int x` and `uint u` as locals and `int s` as the result, and the rule by which it differs
PHRASES = {
    "a local without an initializer is zero, `false` or null": ["int w; s += w;", "int64 w; bool b; if (b) s += int(w);"],
    "operands and arguments are computed from left to right": ["s += two(bump(1), bump(2));", "s += two(bump(3), trace * 2);"],
    "a local is read when its operand's turn comes": ["s += x + (x = 5);", "s += two(x++, x);"],
    "a number from 2147483648 to 4294967295 is a `uint`": ["if (3000000000 > 0) s++;", "s += int(int64(4294967295 + 1) >> 8);"],
    "of constants only a number by itself adapts": ["if (u > (1)) s++;", "if (u > -1) s += 3;"],
    "`&`, `|` and `^` give a type with a sign if either has one": ["if ((u & x) > -1) s++;", "s += int((int64(u | x)) >> 33);"],
    "`~` and `+` before an operand keep its type": ["s += int(int64(~x) >> 33);", "if (~x < 0) s++;"],
    "a constant divisor of zero is an exception when it is reached": ["if (x == 12345) s += 1 / 0;", "if (x == 1) s %= 0;"],
    "a `switch` compares its value in all its bits": ["int64 w = 4294967296 + x; switch (w) { case 1: s++; case 9: s--; }"],
    "empty statements, and a `switch` without a `case`": ["if (x > 1) ; else s++;", "switch (x) { default: s++; }"],
    "an object goes at the next release point after its last handle": ["Counter k(1); Counter l(2); s += k.value + l.value;"],
}
HELPERS = """int trace = 1;
int bump(int k) { trace = trace * 10 + k; return trace; }
int two(int a, int b) { return a * 3 + b; }
"""


class Script:
    """One script, as it is written."""

    def __init__(self, seed):
        self.chance = random.Random(seed)
        self.globals = [(f"g{at}", self.pick(INTEGERS + ["bool"])) for at in range(self.chance.randint(2, 4))]
        self.pure, self.acting, self.locals, self.fixed, self.named = [], [], [], set(), 0
        self.has_objects = [], [], [], set(), self.chance.random() < 0.6
        self.has_counter = self.chance.random() < 0.25
        self.rule = self.pick(sorted(PHRASES)) if self.chance.random() < 0.25 else ""

    def pick(self, choices):
        return self.chance.choice(list(choices))

    def variable(self, kind):
        """A place of this type that is read, or None."""
        places = [name for name, of in self.locals + self.globals if of == kind]
        if self.has_objects and kind == "int" and self.chance.random() < 0.5:
            places += ["h0.v", "h1.v", f"r0[{self.chance.randint(0, 3)}]"]
        return self.pick(places) if places else None

    def number(self, kind, depth):
        """An expression of an integer type that has no effect, and isn't constant."""
        roll = self.chance.random()
        if depth <= 0 or roll < 0.2:
            if name := self.variable(kind):
                return name
            others = [it for it, of in self.locals + self.globals if of != "bool"]
            return f"{kind}({self.pick(others or ['g'])})"
        if roll < 0.45:
            left, right = self.sides(kind, depth)
            return f"({left} {self.pick('+-*')} {right})"
        if roll < 0.53:
            return f"({self.number(kind, depth - 1)} {self.pick('/%')} {self.chance.randint(1, 60)})"
        if roll < 0.61:
            return f"({self.number(kind, depth - 1)} {self.pick('&|^')} {self.number(kind, depth - 1)})"
        if roll < 0.69:
            count = self.number(self.pick(INTEGERS), depth - 1) if self.chance.random() < 0.5 else self.chance.randint(0, 31)
            return f"({self.number(kind, depth - 1)} {self.pick(['<<', '>>', '>>>'])} {count})"
        if roll < 0.74 and kind in SIGNED:
            return f"(-{self.number(kind, depth - 1)})"
        if roll < 0.77 and kind not in SIGNED:
            return f"(~{self.number(kind, depth - 1)})"
        if roll < 0.85:
            return f"{kind}({self.number(self.pick(INTEGERS), depth - 1)})"
        if roll < 0.92:
            one, other = self.number(kind, depth - 1), self.number(kind, depth - 1)
            return f"({self.truth(depth - 1)} ? {kind}({one}) : {kind}({other}))"
        if callable_ := [it for it in self.pure if it[1] != "bool"]:
            return self.called(self.pick(callable_), kind, depth)
        return self.number(kind, depth - 1)

    def sides(self, kind, depth):
        """Two operands that meet at a type: one is of it, and the other of any that does not change it."""
        narrow = {"int": ["int", "uint"], "uint": ["uint"], "int64": INTEGERS, "uint64": ["uint64", "uint"]}[kind]
        sides = [self.number(kind, depth - 1), self.number(self.pick(narrow), depth - 1)]
        if self.chance.random() < 0.25:
            sides[1] = str(self.chance.randint(0, 1000))
        self.chance.shuffle(sides)
        return sides

    def called(self, function, kind, depth):
        name, result, parameters = function
        arguments = ", ".join(self.value(of, depth - 1) for of in parameters)
        return f"{name}({arguments})" if result == kind else f"{kind}({name}({arguments}))"

    def truth(self, depth):
        roll = self.chance.random()
        if depth <= 0 or roll < 0.15:
            return self.variable("bool") or self.pick(["true", "false"])
        if roll < 0.6:
            kind = self.pick(INTEGERS)
            other = self.number(self.pick(INTEGERS), depth - 1)
            if self.chance.random() < 0.4:
                other = str(self.chance.randint(0, 100))
            return f"({self.number(kind, depth - 1)} {self.pick(['<', '<=', '>', '>=', '==', '!='])} {other})"
        if roll < 0.85:
            return f"({self.truth(depth - 1)} {self.pick(['&&', '||', '^^', '==', '!='])} {self.truth(depth - 1)})"
        if roll < 0.92 and self.has_objects:
            same = ["(h0 is h1)", "(h1 !is null)", "(cast<B>(i0) is null)", "(cast<A>(i0) is h0)"]
            return self.pick([*same, "r0.isEmpty()", "q0.isEmpty()"])
        return f"!{self.truth(depth - 1)}"

    def value(self, kind, depth):
        """What a place of this type takes: of an integer type it may be a value of another."""
        if kind == "bool":
            return self.truth(depth)
        return self.number(self.pick(INTEGERS) if self.chance.random() < 0.3 else kind, depth)

    def name(self):
        self.named += 1
        return f"l{self.named}"

    def declared(self):
        kind, name = self.pick(INTEGERS + ["bool"]), self.name()
        text = f"{kind} {name} = {self.value(kind, 3)};"
        self.locals.append((name, kind))
        return text

    def assigned(self, is_pure):
        places = [it for it in self.locals if it[0] not in self.fixed] + ([] if is_pure else self.globals)
        if not places:
            return self.declared()
        name, kind = self.pick(places)
        roll = self.chance.random()
        if kind == "bool" or roll < 0.5:
            return f"{name} = {self.value(kind, 3)};"
        if roll < 0.65:
            return self.pick([f"{name}++;", f"--{name};"])
        if roll < 0.75:
            divisor = self.variable(self.pick(INTEGERS))
            return f"{name} = {name} {self.pick('/%')} {divisor};" if divisor and "[" not in divisor else f"{name} -= 3;"
        return f"{name} {self.pick(['+=', '-=', '*=', '&=', '|=', '^=', '<<=', '>>=', '>>>='])} {self.number(kind, 2)};"

    def acted(self):
        """A statement that changes objects, arrays or globals."""
        number = lambda: self.number("int", 2)
        choices = []
        if numbers := [it for it in self.acting if it[1] != "bool"]:
            choices += [lambda: self.called(self.pick(numbers), self.pick(INTEGERS), 2) + ";"] * 2
            choices += [lambda: f"g = {self.called(self.pick(numbers), 'int', 2)};"] * 2
        if self.has_objects:
            choices += [
                lambda: f"h0.v = {number()};", lambda: f"h1.put({number()});", lambda: f"i0.put({number()});",
                lambda: f"@h1 = A({number()});", lambda: "@h1 = h0;", lambda: "@i0 = h1;", lambda: f"@i0 = B({number()});",
                lambda: f"r0[{self.chance.randint(0, 4)}] = {number()};", lambda: f"r0[uint({number()}) % 5] += 2;",
                lambda: f"r0.resize(uint({number()}) % 7);", lambda: f"r0.insertLast({number()});", lambda: "r0.removeLast();",
                lambda: "q0.insertLast(h1);", lambda: f"q0.insertLast(A({number()}));", lambda: "q0.removeLast();",
                lambda: f"if (q0.length() > 1) {{ q0[1].put({number()}); @q0[0] = h1; }}",
                lambda: "g = int(r0.length());",
                lambda: "{ A@ a = cast<A>(i0); if (a !is null) a.v++; }", lambda: "g = i0.get();", lambda: "@h1 = null;",
                lambda: f"{{ A a({number()}); a.put({number()}); @h1 = a; }}",
                lambda: "for (uint k = 0; k < q0.length(); k++) q0[k].v++;",
            ]
        if self.has_counter:
            choices += [lambda: f"@c0 = Counter({number()});", lambda: f"g = c0.add({number()});", lambda: f"tally({number()});"]
            choices += [lambda: f"c0.value = {number()};", lambda: "if (c0.value > 1000) c0.fail(7);"]
        return self.pick(choices)() if choices else self.assigned(False)

    def statement(self, depth, is_pure):
        roll, kept = self.chance.random(), len(self.locals)
        inner = lambda: self.block(depth - 1, is_pure)
        if depth <= 0 or roll < 0.3:
            text = self.assigned(is_pure) if is_pure or roll < 0.12 else self.acted()
        elif roll < 0.45:
            return self.declared()
        elif roll < 0.6:
            text = f"if ({self.truth(3)}) {inner()}" + (f" else {inner()}" if self.chance.random() < 0.5 else "")
        elif roll < 0.75:
            name = self.name()
            self.locals.append((name, "int"))
            self.fixed.add(name)
            jump = self.pick(["", f"if ({self.truth(2)}) continue; ", f"if ({self.truth(2)}) break; "])
            loop = f"for (int {name} = 0; {name} < {self.chance.randint(1, 6)}; {name}++) {{ {jump}{inner()} }}"
            self.fixed.discard(name)
            text = loop
        elif roll < 0.85:
            name = self.name()
            self.locals.append((name, "int"))
            self.fixed.add(name)
            turns = self.chance.randint(1, 5)
            before, after = self.pick([(f"while ({name} < {turns})", ""), ("do", f" while ({name} < {turns});")])
            text = f"{{ int {name} = 0; {before} {{ {name}++; {inner()} }}{after} }}"
            self.fixed.discard(name)
        else:
            kind = self.pick(["int", "uint"])
            cases = self.chance.sample(range(0, 9), self.chance.randint(1, 4))
            parts = "".join(f"case {it}: {inner()} {self.pick(['break;', ''])} " for it in cases)
            text = f"switch ({self.number(kind, 2)} {self.pick('%&')} 8) {{ {parts}default: {inner()} }}"
        del self.locals[kept:]
        return text

    def block(self, depth, is_pure):
        kept = len(self.locals)
        text = " ".join(self.statement(depth, is_pure) for _ in range(self.chance.randint(1, 3)))
        del self.locals[kept:]
        return f"{{ {text} }}"

    def function(self, name, is_pure, result=None):
        result = result or self.pick(INTEGERS + ["bool"])
        parameters = [(f"p{at}", self.pick(INTEGERS + ["bool"])) for at in range(self.chance.randint(0, 3))]
        self.locals = list(parameters)
        body = " ".join(self.statement(2, is_pure) for _ in range(self.chance.randint(1, 4)))
        head = f"{result} {name}({', '.join(f'{kind} {it}' for it, kind in parameters)})"
        text = f"{head} {{ {body} return {self.value(result, 3)}; }}\n"
        self.locals = []
        return text, (name, result, [kind for _, kind in parameters])

    def objects(self):
        number = lambda: self.number("int", 2)
        method = lambda text: self.with_local(text, number)
        return f"""interface I {{ void put(int x); int get(); }}
class A : I {{ int v; int w = 3; A(int k) {{ v = k; }}
void put(int x) {{ v = {method('x')}; w += 1; }} int get() {{ return v * 3 + w; }} }}
class B : I {{ int v; array<int> all; B(int k) {{ v = k; all.insertLast(k); }}
void put(int x) {{ v += x; all.insertLast(x); }} int get() {{ return all[all.length() - 1] + {method('v')}; }} }}
A@ h0 = A({self.chance.randint(0, 9)});
A@ h1 = A({self.chance.randint(0, 9)});
I@ i0 = h0;
array<int> r0(5);
array<A@> q0;
"""

    def with_local(self, name, make):
        self.locals, had = [(name, "int")], self.has_objects
        self.has_objects = False
        text = make()
        self.locals, self.has_objects = [], had
        return text

    def ruled(self):
        """A function with a phrase of the script's rule."""
        return HELPERS + f"int ruled(int x, uint u) {{ int s = 0; {{ {self.pick(PHRASES[self.rule])} }} return s; }}\n"

    def text(self):
        values = {kind: self.pick(EDGES[kind]) if kind == "bool" else self.chance.randint(0, 1000) for _, kind in self.globals}
        source = "int g = 0;\n" + "".join(f"{kind} {name} = {values[kind]};\n" for name, kind in self.globals)
        if self.has_counter or self.rule and "Counter" in PHRASES[self.rule][0]:
            source += "Counter@ c0 = Counter(1);\n"
        if self.has_objects:
            source += self.objects()
        for at in range(self.chance.randint(1, 3)):
            text, head = self.function(f"p{at}f", True)
            source += text
            self.pure.append(head)
        self.globals.append(("g", "int"))
        for at in range(self.chance.randint(1, 3)):
            text, head = self.function(f"f{at}", False)
            source += text
            self.acting.append(head)
        return source + (self.ruled() if self.rule else "")


def script(seed):
    it = Script(seed)
    steps = [load(it.text().encode())]
    for _ in range(3):
        for name, _, parameters in it.pure + it.acting:
            steps.append(call(name, *(it.pick(EDGES[kind]) for kind in parameters)))
        if it.rule:
            steps.append(call("ruled", it.pick(EDGES["int"]), it.pick(EDGES["uint"])))
    return Case(f"seed {seed}", steps, 1_000_000, 4096, it.rule)


def scripts(seed, count):
    for number in range(count):
        yield script(seed * 1_000_000 + number)
