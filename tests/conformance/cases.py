"""What is run: the project's own scripts, as they stand in examples, in docs/LANGUAGE.md and in tests."""

import collections
import glob
import re

COMPARISONS = ("<", "<=", ">", ">=", "==", "!=")
HOLDING = "array<int>() is null || " * 32
HOLD = f"bool hold(int n) {{ return n >= 32 ? {HOLDING}hold(n - 32) : n > 0 ? array<int>() is null || hold(n - 1) : last(); }} "


class Case:
    """A run of requests on its own: where it stands, and loads and lines. A seeded script has the rule that it may differ by,
    or ''."""

    def __init__(self, place, steps, budget=100_000, counters=2, rule=None):
        self.place, self.steps, self.budget, self.counters, self.rule = place, steps, budget, counters, rule
        # how many loads and calls both have replied to in the same way, by what they replied
        self.same = collections.Counter()

    def changed(self, change):
        """The same with its sources changed."""
        steps = [(*it[:2], change(it[2])) if it[0] == "load" else it for it in self.steps]
        return Case(self.place, steps, self.budget, self.counters, self.rule)

    def is_alone(self):
        """Whether it uses host objects or a service, which others would find changed, or modules that it doesn't discard."""
        return any(re.search(b"Counter|tally|total", it[2]) or it[1] != "m" for it in self.steps if it[0] == "load")


def load(source, module="m"):
    return ("load", module, source)


def call(*words, module="m"):
    return ("line", f"call {module} {' '.join(str(it) for it in words)}")


def stream(data):
    """The steps of a stream of requests, in bytes. What is no load, call, get or discard is left out."""
    steps, at = [], 0
    while at < len(data):
        end = data.find(b"\n", at)
        end = len(data) if end < 0 else end
        line, at = data[at:end].decode("latin-1"), end + 1
        words = line.split(" ")
        if words[0] == "load" and len(words) == 3 and words[2].isdigit():
            length = int(words[2])
            source, end = data[at : at + length], data[at + length : at + length + 1]
            at += length + 1
            if end == b"\n" and re.fullmatch(r"[A-Za-z_]\w{0,63}", words[1]):
                steps.append(load(source, words[1]))
            elif end != b"\n":
                at = max(data.find(b"\n", at), 0) + 1 or len(data)
        elif re.fullmatch(r"call \w+ \w+(?: (?:-?\d+|true|false))*|get \w+ \w+|discard \w+", line):
            steps.append(("line", line))
    return steps


def examples():
    for name in sorted(glob.glob("examples/*.requests")):
        yield Case(name, stream(open(name, "rb").read()))
    text = open("docs/LANGUAGE.md", encoding="utf-8").read()
    for number, block in enumerate(re.findall(r"^```\n(.*?)^```", text, re.M | re.S)):
        if "{" in block:
            steps = [load(block.encode()), call("won", 3, 10), call("buy", 30), call("first")]
            yield Case(f"docs/LANGUAGE.md, block {number + 1}", steps)


def transcripts():
    """Each store of a transcript is a case, over all runs of it."""
    for name in sorted(glob.glob("tests/transcripts/*.txt")):
        place, sent, budget, counters = name, b"", 100_000, 2
        for number, line in enumerate(open(name, "rb").read().split(b"\n"), 1):
            if line.startswith((b"$ ashd create", b"$ ashd try")):
                if sent:
                    yield Case(place, stream(sent), budget, counters)
                place, sent = f"{name}:{number}", b""
            if line.startswith(b"$ ashd ") and (found := re.search(rb"--budget (\d+) --counters (\d+)", line)):
                budget, counters = int(found[1]), int(found[2])
            if line.startswith(b">"):
                sent += line[1:].removeprefix(b" ") + b"\n"
        yield Case(place, stream(sent), budget, counters)


def rows(folder):
    """The place of each row, what is before its first bar, and what is after it."""
    for name in sorted(glob.glob(f"tests/rows/{folder}/*.rows")):
        for number, line in enumerate(open(name, encoding="utf-8").read().split("\n"), 1):
            if line and not line.startswith("# ") and " | " in line:
                wanted, rest = line.split(" | ", 1)
                yield f"{name}:{number}", wanted, rest


def sources():
    """Scripts that are accepted or refused."""
    for folder in ("check", "load"):
        for place, _, source in rows(folder):
            yield Case(place, [load(source.encode())])
    for place, _, parts in rows("nests"):
        before, opens, inner, closes, after = parts.split("#")
        for count in (1, 2, 40):
            yield Case(f"{place}, {count} times", [load((before + opens * count + inner + closes * count + after).encode())])
    for place, _, source in rows("depth"):
        for count in (1, 8):
            yield Case(f"{place}, in {count} blocks", [load(f"void f() {{ {'{' * count}{source}{'}' * count} }}".encode())])
    for name in sorted(glob.glob("tests/rows/truncated/*.as")):
        whole = open(name, "rb").read()
        for count in range(0, len(whole) + 1, 5):
            yield Case(f"{name}, {count} bytes", [load(whole[:count])])


def run_steps(requests, scripts):
    """The steps of a row of tests/rows/run. A store that is opened again is the same one here."""
    parts, budget = requests.split("; "), 1000
    scripts = [it.replace("\\n", "\n").strip(" ").encode() for it in scripts.split("#")]
    if parts[0].startswith("budget "):
        budget = int(parts.pop(0).split()[1])
    if not parts[0].startswith("load"):
        parts.insert(0, "load")
    steps = []
    for part in parts:
        words = part.split()
        if words[0] == "load":
            steps.append(load(scripts[int(words[2]) - 1 if len(words) > 2 else 0], words[1] if len(words) > 1 else "m"))
        elif words[0] in ("reopen", "object", "seq", "snapshot"):
            continue
        elif words[0] == "call" or words[0] in ("get", "discard") and len(words) == 2 + (words[0] == "get"):
            steps.append(("line", part))
        elif words[0] in ("get", "discard"):
            steps.append(("line", f"{words[0]} m {' '.join(words[1:])}".strip()))
        else:
            steps.append(call(*words))
    return steps, budget


def runs():
    for folder in ("run", "limits"):
        for place, _, rest in rows(folder):
            requests, scripts = rest.split(" | ", 1)
            if folder == "limits":
                scripts = "#".join(HOLD + it for it in scripts.split("#"))
            yield Case(place, *run_steps(requests, scripts))
    for place, _, rest in rows("ticks"):
        request, script = rest.split(" | ", 1)
        yield Case(place, run_steps(request, script)[0])
    making = "class A { } A@ g; int one(A@ a) { return 1; } int two(A@ a, A@ b) { return 2; } "
    for place, _, script in rows("releases"):
        yield Case(place, [load((making + script).encode()), call("f")])


PLACES = "class P { T v; } T g; P p; array<T> l(1); "
COMPUTING = PLACES + """T value(T a, T b) { return a O b; } T stored(T a, T b) { return a O= b; }
T local(T a, T b) { a O= b; return a; } T global(T a, T b) { g = a; g O= b; return g; }
T field(T a, T b) { p.v = a; p.v O= b; return p.v; } T element(T a, T b) { l[0] = a; l[0] O= b; return l[0]; }"""
STEPPING = PLACES + """T value(T a) { return O a; } T before(T a) { O a; return a; } T after(T a) { a O; return a; }
bool old(T a) { T b = a; return a O == b; } T global(T a) { g = a; O g; return g; }
T field(T a) { p.v = a; O p.v; return p.v; } T element(T a) { l[0] = a; O l[0]; return l[0]; }"""
CONVERTING = """class P { T v; } T g; P p; array<T> l(1); T same(T a) { return a; } T explicit(F a) { return T(a); }
T result(F a) { return a; } T initial(F a) { T x = a; return x; } T bracket(F a) { T x(a); return x; }
T local(F a) { T x; x = a; return x; } T global(F a) { g = a; return g; } T field(F a) { p.v = a; return p.v; }
T element(F a) { l[0] = a; return l[0]; } T argument(F a) { return same(a); } T stored(F a) { T x; return x = a; }
T added(F a) { array<T> k; k.insertLast(a); return k[0]; }"""


def functions(source):
    """The names of a source's functions."""
    return re.findall(r"\b(?:bool|u?int(?:64)?|[TF]) (\w+)\(\w+ \w", source)


def written(form, kind, operator=""):
    return re.sub(r"\bO\b|\bO(?==)", operator, re.sub(r"\bT\b", kind, form))


def numbers():
    """The tables of integers, with each form of a place."""
    for place, _, rest in rows("integers"):
        kind, words, left = re.search(r"(\w+)\.rows", place)[1], rest.split(), []
        if words[0][-1].isdigit():
            left.append(words.pop(0))
        operator, words = words[0], words[1:]
        if not left:
            result = kind.removeprefix("u") if operator == "-" else kind
            form = STEPPING if operator in ("++", "--") else f"{result} value(T a) {{ return O a; }}"
        else:
            form = "bool value(T a, T b) { return a O b; }" if operator in COMPARISONS else COMPUTING
        source = written(form, kind, operator)
        names = functions(source)
        yield Case(place, [load(source.encode()), *(call(name, *left, word) for name in names for word in words)])
    for place, wanted, rest in rows("mixed"):
        kind, (left, operand, operator, right, *words) = wanted.split()[0], rest.split()
        wide = kind if kind in ("bool", "uint64") else "int64"
        rest = f"({left} a, {right} b) {{ return a {operator} b; }}"
        source = f"{kind} f{rest} {wide} w{rest}"
        yield Case(place, [load(source.encode()), *(call(name, operand, word) for word in words for name in "fw")])
    for place, _, rest in rows("conversions"):
        start, end, *words = rest.split()
        source = re.sub(r"\bF\b", start, written(CONVERTING, end))
        names = [it for it in functions(source) if it != "same"]
        yield Case(place, [load(source.encode()), *(call(name, word) for name in names for word in words)])
    for place, value, text in rows("expressions"):
        kind = "bool" if value in ("true", "false") else "int"
        yield Case(place, [load(f"{kind} f() {{ return {text}; }}".encode()), call("f")])


def project():
    for part in (examples, transcripts, sources, runs, numbers):
        yield from part()
