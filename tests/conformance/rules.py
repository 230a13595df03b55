"""The rules of docs/LANGUAGE.md by which a script may differ, each with what such a difference looks like.

A rule names both replies, and often a shape of the source. A case without such a shape that differs is a difference."""

import re

OBJECT = r"(?:array ?< ?[\w@]+ ?>|[A-Z]\w*)"
PRIMITIVE = r"(?:bool|u?int(?:32|64)?)"


class Rule:
    """What ashd replies, what the engine replies, and the source, each by a pattern that is found in it."""

    def __init__(self, name, ashd, engine, source=""):
        self.name, self.parts = name, (ashd, engine, source)

    def explains(self, difference):
        source = difference.source.decode("utf-8", "replace")
        texts = (str(difference.ashd), str(difference.engine), source)
        return all(re.search(part, text, re.S) for part, text in zip(self.parts, texts))


# shapes of sources
ASSIGNED = rf"{OBJECT} \w+(?:, \w+)* = |[;{{] \w+ = \w+; |\w == \w"
ORDERED = r"\w\(\w\(\d\), \w\(\d\)|h\(n = 1, 1 / z, |\bh\(\)(?:\.m\(g|\[g)"
LARGE = "(?:2147483648|2147483649|429496729[0-5])"
FIELDS = r"class \w+ \{[^}]* = [^;]*;(?: \w+ \w+;)* [A-Z]\w* \w+;"
TWICE = r"(\b\w+)[^;{]*, (?:bool )?\1\b"
# messages of the engine
NAMES = "Illegal variable name|Invalid operation on method|non-function type|named with the class name"
REFUSED = "^refused "
TAKEN = r"^(?:ok|exception|aborted)"
RULES = [
    # limits and ticks
    Rule("a run has a budget of ticks", "^aborted", TAKEN),
    Rule("limits of this profile", r"^refused (?:10[367]|311|40[89]) |^exception (?:ObjectLimit|ArrayLimit|NumbersSpent) ", ""),
    Rule("256 frames are the most, and 4,096 living objects", "^exception StackOverflow", TAKEN),
    # what the profile leaves out
    Rule("left out: a word or a sign of AngelScript", "^refused 105 ", TAKEN),
    Rule("classes whose objects could form a cycle are refused", "^refused 309 ", TAKEN),
    Rule("left out: arrays of arrays", "^refused 104 ", TAKEN, r"array ?<\s*array"),
    Rule("left out: parameters without names, `f(void)`", "^refused 104 ", TAKEN, rf"\((?:void|{PRIMITIVE})\)"),
    Rule("left out: `shared`, a `;` in an interface", "^refused 104 ", TAKEN, r"^shared|interface \w+ \{ ;"),
    Rule("left out: value passing of objects", "^refused 308 ", TAKEN, rf"[(,] ?{OBJECT} \w+|{OBJECT} \w+\("),
    Rule("left out: inheritance", "^refused 308 ", TAKEN, r"class \w+ : "),
    Rule("left out: value assignment of objects, operators on them", "^refused 30[46] ", TAKEN, ASSIGNED),
    Rule("left out: overloading of functions and operators", "^refused 303 ", TAKEN, r"(\b\w+)\(.*\b\1\("),
    Rule("left out: overloading of functions and operators", "^refused 303 ", TAKEN, r"(?:tally|total|Counter)\("),
    Rule("an array is made with one length at most", "^refused 305 ", TAKEN, r"array<\w+>(?: \w+)?\(\d, \d\)"),
    # what else the profile refuses
    Rule("an interface is listed once, and a parameter's name is", "^refused 303 ", TAKEN, TWICE),
    Rule("a `switch` compares its value in all its bits", "^refused 312 ", TAKEN, "switch"),
    Rule("the value of an assignment is no place", "^refused 306 ", TAKEN, r"\((?:\w+ = \w+|@\w+)\) = "),
    Rule("a local is seen from the end of its declaration on", "^refused 30[14] ", TAKEN, r"(\b\w+) = \1;"),
    Rule("`null` by itself has no type", "^refused 304 ", TAKEN, r"@null|\(null\)|null : null|[!=]= ?null|null [!=]= "),
    Rule("nothing but an object of its own type gives a handle", "^refused 304 ", TAKEN, r"Counter@|cast<Counter>"),
    Rule("the branches of `? :` are of one type", "^refused 304 ", TAKEN, r"b \? [ia] : [ia]"),
    # what the engine refuses or can't take
    Rule("an empty source is a module", "^ok|^exception", "Nothing was built"),
    Rule("a constant divisor of zero is an exception when it is reached", "", "^refused .*Divide by zero"),
    Rule("a `switch` compares its value in all its bits", "^ok", "^refused .*Duplicate switch case", "u?int64"),
    Rule("`is` compares a handle of an interface with any object", "^ok", "^refused .*No conversion from", r"\bis\b"),
    Rule("`cast` takes any object, also one that can't be of the type", "^ok", "^refused .*No conversion from", r"cast<"),
    Rule("empty statements, and a `switch` without a `case`", "^ok", "^refused .*(?:with empty statement|Empty switch statement)"),
    Rule("a `switch` with a `default` may be the last statement", "^ok", "^refused .*Not all paths return", "switch"),
    Rule("a variable of a primitive type takes one argument in brackets", "^ok", "^refused .*Only objects have constructors"),
    Rule("names are looked up as what they are used for", "^ok", f"^refused .*(?:{NAMES})"),
    Rule("the branches of `? :` meet as operands do", "", "^refused .*unambiguous implicit conversion", r"\?"),
    Rule("a property of a new object is a place", "^ok", "^refused .*not an l-value", r"\w\(\d*\)\.\w+ = "),
    # what runs in another way
    Rule("operands and arguments are computed from left to right", TAKEN, TAKEN, ORDERED),
    Rule("a local is read when its operand's turn comes", TAKEN, TAKEN, r"x \+ \(x = 5\)"),
    Rule("a number from 2147483648 to 4294967295 is a `uint`", TAKEN, TAKEN, rf"(?:return|[=<>+-]|\() ?-?{LARGE}\b"),
    Rule("of constants only a number by itself adapts", TAKEN, TAKEN, r"uint x = .*\((?:1|2|5)\)"),
    Rule("`&`, `|` and `^` give a type with a sign if either has one", "^ok", "^ok", r"uint a, int b\) \{ return a [&|^] b"),
    Rule("`~` and `+` before an operand keep its type", "^ok", "^ok", r"int64 i\(\) \{ return ~k; \}"),
    Rule("a division of constants that overflows is an exception", "^exception DivideOverflow", "^ok", r"-\d+ % -1"),
    Rule("a `switch` compares its value in all its bits", "^ok", "^ok", r"int64 k\) \{ switch \(k - 1\)"),
    Rule("a `switch` with the least and the greatest `int` finds both", "^ok", "^ok", r"case -2147483648:.*case 2147483647:"),
    Rule("globals are initialized in source order", TAKEN, TAKEN, r"= (\w+)\b[^;]*; \w+ \1(?: =|;)"),
    Rule("fields are initialized in the order of declaration", TAKEN, TAKEN, FIELDS),
    Rule("a handle that is assigned to itself keeps its object", "^ok", "^ok", r"@(\w+) = @\1"),
    Rule("an object goes at the next release point after its last handle", r"^dropped \[", r"^dropped \["),
    Rule("the engine stops itself at a source that is refused", REFUSED, "^ended"),
]


LINE = "an exception has the line of the last tick of its frame"
UNINITIALIZED = "a local without an initializer is zero, `false` or null"


def rule_of(difference):
    """The name of the rule, or None."""
    if difference.case.rule is not None:
        # the function `ruled` has its phrase, and changes no global but these
        is_there = re.match(r"load |call m ruled |discard |whole m (?:trace|c0)", difference.step)
        return difference.case.rule if is_there and difference.case.rule else None
    ashd, engine = (str(it).split(" ") for it in (difference.ashd, difference.engine))
    if ashd[0] == "exception" and ashd[:3] == engine[:3] and len(ashd) > 3 and ashd[4:] == engine[4:]:
        return LINE
    return next((it.name for it in RULES if it.explains(difference)), None)


TOKEN = re.compile(rb"\s+|//[^\n]*|/\*.*?\*/|\w+|.", re.S)


def initialized(source):
    """A source with an initializer for each local of a primitive type that has none."""
    texts = TOKEN.findall(source)
    tokens = [at for at, it in enumerate(texts) if it.strip() and not it.startswith((b"//", b"/*"))]
    kinds, ahead, added = [], None, {}
    for at, index in enumerate(tokens):
        text = texts[index]
        if text in (b"class", b"interface"):
            ahead = "class"
        if text == b"{":
            kinds.append(ahead or "function")
            ahead = None
        elif text == b"}" and kinds:
            kinds.pop()
        before = texts[tokens[at - 1]] if at else b";"
        is_local = kinds and kinds[-1] == "function" and before in (b";", b"{", b"}", b":", b"(")
        if is_local and re.fullmatch(PRIMITIVE.encode(), text):
            zero = b" = false" if text == b"bool" else b" = 0"
            initialize(texts, tokens, at + 1, zero, added)
    return b"".join(it + added.get(at, b"") for at, it in enumerate(texts))


def initialize(texts, tokens, at, zero, added):
    """Adds initializers to the variables of one declaration, which begin here."""
    depth, is_name = 0, True
    for here, after in zip(tokens[at:], tokens[at + 1 :]):
        text, following = texts[here], texts[after]
        if is_name and following in (b",", b";"):
            added[here] = zero
        is_name = depth == 0 and text == b","
        depth += (text in b"([{") - (text in b")]}")
        if depth < 0 or text == b";":
            return
