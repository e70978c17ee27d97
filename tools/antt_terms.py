"""Reads the definitions of antt files that hold only names for numbers, lists and expressions of a grammar, and computes them.

It knows what specs/Classes of crate `lexer`, specs/Kinds of `own`, the rules of `kinds` and the definitions of specs/Shapes of `grammar` use: clauses
by name, variable, [] and ( x ∷ .. ); constructors of data; application; the operators below; λ; pairs and .0, .1 of them; numerals; texts, which `ascii` leaves
as they are; one form of record. A file may be read under a short name, as `use .. as t` has it: then its names are t.NAME.
"""
import os
import re

OPERATORS = {"^": 70, "but": 61, "∷": 60, "++": 55, "▸": 43, "⨾": 42, "¦": 41, ",": 10}  # all read as if they associated to the right


def definitions(text):
    """name -> clauses, each a list of words with '=' in it."""
    clauses, current = [], None
    for line in text.split("\n"):
        line = re.sub(r"(^|\s)--.*$", "", line).rstrip()
        if not line:
            continue
        if line[0] not in " }":
            current = None
            words = line.split()
            if words[0] in ("use", "infixr", "infixl", "pub", "unfolding"):
                continue
            if words[0] in ("abbrev", "unfoldable"):
                continue  # a signature
            current = [line]
            clauses.append(current)
        elif current is not None:
            current.append(line)
    out = {}
    for lines in clauses:
        text = re.sub(r"(\w+)\.(\d)(?!\w)", r"(\1 .\2)", " ".join(lines))  # a projection, written tight
        words = re.findall(r'"[^"]*"|[(){};,]|[^\s(){};,]+', text)
        cut = words.index("=")
        left, right = words[:cut], words[cut + 1:]
        infix = [i for i, w in enumerate(left) if w in OPERATORS and left[:i].count("(") == left[:i].count(")")]
        name, args = (f"◌{left[infix[0]]}◌", left[:infix[0]] + left[infix[0] + 1:]) if infix else (left[0], left[1:])
        out.setdefault(name, []).append((patterns(args), right))
    return out


def constructors(text):
    """name -> arity, of the data that a file declares."""
    out, inside = {}, False
    for line in text.split("\n"):
        if line and line[0] != " ":
            inside = line.startswith("pub data ")
        elif inside and ":" in line and not line.strip().startswith("--"):
            names, kind = line.split(":", 1)
            out.update({n: kind.count("→") for n in names.split()})
    return out


def under(short, defs):
    """The definitions of a file with its own names as others write them: short.NAME."""
    def full(w):
        return f"{short}.{w}" if w in defs else w

    return {full(n): [(pats, [full(w) for w in body]) for pats, body in clauses] for n, clauses in defs.items()}


def patterns(words):
    """x, [] or ( x ∷ y ∷ l )"""
    out, i = [], 0
    while i < len(words):
        if words[i] == "(":
            end = words.index(")", i)
            out.append(("cons", words[i + 1:end:2]))
            i = end + 1
        else:
            out.append(("nil",) if words[i] == "[]" else ("var", words[i]))
            i += 1
    return out


class Reader:
    def __init__(self, words):
        self.words, self.i = words, 0

    def peek(self):
        return self.words[self.i] if self.i < len(self.words) else None

    def take(self, expected=None):
        w = self.words[self.i]
        if expected is not None and w != expected:
            raise SystemExit(f"expected {expected}, found {w} in {' '.join(self.words)}")
        self.i += 1
        return w

    def atom(self):
        w = self.take()
        if w == "(":
            e = self.expr(0)
            self.take(")")
            return e
        if w == "record":
            self.take("{")
            fields = {}
            while self.peek() != "}":
                name = self.take()
                self.take("=")
                fields[name] = self.expr(0)
                if self.peek() == ";":
                    self.take()
            self.take("}")
            return ("record", fields)
        if w == "λ":
            names = [self.take()]
            while not names[-1].endswith("."):
                names.append(self.take())
            return ("lambda", [n.rstrip(".") for n in names], self.expr(0))
        if w.isdigit():
            return ("number", int(w))
        if w[0] == '"':
            return ("text", w[1:-1])
        return ("name", w)

    def application(self):
        e = self.atom()
        while self.peek() not in (None, ")", ";", "}") and self.peek() not in OPERATORS:
            if re.fullmatch(r"\.\d", self.peek()):
                e = ("part", e, int(self.take()[1:]))
            else:
                e = ("apply", e, self.atom())
        return e

    def expr(self, least):
        e = self.application()
        while self.peek() in OPERATORS and OPERATORS[self.peek()] >= least:
            op = self.take()
            e = ("apply", ("apply", ("name", f"◌{op}◌"), e), self.expr(OPERATORS[op]))
        return e


class Values:
    """The values of the definitions: numbers, lists, and expressions as tuples ('mark', 4), ('seq', e, f), .."""

    BUILT_IN = {"eps": 0, "mark": 1, "child": 1, "part": 1, "seq": 2, "or": 2, "many": 1, "list": 2, "tail": 2}

    LISTS = {
        "◌∷◌": lambda x: lambda l: [x] + l,
        "◌++◌": lambda k: lambda l: k + l,
        "◌but◌": lambda k: lambda l: [x for x in k if x not in l],
        "◌,◌": lambda x: lambda y: (x, y),
        "◌^◌": lambda x: lambda y: x ** y,
        "map": lambda f: lambda l: [f(x) for x in l],
        "foldr": lambda f: lambda z: lambda l: f(l[0])(Values.LISTS["foldr"](f)(z)(l[1:])) if l else z,
        "span": lambda a: lambda b: list(range(a, b + 1)),
        "ascii": lambda text: text,
    }

    def __init__(self, sources):
        """sources: (file, short name or None); by the file's own name, sources[NAME] has its definitions."""
        self.defs, self.done, self.sources, self.built_ins = {}, {}, {}, dict(self.BUILT_IN)
        for path, short in sources:
            text = open(path).read()
            found = definitions(text)
            self.built_ins.update(constructors(text))
            source = os.path.splitext(os.path.basename(path))[0]
            self.sources[source] = found if short is None else under(short, found)
            self.defs.update(self.sources[source])

    def value(self, name):
        if name not in self.done:
            if name == "[]":
                self.done[name] = []
            elif name in self.LISTS:
                self.done[name] = self.LISTS[name]
            elif name in self.defs:
                self.done[name] = self.function(self.defs[name], len(self.defs[name][0][0]), ())
            elif name in self.built_ins:
                self.done[name] = self.built_in(name, self.built_ins[name], ())
            else:
                raise SystemExit(f"no definition of {name}")
        return self.done[name]

    def built_in(self, name, arity, args):
        if arity == 0:
            return (name,) + args
        return lambda x: self.built_in(name, arity - 1, args + (x,))

    def function(self, clauses, arity, args):
        if len(args) < arity:
            return lambda x: self.function(clauses, arity, args + (x,))
        for pats, body in clauses:
            env = {}
            for p, v in zip(pats, args):
                if p[0] == "var":
                    env[p[1]] = v
                elif p[0] == "nil" and v == []:
                    pass
                elif p[0] == "cons" and (len(v) == len(p[1]) - 1 if p[1][-1] == "[]" else len(v) >= len(p[1]) - 1):
                    n = len(p[1]) - 1
                    env.update(zip(p[1], v[:n] + [v[n:]]))
                else:
                    break
            else:
                reader = Reader(body)
                e = reader.expr(0)
                if reader.peek() is not None:
                    raise SystemExit(f"left over: {' '.join(body)}")
                return self.eval(e, env)
        raise SystemExit("no clause fits")

    def eval(self, e, env):
        if e[0] in ("number", "text"):
            return e[1]
        if e[0] == "name":
            return env[e[1]] if e[1] in env else self.value(e[1])
        if e[0] == "apply":
            return self.eval(e[1], env)(self.eval(e[2], env))
        if e[0] == "part":
            return self.eval(e[1], env)[e[2]]
        if e[0] == "lambda":
            if not e[1]:
                return self.eval(e[2], env)
            return lambda x: self.eval(("lambda", e[1][1:], e[2]), env | {e[1][0]: x})
        return {k: self.eval(v, env) for k, v in e[1].items()}
