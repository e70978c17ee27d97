#!/usr/bin/env python3
"""Compares the LL(1) table of tools/grammar.py with a direct reading of document 01, "Well-shaped drafts", and document 02, order 3: for one function, and
for a file.

    tools/compare_grammar.py [DRAFTS [SEED [DEPTH]]]

The direct reading is a plain grammar over the texts of tokens, not factored and ambiguous, written from the sentences alone, and read
by Earley's method, which refuses at the first token after which nothing can follow. Random drafts are made from it and damaged.
For each list of tokens both must give the same verdict and the same refused token. Besides, from a few beginnings, all ways to go on
by a few tokens are compared. Prints the numbers; exits 1 at the first difference.
"""
import os
import random
import sys

sys.path.insert(0, os.path.dirname(os.path.abspath(__file__)))
import grammar as generated  # noqa: E402

# ------------------------------------------------------------------------------------------------ the tokens, as texts
RESERVED = "unwrap_left unwrap_right array_fold for_while is_none unwrap assert panic match into fold dbg raw_hash".split()
WORDS = "Left Right Some None Either Option List".split()
TYPES = ["bool"] + ["u" + str(2 ** k) for k in range(9)] + (
    "Ctx8 Pubkey Message Message64 Signature Scalar Fe Ge Gej Point Height Time Distance Duration Lock Outpoint Confidential1 ExplicitAsset Asset1 "
    "ExplicitAmount Amount1 ExplicitNonce Nonce TokenAmount1"
).split()
KINDS = ("pub use as fn let type mod const match enum crate simc -> :: : ; , = => ( ) [ ] { } < >").split()
NAMES = ["x", "_"] + WORDS + [w for w in RESERVED if w != "match"] + TYPES
TEXTS = ([k for k in KINDS if k != "simc"] + ["1", "0x1", "0b1", "jet::j", "witness::W", "param::P", "assert!", "panic!", "dbg!", "list!", "false", "true"] + NAMES)


def class_of(text):
    """The class of a token, as crates/lexer/specs/Classes.antt numbers it."""
    if text in WORDS:
        return 37 + WORDS.index(text)
    if text in RESERVED and text != "match":
        return 44 + RESERVED.index(text)
    for first, group in ((57, ["assert!", "panic!", "dbg!", "list!"]), (61, ["false", "true"])):
        if text in group:
            return first + group.index(text)
    if text in TYPES:
        return 63 + TYPES.index(text)
    if text in KINDS:
        return 1 + KINDS.index(text)
    for number, start in ((33, "jet::"), (34, "witness::"), (35, "param::"), (29, "0x"), (30, "0b"), (28, "1")):
        if text.startswith(start):
            return number
    return 32


# ------------------------------------------------------------------------------------------------ document 01, sentence by sentence
# A terminal is a text in quotes or one of the words below; ? * mark what may be missing or repeated; L(X) is a list that may be
# empty and may end in a comma.
TERMINALS = {
    "identifier": set(NAMES),
    "function-name": set(NAMES) - set(RESERVED),
    "called-name": set(NAMES) - set(RESERVED) - {"None"},  # `None` is itself unless `::` follows
    "alias-name": set(NAMES) - set(TYPES) - {"Either", "Option", "List"},  # any not in `ALIAS_RESERVED`
    "decimal": {"1"}, "digits": {"1", "0x1", "0b1"}, "jet": {"jet::j"}, "witness": {"witness::W"}, "parameter": {"param::P"},
    "boolean": {"true", "false"},
}
RULES = """
Function = 'pub'? 'fn' function-name '(' L(Param) ')' Result? Block
Param    = identifier ':' Type
Result   = '->' Type
Block    = '{' Ended* '}' | '{' Ended* Expr '}'
Ended    = Let ';' | Expr ';'
Let      = 'let' Pattern ':' Type '=' Expr
Pattern  = identifier | '(' L(Pattern) ')' | '[' L(Pattern) ']'
Type     = 'Either' '<' Type ',' Type '>' | 'Option' '<' Type '>' | 'List' '<' Type ',' decimal '>' | '(' L(Type) ')' | '[' Type ';' decimal ']' | identifier
Expr     = Block | Wrapper | 'None' | '(' Expr ')' | '(' L(Expr) ')' | Enum | Call | identifier | boolean | digits | witness | parameter | '[' L(Expr) ']' | 'list!' '[' L(Expr) ']' | 'match' Expr '{' Arm* '}'
Wrapper  = 'Left' '(' Expr ')' | 'Right' '(' Expr ')' | 'Some' '(' Expr ')'
Path     = identifier '::' identifier | Path '::' identifier
Enum     = Path | Path '(' L(Expr) ')'
Call     = Callee '(' L(Expr) ')'
Callee   = '<' Type '>' '::' 'into' | Typed '::' '<' Type '>' | Folds '::' '<' function-name ',' decimal '>' | 'for_while' '::' '<' function-name '>' | 'unwrap' | Macro | jet | called-name
Typed    = 'unwrap_left' | 'unwrap_right' | 'is_none' | 'raw_hash'
Folds    = 'fold' | 'array_fold'
Macro    = 'assert!' | 'panic!' | 'dbg!'
Arm      = Head '=>' Expr ',' | Head '=>' Block
Head     = Wrapped '(' Pair ')' | 'None' | 'true' | 'false' | Path | Path '(' Pairs ')' | Path '(' Pairs ',' ')'
Wrapped  = 'Left' | 'Right' | 'Some'
Pair     = Pattern ':' Type
Pairs    = Pair | Pairs ',' Pair
File     = Item*
Item     = Function | 'type' alias-name '=' Type ';'
"""


def direct_rules():
    rules = {}
    for line in RULES.strip().split("\n"):
        name, right = line.split(" = ", 1)
        rules[name.strip()] = [alternative.split() for alternative in right.strip().split(" | ")]
    work = list(rules)
    while work:
        for alternative in rules[work.pop()]:
            for x in alternative:
                base = x.rstrip("?*")
                if x[0] != "'" and x not in rules:
                    if x.endswith("*"):
                        rules[x] = [[], [x, base]]
                    elif x.endswith("?"):
                        rules[x] = [[], [base]]
                    elif x.startswith("L("):
                        item = x[2:-1]
                        rules[x], rules[item + "+"] = [[], [item + "+"], [item + "+", "','"]], [[item], [item + "+", "','", item]]
                        work.append(item + "+")
                    else:
                        continue
                    work.append(x)
                elif x[0] == "'" and x[-1] in "?*" and x not in rules:
                    rules[x] = [[], [base]]
    return rules


DIRECT = direct_rules()


class Earley:
    """Sets of items (rule, place in it, origin); a list of tokens can be continued as long as the last set is not empty."""

    def __init__(self, start, rules=DIRECT, texts=TERMINALS):
        self.start, self.rules, self.texts, self.nullable = start, rules, texts, set()
        while True:
            more = {n for n, alternatives in rules.items() if any(all(x in self.nullable for x in a) for a in alternatives)}
            if more == self.nullable:
                break
            self.nullable = more
        self.sets, self.waiting = [], []
        self.close({(start, i, 0, 0) for i in range(len(rules[start]))})

    def close(self, items):
        here, waiting, todo, at = set(items), {}, list(items), len(self.sets)
        self.sets.append(here)
        self.waiting.append(waiting)
        while todo:
            name, alternative, dot, origin = todo.pop()
            right = self.rules[name][alternative]
            new = []
            if dot == len(right):
                new = [(n, a, d + 1, o) for n, a, d, o in self.waiting[origin].get(name, ())]
            else:
                x = right[dot]
                waiting.setdefault(x, []).append((name, alternative, dot, origin))
                if x in self.rules:
                    new = [(x, i, 0, at) for i in range(len(self.rules[x]))]
                    if x in self.nullable:
                        new.append((name, alternative, dot + 1, origin))
            for item in new:
                if item not in here:
                    here.add(item)
                    todo.append(item)

    def terminals(self):
        return [x for x in self.waiting[-1] if x not in self.rules]

    def fits(self, terminal, text):
        return text == terminal[1:-1] if terminal[0] == "'" else text in self.texts[terminal]

    def push(self, text):
        items = {(n, a, d + 1, o) for x in self.terminals() if self.fits(x, text) for n, a, d, o in self.waiting[-1][x]}
        if not items:
            return False
        self.close(items)
        return True

    def cut(self, length):
        del self.sets[length + 1:]
        del self.waiting[length + 1:]

    def whole(self):
        return any(n == self.start and d == len(self.rules[n][a]) and o == 0 for n, a, d, o in self.sets[-1])


# ------------------------------------------------------------------------------------------------ the table
GRAMMAR, SHAPES, TABLE = generated.load()
# The two starts, with what the table has for each.
STARTS = {"Function": ("child", GRAMMAR.value("function")), "File": GRAMMAR.value("file")}
USED = set()  # the alternatives that were taken at a token that they may begin with


class Machine:
    """The predictive machine over the table, as theory's Machine.antt has it. Its state is the symbols left to read."""

    def __init__(self, stack):
        self.stack = stack

    @classmethod
    def at(cls, start):
        return cls((("n", TABLE.means.index(STARTS[start])),))

    def settle(self, c):
        stack = list(self.stack)
        while stack and isinstance(stack[0], tuple):
            A = stack[0][1]
            i = TABLE.table[A].get(c, TABLE.other[A])
            if i == 0:
                return None
            if c in TABLE.table[A]:
                USED.add((A, i))
            stack[:1] = TABLE.rules[A][i - 1]
        return stack

    def next(self, c):
        stack = self.settle(c)
        return Machine(tuple(stack[1:])) if stack and stack[0] == c else None

    def whole(self):
        return self.settle(0) == []


def by_table(start, texts):
    m = Machine.at(start)
    for p, text in enumerate(texts):
        n = m.next(class_of(text))
        if n is None:
            return p
        m = n
    return None if m.whole() else len(texts)


# ------------------------------------------------------------------------------------------------ drafts
def sizes():
    size = {}
    while True:
        new = {n: min((sum(size.get(x, 1 if x not in DIRECT else 10 ** 6) for x in a) for a in alternatives), default=10 ** 6) for n, alternatives in DIRECT.items()}
        if new == size:
            return size
        size = new


SIZE = sizes()


RARE = {"Arm*": 24, "Pairs": 9, "Path": 6, "Call": 12}  # what would come up seldom, with its weight; 3 is the usual one


def draft(rng, name, budget):
    """A random word of a rule, of about this many tokens."""
    if name not in DIRECT:
        return [name[1:-1] if name[0] == "'" else rng.choice(sorted(TERMINALS[name]))]

    def need(a):
        return sum(SIZE.get(x, 1) for x in a)

    fitting = [a for a in DIRECT[name] if need(a) <= max(budget, SIZE[name])]
    weights = [1 + (sum(RARE.get(x, 3) for x in a if x in DIRECT) if budget > SIZE[name] + 2 else 0) for a in fitting]
    a = rng.choices(fitting, weights)[0]
    shares = [rng.random() if x in DIRECT else 0 for x in a]
    spare, total, out = max(0, budget - need(a)), sum(shares), []
    for x, share in zip(a, shares):
        out += draft(rng, x, SIZE.get(x, 1) + (int(spare * share / total) if share else 0))
    return out


def damaged(rng, texts):
    if not texts:
        return [rng.choice(TEXTS)], 0
    out, i = list(texts), rng.randrange(len(texts))
    way = rng.randrange(6)
    if way == 0:
        del out[i]
    elif way == 1:
        out.insert(i, rng.choice(TEXTS))
    elif way == 2:
        out[i] = rng.choice(TEXTS)
    elif way == 3 and i + 1 < len(out):
        out[i], out[i + 1] = out[i + 1], out[i]
    elif way == 4:
        out = out[:i]
    else:
        j = rng.randrange(len(texts))
        out = out[:i] + list(texts[j:])
    return out, min(i, len(out))


class Compared:
    def __init__(self, start):
        self.start, self.lists = start, 0
        self.accepted = self.refused = self.at_end = 0

    def one(self, texts, direct):
        table = by_table(self.start, texts)
        if table != direct:
            print("difference:", " ".join(texts), "\n  document:", direct, "\n  table:   ", table)
            sys.exit(1)
        self.lists += 1
        self.accepted += direct is None
        self.at_end += direct == len(texts)
        self.refused += direct is not None and direct < len(texts)


def random_drafts(start, count, seed):
    """Drafts made from the direct reading, each with four damaged copies, of which what is the same is read once."""
    rng, earley, compared = random.Random(seed), Earley(start), Compared(start)

    def verdict(texts, kept):
        earley.cut(kept)
        for p in range(kept, len(texts)):
            if not earley.push(texts[p]):
                return p
        return None if earley.whole() else len(texts)

    for _ in range(count):
        texts = draft(rng, start, rng.randint(6, 160))
        compared.one(texts, verdict(texts, 0))
        for _ in range(4):
            other, kept = damaged(rng, texts)
            same = 0
            while same < kept and same < len(texts) and other[same] == texts[same]:
                same += 1
            compared.one(other, verdict(other, same))
            verdict(texts, same)
    return compared


# Where to go on from: in a function, and in a file besides.
BEGINNINGS = ["", "fn x ( x :", "fn x ( ) {", "fn x ( ) { let", "fn x ( ) { match x {", "fn x ( ) { match x { Left", "fn x ( ) { match x { x :: x (",
              "fn x ( ) { match x { None => 1 ,", "fn x ( ) { match x { None => { }", "fn x ( ) { match x { None =>", "fn x ( ) { x ::", "fn x ( ) { fold ::",
              "fn x ( ) { is_none :: < x", "fn x ( ) { for_while :: <", "fn x ( ) -> List <", "fn x ( ) { ( x", "fn x ( ) { list!", "fn x ( ) { < x"]
ITEMS = ["type", "type x", "type x =", "type x = x", "type x = x ;", "fn x ( ) { }", "type x = x ; fn x ( ) { }", "pub"]


def all_ways(start, beginnings, depth):
    """From each beginning, every list of up to so many tokens more that can be continued, and every token after it."""
    lists = 0
    for beginning in beginnings:
        earley, m = Earley(start), Machine.at(start)
        for text in beginning.split():
            assert earley.push(text)
            m = m.next(class_of(text))

        def go(m, left, here):
            nonlocal lists
            if earley.whole() != m.whole():
                print("difference at the end:", beginning, here)
                sys.exit(1)
            at = len(earley.sets) - 1
            for text in TEXTS:
                earley.cut(at)
                direct, n = earley.push(text), m.next(class_of(text))
                lists += 1
                if direct != (n is not None):
                    print("difference:", beginning, here, text, "document", direct, "table", n is not None)
                    sys.exit(1)
                if direct and left:
                    go(n, left - 1, here + [text])
            earley.cut(at)

        go(m, depth, [])
    return lists


def main():
    count = int(sys.argv[1]) if len(sys.argv) > 1 else 4000
    seed = int(sys.argv[2]) if len(sys.argv) > 2 else 1
    depth = int(sys.argv[3]) if len(sys.argv) > 3 else 1
    for start, beginnings in (("Function", BEGINNINGS), ("File", BEGINNINGS + ITEMS)):
        lists = all_ways(start, beginnings, depth)
        print(f"{start}: {lists} lists from {len(beginnings)} beginnings, all ways to go on by {depth + 1} tokens: no difference")
        compared = random_drafts(start, count, seed)
        told = f"{compared.accepted} accepted, {compared.refused} refused at a token, {compared.at_end} at the end"
        print(f"{start}: {compared.lists} random lists: {told}: no difference")
    print(f"{len(USED)} of the table's {sum(map(len, TABLE.rules))} alternatives were taken")


if __name__ == "__main__":
    main()
