"""Reads a grammar in the notation of docs/LANGUAGE.md, and gives it in the form of tools/compare_grammar.py.

A rule is `name = alternatives ;`. Texts in quotes and names that are given as sets are terminals; [ ] may be left out, { } repeats, ( ) groups,
`a - "b"` takes the text b out of the set a, list(a) is a list with commas, and (* *) is a comment.
"""
import re

WORDS = re.compile(r'\(\*.*?\*\)|"[^"]+"|[\w-]*\w|[=;|()\[\]{}-]', re.S)
CLOSING = {"(": ")", "[": "]", "{": "}"}


class Grammar:
    """`rules` has the alternatives of each nonterminal, lists of symbols, and `sets` the texts of each set of tokens."""

    def __init__(self, text, sets):
        self.words = [word for word in WORDS.findall(text) if not word.startswith("(*")]
        self.sets, self.rules, self.faults = dict(sets), {}, []
        self.named, self.used, self.texts = [], set(), set()
        while self.words:
            self.rule()

    def take(self, *expected):
        """The next word, which is one of these if any are given."""
        word = self.words.pop(0) if self.words else "the end"
        if expected and word not in expected:
            raise ValueError(f"{word} stands where {' or '.join(expected)} is expected, in the rule of {self.named[-1]}")
        return word

    def rule(self):
        name = self.take()
        self.named.append(name)
        self.take("=")
        if name in self.rules or name in self.sets:
            self.faults.append(f"{name} is defined twice")
        self.rules[name] = self.choice(";")

    def choice(self, end):
        """Alternatives up to the word that ends them."""
        out = [[]]
        while self.words[:1] != [end]:
            if self.words[:1] == ["|"]:
                self.take()
                out.append([])
            out[-1].append(self.factor())
        self.take(end)
        if [] in out:
            self.faults.append(f"an alternative of {self.named[-1]} is empty")
        return out

    def fresh(self, alternatives):
        """A nonterminal without a name."""
        name = f"{self.named[-1]}#{len(self.rules)}"
        self.rules[name] = alternatives(name)
        return name

    def factor(self):
        word = self.take()
        if word in CLOSING:
            return self.bracket(word, self.choice(CLOSING[word]))
        if word == "list":
            self.take("(")
            return self.commas(self.choice(")"))
        if word.startswith('"'):
            self.texts.add(word[1:-1])
            return f"'{word[1:-1]}'"
        self.used.add(word)
        return self.without(word) if self.words[:1] == ["-"] else word

    def bracket(self, word, inner):
        if word == "(":
            return self.fresh(lambda name: inner)
        return self.fresh(lambda name: [[]] + [alternative + [name] * (word == "{") for alternative in inner])

    def commas(self, inner):
        item = self.fresh(lambda name: inner)
        some = self.fresh(lambda name: [[item], [name, "','", item]])
        return self.fresh(lambda name: [[], [some], [some, "','"]])

    def without(self, name):
        """The set of this name without a text."""
        self.take("-")
        text = self.take()[1:-1]
        self.texts.add(text)
        if text not in self.sets.get(name, ()):
            self.faults.append(f"{name} has no {text} to take out")
        self.sets[f"{name} - {text}"] = self.sets.get(name, set()) - {text}
        return f"{name} - {text}"

    def wrong(self, start, lexemes):
        """What is wrong with the names of the grammar, and with texts that are none of these lexemes."""
        known = set(self.named) | set(self.sets)
        given = {name for name in self.sets if " - " not in name}
        return (self.faults
                + [f"{name} is not defined" for name in sorted(self.used - known)]
                + [f"{name} is not used" for name in sorted((set(self.named) | given) - self.used - {start})]
                + [f'"{text}" is no token' for text in sorted(self.texts - lexemes)])
