#!/usr/bin/env python3
"""Writes crates/words_cases/stdin and stdout: the words of each table and near misses, with the answers that the papers ask for.

The lists are typed here from document 01 and the Rust that it names, not read from the crate. --check: exit 1 if a file differs.
"""
import pathlib, sys

FUNCTION_RESERVED = "unwrap_left unwrap_right array_fold for_while is_none unwrap assert panic match into fold dbg raw_hash".split()
KEYWORDS = "pub use as fn let type mod const match enum crate simc true false".split()
MACROS = "assert! panic! dbg! list!".split()
MODULE_RESERVED = "jet witness param".split()
UINTS = ["u" + str(2 ** k) for k in range(9)]
BUILTIN_ALIASES = (
    "Ctx8 Pubkey Message Message64 Signature Scalar Fe Ge Gej Point Height Time Distance Duration Lock Outpoint Confidential1 "
    "ExplicitAsset Asset1 ExplicitAmount Amount1 ExplicitNonce Nonce TokenAmount1"
).split()
RULE_NAMES = "Left Right Some None Either Option List".split()
RULE_WORDS = RULE_NAMES + FUNCTION_RESERVED + MACROS + ["false", "true"] + ["bool"] + UINTS + BUILTIN_ALIASES
TABLES = [FUNCTION_RESERVED, KEYWORDS, MACROS, MODULE_RESERVED, RULE_WORDS]


def near(word):
    """One letter more, one less, another case, another letter."""
    yield from (word, word + "a", word + "_", "a" + word, word[:-1], word[1:], word.swapcase(), word.upper(), word.capitalize(), word[:-1] + "~")


def line(word):
    places = [str(t.index(word)) if word in t else "-" for t in TABLES]
    return f"{word}: {' '.join(places)}\n"


cases = list(dict.fromkeys(w for t in TABLES for word in t for w in near(word)))
cases += ["", "a", "_", "x" * 14, "x" * 15, "u512", "u3", "Bool", "ExplicitAmount_", "true!", "jet::a", "match match", "unwrap_left "]
parts = ["match", "", "", "", "", ""]  # a part in range, then one past the end, one backwards and empty ones
folder = pathlib.Path(__file__).resolve().parent.parent / "crates/words_cases"
bad = False
for name, text in (("stdin", "".join(w + "\n" for w in cases)), ("stdout", "".join(map(line, cases + parts)))):
    if "--check" in sys.argv:
        if (folder / name).read_text() != text:
            bad = True
            print(f"crates/words_cases/{name} is not what tools/words_cases.py writes")
    else:
        (folder / name).write_text(text)
print(f"{len(cases) + len(parts)} cases")
sys.exit(bad)
