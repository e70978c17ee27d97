"""Cases for the entries that keep the starts of tokens alone, for tools/reader_cases.py: what document 02, order 10, says of them."""
import itertools, random

from draft_cases import TREE, random_drafts
from file_cases import ITEMS, filed
from paper_lexer import WORDS as TOKEN_WORDS, Refusal, lexemes
from record_trees import WORDS


def starts_of(draft):
    """The starts of a draft's tokens; none where its bytes are refused."""
    try:
        return [start for _, start, _ in lexemes(draft.decode("latin-1"))]
    except Refusal:
        return []


def add_short(cases, draft, starts, tree, entries=("function", "file")):
    """A buffer with a word less than there are tokens: "Refusal 6 there compares tokens with the buffer's words", at the first token too many, here the last."""
    cases.add(draft, len(starts) - 1, tree, 0, said=[f"lean {entry} refused 6 {starts[-1]} zeros\n" for entry in entries])


def add_items(cases):
    """Files of two items: buffers of just enough words for starts and tree, and of a word less; order 10: "keeps only each token's start, one word a token"."""
    for items in itertools.product(ITEMS, repeat=2):
        draft, count, records = filed(items, ("", " ", "//a\n"))
        tree = WORDS * len(records)
        cases.add(draft, count, tree, 0, said=[f"lean file accepted {count} {len(records)} owned zeros\n"])
        cases.add(draft, count, tree - 1, 0, said=["lean file refused 15 0 zeros\n"])
        add_short(cases, draft, starts_of(draft), tree)


def add_random(cases):
    """Random drafts: a word less than there are tokens; just as many, no word, or all but enough for whole tokens, with a tree buffer that may be too short."""
    rng = random.Random(13)
    for kind, count in (("shaped", 120), ("damaged", 50), ("files", 60), ("damaged-files", 40), ("comments", 30)):
        for draft in random_drafts(13, count, kind, 300):
            starts = starts_of(draft)
            count = len(starts)
            if count < 2:
                continue
            add_short(cases, draft, starts, TREE)
            cases.add(draft, rng.choice((count, count, count + 1, 0, TOKEN_WORDS * count - 1)), rng.choice((TREE, rng.randrange(WORDS * count))), 0)


SECTIONS = add_items, add_random
