"""Cases of the two sets of limits, of the entry that is lent buffers for tokens and tree, and of lines in six digits, for tools/reader_cases.py: what
document 02, order 9, says of them. Drafts at the large limits are long, so they are in rust/partner/large.txt and rust/compare."""
import itertools

from draft_cases import BYTES, TOKENS, TREE
from file_cases import LEAST, filed, type_item
from record_trees import LEAST_LONG, LINE, LONG_LINE, lines, long_lines

# "the listing program and the C entry keep 16,384 and 2,048"
SMALL_BYTES, SMALL_TOKENS = 16384, 2048
TOO_LONG, NO_LEXEME, TOO_MANY, WRONG_SHAPE, TREE_TOO_SMALL = 1, 3, 6, 8, 15


def refusal(number, place):
    """The line of a refusal."""
    write = long_lines if place >= LEAST_LONG else lines
    return write([[0, place, place, number, 0, 1, 0]])


def add_listed(cases, draft, small, large, said=(), tokens=TOKENS, tree=TREE, out=BYTES):
    """A draft with its listings within the small and the large limits, of which those that do not fit are nothing. The lines of the large one stand only
    where they are others."""
    small, large = (found if len(found) <= out else b"" for found in (small, large))
    again = b"" if large == small else large
    text = f"listed {len(small)} zeros\n{small.decode()}large {len(large)} zeros\n{again.decode()}"
    cases.add(draft, tokens, tree, out, said=[text, *said])


def accepted(tokens, records):
    return f"file accepted {tokens} {len(records)} owned zeros"


def add_small_bytes(cases):
    """Order 9: "Raise the library to 1,048,576 bytes [..]; the listing program and the C entry keep 16,384"."""
    for items in ([], [type_item("A"), LEAST]):
        used = len(filed(items, ("",))[0])
        for length in (SMALL_BYTES, SMALL_BYTES + 1):
            draft, tokens, records = filed(items, ((length - used) * " ", *len(items) * [""]))
            small = lines(records) if length <= SMALL_BYTES else refusal(TOO_LONG, SMALL_BYTES)
            add_listed(cases, draft, small, lines(records), [accepted(tokens, records)])


def add_small_tokens(cases):
    """The same of tokens: "[..] and 131,072 tokens [..] keep [..] 2,048", and refusal 6 "over a third of the token buffer's words" where that is less."""
    full = 406 * [type_item("A")] + 3 * [LEAST]
    for items, out in ((full, LINE), (full[1:] + [LEAST], LINE), (full[1:] + [LEAST], BYTES)):
        draft, tokens, records = filed(items, ("",))
        # The last token is a byte, and the first too many here and there.
        last = refusal(TOO_MANY, len(draft) - 1)
        small = lines(records) if tokens <= SMALL_TOKENS else last
        add_listed(cases, draft, small, lines(records), [accepted(tokens, records)], tokens=3 * tokens, out=out)
        add_listed(cases, draft, small, last, [f"file refused {TOO_MANY} {len(draft) - 1} zeros\n"], tokens=3 * tokens - 1, out=LINE)
    # 8,192 words are for 2,730 tokens.
    small = refusal(TOO_MANY, SMALL_TOKENS)
    add_listed(cases, 2730 * ";", small, refusal(WRONG_SHAPE, 0), [f"file refused {WRONG_SHAPE} 0 zeros\n"], tokens=8192)
    add_listed(cases, 2731 * ";", small, refusal(TOO_MANY, 2730), [f"file refused {TOO_MANY} 2730 zeros\n"], tokens=8192)


def add_lent(cases):
    """The large entry's three buffers, each of no length, just too short, just enough and longer: 6, then 15, and nothing only where the lines do not
    fit. The small entry is lent bytes alone."""
    for items, places in (([], ()), ([LEAST], (0, 3, 4, 5, 6, 7)), ([type_item("A")], (0, 5, 6, 7, 9))):
        draft, tokens, records = filed(items, ("",))
        words, tree, whole = 3 * tokens, 7 * len(records), lines(records)
        lengths = [sorted({0, max(enough - 1, 0), enough, enough + 1}) for enough in (words, tree)]
        for token_words, tree_words in itertools.product(*lengths):
            large = whole if tree_words >= tree else refusal(TREE_TOO_SMALL, 0)
            if token_words < words:
                large = refusal(TOO_MANY, places[token_words // 3])
            for out in (0, LINE - 1, LINE, len(whole) - 1, len(whole), len(whole) + 1):
                add_listed(cases, draft, whole, large, tokens=token_words, tree=tree_words, out=out)


def add_borders(cases):
    """Order 9: "A listing in which any start, end, size or way up needs more than four digits writes all four in six digits, 49 bytes a line; every other
    listing keeps 41", a refusal's line too."""
    item = type_item("A")
    small = refusal(TOO_LONG, SMALL_BYTES)
    for length, write, line in ((LEAST_LONG - 1, lines, LINE), (LEAST_LONG, long_lines, LONG_LINE)):
        draft, tokens, records = filed([item], ((length - len(item[0])) * " ", ""))
        add_listed(cases, draft, small, write(records), [accepted(tokens, records)], out=4 * line)
        add_listed(cases, draft, small, write(records), [accepted(tokens, records)], out=4 * line - 1)
    place = LEAST_LONG
    add_listed(cases, place * " " + "#", small, refusal(NO_LEXEME, place), [f"file refused {NO_LEXEME} {place} zeros\n"], out=LONG_LINE)


SECTIONS = add_small_bytes, add_small_tokens, add_lent, add_borders
