"""Cases of listings, each with the words of the buffer that is lent for it and the answer that document 02, orders 1, 3, 7 and 9, asks for: for
tools/load_cases.py."""
from record_trees import LINE, LONG_LINE, SHORT_LINE, WORDS, lines, long_lines, rows, short_lines

BAD_LINE, NOT_ONE_TREE, NO_ROOM = 16, 17, 18
# Document 01's nine lines, with order 7's four digits more; and the same as they were before.
PAPER = b"""\
01 0000 0022 00000000 00000000 0009 0000
02 0003 0004 00000000 00000000 0001 0001
12 0006 0022 00000001 00000000 0007 0002
23 0007 0021 00000000 00000000 0006 0001
1D 000D 000E 00000000 00000000 0001 0001
25 0017 0020 00000005 00000000 0002 0002
18 001E 001F 00000000 00000000 0001 0001
25 000F 0017 00000006 00000000 0002 0004
18 0015 0016 00000000 00000000 0001 0001
"""
SHORT_PAPER = b"""\
01 0000 0022 00000000 00000000 0009
02 0003 0004 00000000 00000000 0001
12 0006 0022 00000001 00000000 0007
23 0007 0021 00000000 00000000 0006
1D 000D 000E 00000000 00000000 0001
25 0017 0020 00000005 00000000 0002
18 001E 001F 00000000 00000000 0001
25 000F 0017 00000006 00000000 0002
18 0015 0016 00000000 00000000 0001
"""
PAPER_RECORDS = [[1, 0, 34, 0, 0, 9, 0], [2, 3, 4, 0, 0, 1, 1], [18, 6, 34, 1, 0, 7, 2], [35, 7, 33, 0, 0, 6, 1], [29, 13, 14, 0, 0, 1, 1],
                 [37, 23, 32, 5, 0, 2, 2], [24, 30, 31, 0, 0, 1, 1], [37, 15, 23, 6, 0, 2, 4], [24, 21, 22, 0, 0, 1, 1]]
# The two forms in four digits: what writes the lines, and the bytes of one. And the form in six, for records that need them.
FORMS = (lines, LINE), (short_lines, SHORT_LINE)
LONG = long_lines, LONG_LINE


class Cases:
    def __init__(self):
        self.asked, self.answers, self.sentence, self.said = [], [], "", {}

    def add(self, listing, words, answer):
        self.asked.append(b"%d %d\n%s\n" % (words, len(listing), listing))
        self.answers.append(answer)
        self.said[self.sentence] = self.said.get(self.sentence, 0) + 1

    def loads(self, *trees, more=3):
        """Each is taken in both forms: the number of records, every word of them, and zeros in the words behind. Written again they are the same lines, or
        those with the way up, which are wider."""
        for tree in trees:
            for (write, _), again in zip(FORMS, ("same", "wider")):
                self.takes(rows(tree), write, again, more)

    def loads_long(self, *trees, more=3):
        """Each needs six digits, and is taken in them; written again they are the same lines."""
        for tree in trees:
            self.takes(rows(tree), long_lines, "same", more)

    def takes(self, records, write, again, more):
        words = "".join(" ".join(map(str, record)) + "\n" for record in records)
        self.add(write(records), WORDS * len(records) + more, f"records {len(records)} zeros {again}\n{words}")

    def refuses(self, *trees):
        """Each is in form, in both forms, but neither a function nor a file; the buffer would be long enough."""
        for tree in trees:
            for write, _ in FORMS:
                self.refuse(NOT_ONE_TREE, 0, write(rows(tree)), WORDS * len(rows(tree)))

    def refuses_ways(self, *trees):
        """Each has a parent word that is wrong, and would be taken without it."""
        for tree in trees:
            self.refuse(NOT_ONE_TREE, 0, lines(rows(tree)), WORDS * len(rows(tree)))

    def refuses_long(self, *trees):
        """Each needs six digits, and is neither a function nor a file."""
        for tree in trees:
            self.refuse(NOT_ONE_TREE, 0, long_lines(rows(tree)), WORDS * len(rows(tree)))

    def refuses_needless(self, *trees):
        """Each is in six digits, and four would hold it: 16 at line 1, also with a buffer that is too short."""
        for tree in trees:
            for words in (WORDS * len(rows(tree)), 0):
                self.refuse(BAD_LINE, 1, long_lines(rows(tree)), words)

    def refuse(self, number, line, listing, words=70):
        self.add(listing, words, f"refused {number} {line} zeros\n")
