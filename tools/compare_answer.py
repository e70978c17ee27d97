#!/usr/bin/env python3
"""Compares the definition of the answer (crates/grammar) with the partner (rust/partner) on random drafts, on array lengths around the largest 64-bit
number, on small files, on UTF-8 in comments, good and bad, at the small limits and around places of four digits, each read as a file and as one function within
the small limits, and some as a file within the large ones, with whole tokens and with their starts alone, every byte of the listing.

antt computes the definition: the drafts with the partner's listings become one more file of specs/ in a copy of the repository, and the
check there refuses it if one of them differs.
    tools/compare_answer.py PARTNER SEED COUNT LENGTH    COUNT drafts of each kind of rust/partner/drafts.py, of at most LENGTH bytes; PARTNER is the
                                                         partner's program, as `cargo build --package partner` makes it
What `rt check` keeps of the crates below is copied too; where nothing is, the copy proves them first, which takes a minute or two.
"""
import collections, pathlib, shutil, subprocess, sys, tempfile

from record_trees import LINE, WORDS

root = pathlib.Path(__file__).resolve().parent.parent
# The crates that the definition stands on, lowest first.
CRATES = ("text", "words", "num", "utf8", "lexer", "own", "up", "theory", "lines", "kinds", "grammar")
LARGEST = 2 ** 64 - 1
# Words and bytes enough for every draft: 2,048 tokens, and a record and a line more.
LINES, SMALL_BYTES = 2049, 16384
TOKEN_SPACE, TREE_SPACE = 3 * 2048, WORDS * LINES
# Of the random drafts one in so many is read within the large limits too.
FEW = 8
# Lengths that 64 bits hold, then those that they do not.
LENGTHS = [0, "0_0", 2 ** 32, LARGEST - 1, LARGEST, f"00{LARGEST}", f"{LARGEST:_}_"]
TOO_LARGE = [LARGEST + 1, LARGEST + 4, LARGEST + 5, 10 ** 20 - 1, 10 ** 20, f"00{LARGEST + 1}", f"{LARGEST + 1:_}_", 60 * "9"]
# Sequences at the edges of RFC 3629's table, then beside them or cut off.
SEQUENCES = ["7F", "C2 80", "DF BF", "E0 A0 80", "E1 80 80", "EC BF BF", "ED 9F BF", "EE 80 80", "EF BF BF", "F0 90 80 80", "F3 BF BF BF", "F4 8F BF BF"]
BAD = ["80", "C1 BF", "C2", "C2 7F", "DF C0", "E0 9F BF", "E2 82", "E2 82 7F", "ED A0 80", "F0 8F BF BF", "F0 9F 98", "F0 9F 98 C0", "F4 90 80 80",
       "F5 80 80 80", "FF"]


def lengths():
    """Array types of each length; then with another refusal before and behind, and cut off."""
    drafts = [f"fn f()->[b;{length}]{{}}" for length in LENGTHS + TOO_LARGE]
    array = f"[b;{LARGEST + 1}]"
    drafts += [f"fn f(a:{name}){{}}" for name in (f"[{array};0]", f"[[b;0];{LARGEST + 1}]", f"List<{array},3>", f"[List<b,3>;{LARGEST + 1}]")]
    drafts += [f"fn f(){{match <{array}>::into(){{}}}}", f"fn f(){{<{array}>::into(match x{{}})}}", f"fn f()->{array}{{"]
    return [draft.encode() for draft in drafts]


def files():
    """Files of no item, of one and of several; then names and pieces that are refused."""
    drafts = ["", " //a\n", "type A=u8;", "type A=u8; fn f(){}", "fn f(){}type A=[A;2];pub fn g(){}", "type fold=_;type Left=fold;", 30 * "type A=A;"]
    drafts += [f"type {name}=A;" for name in ("u8", "u256", "bool", "List", "Either", "Pubkey", "TokenAmount1", "match", "true")]
    drafts += ["pub type A=u8;", "fn f(){};", "type A=u8", "type A u8;", "type A=List<u8,3>;", f"type A=[u8;{LARGEST + 1}];fn f(){{match x{{}}}}"]
    return [draft.encode() for draft in drafts]


def comments():
    """Each sequence in both kinds of comment; then comments with more than one, and with something refused beside them."""
    sequences = [bytes.fromhex(sequence) for sequence in SEQUENCES + BAD]
    drafts = [b"//" + sequence for sequence in sequences] + [b"fn f(){/*a" + sequence + b"*/}" for sequence in sequences]
    drafts += [text.encode() for text in ("//α\rfn f(){}/*żółw*/", "/*α/*β*/γ*/fn f(){}", "//\u2028\u0085#", "//α\nα", "/*α*/#", "/*α")]
    drafts += [b"//\xce\n\xb1", b"/*\xce*/\xb1", b"/*\xe2/*\x82*/\xac*/", b"/*/*\x80*/", b"/*\x80*//*", b"simc//\x80", b"//\x80\rsimc", b"\x80//\x80"]
    return drafts


def cases(stream):
    """The texts of a stream: a decimal length, a line end, so many bytes."""
    found, i = [], 0
    while i < len(stream):
        j = stream.index(b"\n", i)
        n = int(stream[i:j])
        found.append(stream[j + 1:j + 1 + n])
        i = j + 1 + n
    return found


def numbers(bytes_):
    return " ∷ ".join([*map(str, bytes_), "[]"])


def limits():
    """As many bytes as the small limits allow, and one more; as many tokens, and one more. The large limits let all of them in."""
    return [SMALL_BYTES * b" ", (SMALL_BYTES + 1) * b" ", 2048 * b";", 2049 * b";", 2049 * b";" + b"#"]


def borders():
    """An end that four digits hold and one that they do not, and such a place of a refusal."""
    return [0xFFFF * b" ", 0x10000 * b" ", 0x10000 * b" " + b"#"]


def answers(drafts, partner, token_space=lambda draft: TOKEN_SPACE):
    """What the partner says of each draft, with words enough within the small limits, or with so many for tokens: its answer as one function and as a file, the
    latter with the starts of tokens alone too, and its listing as a file within the small limits and within the large ones."""
    stream = b"".join(b"%d %d %d %d\n%s\n" % (token_space(d), TREE_SPACE, LINE * LINES, len(d), d) for d in drafts)
    out = subprocess.run([partner, "--cases"], input=stream, capture_output=True, check=True).stdout
    place = 0

    def words(name):
        """The words of a line, which begins with the name."""
        nonlocal place
        line, place = out[place:out.index(b"\n", place)].split(), out.index(b"\n", place) + 1
        if line[0] != name:
            sys.exit(f"the partner's answer has {line[0].decode()} where {name.decode()} should stand")
        return line[1:]

    def listing(name, otherwise=b""):
        """The lines behind that line, which begin with two digits and a space; where none stand there, others."""
        nonlocal place
        used = int(words(name)[0])
        if out[place + 2:place + 3] != b" ":
            return otherwise
        place += used
        return out[place - used:place]

    found = []
    for _ in drafts:
        function, file = words(b"function"), words(b"file")
        lean = {b"function": function, b"file": file}
        while out.startswith(b"lean ", place):
            entry, *answer = words(b"lean")
            lean[entry] = answer
        small = listing(b"listed")
        found.append((function, file, lean[b"file"], small, listing(b"large", small)))
    return found


def lean_rows(drafts, said, partner):
    """Each accepted file with as many words as it has tokens, for their starts alone, which is listed as with whole tokens; and with a word less."""
    files = {draft: (int(file[1]), large) for draft, (_, file, _, _, large) in zip(drafts, said) if file[0] == b"accepted" and file[1] != b"0"}
    refused = answers(list(files), partner, lambda draft: files[draft][0] - 1)
    for (draft, (count, large)), (_, _, lean, _, _) in zip(files.items(), refused):
        yield f"lean {count} ({numbers(draft)}) ({result(large)})"
        yield f"lean {count - 1} ({numbers(draft)}) (refused_with {int(lean[1])} {int(lean[2])})"


def result(listing):
    """What a listing says: the number and the place of its refusal, or its lines."""
    if listing.startswith(b"00 "):
        _, place, _, number, *_ = listing.split()
        return f"refused_with {int(number, 16)} {int(place, 16)}"
    return f"lists {len(listing)} ({numbers(listing)})"


def alone(listing):
    """The lines of a function without the program's line before them: no record holds the first of them now, so its way up is 0."""
    return listing[LINE:2 * LINE - len("0001\n")] + b"0000\n" + listing[2 * LINE:]


def rows(draft, function, file, _, small, large, within_large):
    """The draft as a file, and as one function. The lines of a function are those of its file behind the first, where the words are the same."""
    if function[0] == b"accepted" and file[-1] != b"same":
        sys.exit(f"the partner's two trees differ: {draft!r}")
    said = [f"roomy_file ({numbers(draft)}) ({result(small)})"]
    if function[0] == b"accepted":
        said.append(f"roomy ({numbers(draft)}) ({result(alone(small))})")
    elif small == large:
        # The partner reads one function within the large limits.
        said.append(f"roomy ({numbers(draft)}) (refused_with {int(function[1])} {int(function[2])})")
    if within_large:
        said.append(f"large_file ({numbers(draft)}) ({result(large)})")
    return said


def is_large(at, always):
    """Whether the draft of that number is read within the large limits too: the first ones always, and then one in so many."""
    return at < always or at % FEW == 0


# The head of the file for antt. Within the large limits a draft has as many words as within the small ones.
HEAD = """-- Drafts with the partner's answers.
-- Assumes nothing.
use Rattle.std.specs.Prelude.{List, [], ◌∷◌, map, ◌≡◌, refl, ℕ, suc, ◌*◌}
use Rattle.text.specs.Widths.{tok_wide, rec_wide}
use Rattle.lexer.specs.Limits.{small_tokens, large_limits}
use Rattle.grammar.specs.Entry.{whole_file}
use Rattle.grammar.specs.Cases.Cases.{Result, refused_with, lists, Case, defined, roomy, roomy_file}
use Rattle.grammar.specs.Cases.Starts.{lean_defined}

abbrev large_file : List ℕ → Result → Case
large_file draft r =
    record { entry = whole_file; limits = large_limits; token_space = tok_wide * small_tokens; tree_space = rec_wide * suc small_tokens; draft = draft; result = r }

abbrev lean : ℕ → List ℕ → Result → Case
lean words draft r = record { entry = whole_file; limits = large_limits; token_space = words; tree_space = rec_wide * suc small_tokens; draft = draft; result = r }
"""


def agreeing(all_rows, defined):
    """The declarations that the definitions say of each draft what its row does."""
    text = ""
    for k in range(0, len(all_rows), 20):
        cases = f"{defined}-cases{k}"
        text += f"\nunfoldable {cases} : List Case\n{cases} =\n    " + " ∷\n    ".join(all_rows[k:k + 20]) + " ∷ []\n"
        text += f"\n{cases}-agree : map {defined} {cases} ≡ map (λ (c : Case). c.result) {cases}\nunfolding {cases} {defined}\n{cases}-agree = refl\n"
    return text


def main():
    partner, seed, count, length = sys.argv[1], sys.argv[2], int(sys.argv[3]), int(sys.argv[4])
    with tempfile.TemporaryDirectory() as folder:
        work = pathlib.Path(folder)
        drafts = limits() + borders() + lengths() + files() + comments()
        always = len(drafts)
        for kind in ("shaped", "damaged", "tokens", "files", "damaged-files", "comments"):
            stream = subprocess.run([sys.executable, root / "rust/partner/drafts.py", seed, str(20 * count), kind], capture_output=True, check=True).stdout
            drafts += list(dict.fromkeys(d for d in cases(stream) if len(d) <= length))[:count]
        said = answers(drafts, partner)
        copy = work / "copy"
        for crate in CRATES:
            shutil.copytree(root / "crates" / crate, copy / "crates" / crate, symlinks=True)
        lines = (root / "crates.txt").read_text().splitlines(keepends=True)
        (copy / "crates.txt").write_text("".join(l for l in lines if l.split(":")[0] in CRATES))
        specs = copy / "crates/grammar/specs"
        whole = [r for at, (d, a) in enumerate(zip(drafts, said)) for r in rows(d, *a, is_large(at, always))]
        starts = list(lean_rows(drafts[always::FEW], said[always::FEW], partner))
        (specs / "Partner.antt").write_text(HEAD + agreeing(whole, "defined") + agreeing(starts, "lean_defined"))
        with (specs / "Lib.antt").open("a") as lib:
            lib.write("pub mod Partner\n")
        done = subprocess.run(["rt", "check"], cwd=copy / "crates/grammar", capture_output=True, text=True)
    for entry, name in enumerate(("function", "file")):
        tally = collections.Counter("accepted" if a[entry][0] == b"accepted" else a[entry][1].decode() for a in said)
        print(f"{len(drafts)} drafts as a {name}, by the partner's answer:", ", ".join(f"{k} {v}" for k, v in sorted(tally.items())))
    print("and as a file within both sets of limits:", sum(is_large(at, always) for at in range(len(drafts))))
    print("and as a file with the starts of tokens alone, in just enough words and in a word less:", len(starts) // 2)
    if done.returncode:
        print(*[l[:300] for l in (done.stdout + done.stderr).splitlines() if "error" in l][:5], sep="\n")
        sys.exit("the definition differs")
    print("the definition agrees on every byte")


main()
