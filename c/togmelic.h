/* The proved reader of escrow drafts, for C and C++. Link crates/togmelic/out/libtogmelic.a, which `rt lib` in crates/togmelic writes
 * (for x86-64-v2; a processor older than that, of before 2009 or so, stops at an instruction that it has not: README.md, "In a server"). */
#ifndef TOGMELIC_H
#define TOGMELIC_H

#include <stddef.h>
#include <stdint.h>

#ifdef __cplusplus
extern "C" {
#endif

/* Bytes of a line, its LF among them. */
#define TOGMELIC_LINE 41
/* Bytes of a line as it was written before records had the way up; togmelic_load takes such lines too. */
#define TOGMELIC_SHORT_LINE 36
/* Bytes of a line of togmelic_list_large and togmelic_list_lean where four digits do not hold every start, end, size and way up of its listing. */
#define TOGMELIC_LONG_LINE 49
/* togmelic_list: no draft has more lines, one for each of 2,048 tokens at most, and the program's. */
#define TOGMELIC_MOST_LINES 2049
/* togmelic_list: a buffer of so many bytes is enough for every draft. */
#define TOGMELIC_MOST_BYTES (TOGMELIC_LINE * TOGMELIC_MOST_LINES)
/* Words of a record: kind, start, end, low, high, size, and the way up, which togmelic_load explains. */
#define TOGMELIC_RECORD_WORDS 7
/* Which of them, from 0, is the way up. */
#define TOGMELIC_UP 6
/* Words of a token: kind, start, end. */
#define TOGMELIC_TOKEN_WORDS 3
/* Words of a token of which togmelic_list_lean keeps the start alone. */
#define TOGMELIC_START_WORDS 1

/* The large limits, those of togmelic_list_large and togmelic_list_lean: bytes and tokens of a draft, and no draft has more lines. */
#define TOGMELIC_LARGE_DRAFT 1048576
#define TOGMELIC_LARGE_TOKENS 131072
#define TOGMELIC_LARGE_LINES (TOGMELIC_LARGE_TOKENS + 1)
/* What is enough there for every draft: words for its tokens or for their starts, words for its tree, and bytes for its listing. */
#define TOGMELIC_LARGE_TOKEN_WORDS (TOGMELIC_TOKEN_WORDS * TOGMELIC_LARGE_TOKENS)
#define TOGMELIC_LARGE_START_WORDS (TOGMELIC_START_WORDS * TOGMELIC_LARGE_TOKENS)
#define TOGMELIC_LARGE_TREE_WORDS (TOGMELIC_RECORD_WORDS * TOGMELIC_LARGE_LINES)
#define TOGMELIC_LARGE_BYTES (TOGMELIC_LONG_LINE * TOGMELIC_LARGE_LINES)

/* Made by tools/kinds.py, up to the line that says so: the numbers of docs/KINDS.md. */
/* Kinds of records: the first word of each, and in hexadecimal the first number of its line. */
#define TOGMELIC_FUNCTION 1 /* 01: function */
#define TOGMELIC_NAME 2 /* 02: name */
#define TOGMELIC_PARAMETER 3 /* 03: parameter */
#define TOGMELIC_ALIAS 4 /* 04: alias */
#define TOGMELIC_BUILTIN 5 /* 05: builtin */
#define TOGMELIC_BOOL_TYPE 6 /* 06: bool type */
#define TOGMELIC_UNSIGNED 7 /* 07: unsigned */
#define TOGMELIC_EITHER_TYPE 8 /* 08: Either type */
#define TOGMELIC_OPTION_TYPE 9 /* 09: Option type */
#define TOGMELIC_TUPLE_TYPE 10 /* 0A: tuple type */
#define TOGMELIC_ARRAY_TYPE 11 /* 0B: array type */
#define TOGMELIC_LIST_TYPE 12 /* 0C: list type */
#define TOGMELIC_IDENTIFIER_PATTERN 13 /* 0D: identifier pattern */
#define TOGMELIC_IGNORE_PATTERN 14 /* 0E: ignore pattern */
#define TOGMELIC_TUPLE_PATTERN 15 /* 0F: tuple pattern */
#define TOGMELIC_ARRAY_PATTERN 16 /* 10: array pattern */
#define TOGMELIC_LET 17 /* 11: let */
#define TOGMELIC_BLOCK 18 /* 12: block */
#define TOGMELIC_LEFT 19 /* 13: Left */
#define TOGMELIC_RIGHT 20 /* 14: Right */
#define TOGMELIC_SOME 21 /* 15: Some */
#define TOGMELIC_NONE 22 /* 16: None */
#define TOGMELIC_BOOLEAN 23 /* 17: boolean */
#define TOGMELIC_DECIMAL 24 /* 18: decimal */
#define TOGMELIC_HEXADECIMAL 25 /* 19: hexadecimal */
#define TOGMELIC_BINARY 26 /* 1A: binary */
#define TOGMELIC_WITNESS 27 /* 1B: witness */
#define TOGMELIC_PARAMETER_VALUE 28 /* 1C: parameter value */
#define TOGMELIC_VARIABLE 29 /* 1D: variable */
#define TOGMELIC_PARENTHESISED 30 /* 1E: parenthesised */
#define TOGMELIC_TUPLE 31 /* 1F: tuple */
#define TOGMELIC_ARRAY 32 /* 20: array */
#define TOGMELIC_LIST 33 /* 21: list */
#define TOGMELIC_ENUM_CONSTRUCTION 34 /* 22: enum construction */
#define TOGMELIC_MATCH 35 /* 23: match */
#define TOGMELIC_ENUM_MATCH 36 /* 24: enum match */
#define TOGMELIC_BUILTIN_ARM 37 /* 25: built-in arm */
#define TOGMELIC_ENUM_ARM 38 /* 26: enum arm */
#define TOGMELIC_CALL 39 /* 27: call */
#define TOGMELIC_NUMBER 40 /* 28: number */
#define TOGMELIC_PROGRAM 41 /* 29: program */
#define TOGMELIC_TYPE_ITEM 42 /* 2A: type item */

/* Calls: low of TOGMELIC_CALL. */
#define TOGMELIC_CALL_JET 1 /* jet::x(..) */
#define TOGMELIC_CALL_UNWRAP_LEFT 2 /* unwrap_left::<T>(..) */
#define TOGMELIC_CALL_UNWRAP_RIGHT 3 /* unwrap_right::<T>(..) */
#define TOGMELIC_CALL_UNWRAP 4 /* unwrap(..) */
#define TOGMELIC_CALL_IS_NONE 5 /* is_none::<T>(..) */
#define TOGMELIC_CALL_ASSERT 6 /* assert!(..) */
#define TOGMELIC_CALL_PANIC 7 /* panic!(..) */
#define TOGMELIC_CALL_DEBUG 8 /* dbg!(..) */
#define TOGMELIC_CALL_TYPE_CAST 9 /* <T>::into(..) */
#define TOGMELIC_CALL_CUSTOM 10 /* f(..) */
#define TOGMELIC_CALL_FOLD 11 /* fold::<f, n>(..) */
#define TOGMELIC_CALL_ARRAY_FOLD 12 /* array_fold::<f, n>(..) */
#define TOGMELIC_CALL_FOR_WHILE 13 /* for_while::<f>(..) */
#define TOGMELIC_CALL_RAW_HASH 14 /* raw_hash::<T>(..) */

/* Built-in arms: low of TOGMELIC_BUILTIN_ARM. Of the two in a match the first is LEFT, NONE or FALSE. */
#define TOGMELIC_ARM_LEFT 1 /* Left(p: T) => e, */
#define TOGMELIC_ARM_RIGHT 2 /* Right(p: T) => e, */
#define TOGMELIC_ARM_NONE 3 /* None => e, */
#define TOGMELIC_ARM_SOME 4 /* Some(p: T) => e, */
#define TOGMELIC_ARM_FALSE 5 /* false => e, */
#define TOGMELIC_ARM_TRUE 6 /* true => e, */

/* Built-in types: low of TOGMELIC_BUILTIN. TOGMELIC_BUILTIN_ARM, above, is a kind, and none of these. */
#define TOGMELIC_BUILTIN_CTX8 0 /* Ctx8 */
#define TOGMELIC_BUILTIN_PUBKEY 1 /* Pubkey */
#define TOGMELIC_BUILTIN_MESSAGE 2 /* Message */
#define TOGMELIC_BUILTIN_MESSAGE64 3 /* Message64 */
#define TOGMELIC_BUILTIN_SIGNATURE 4 /* Signature */
#define TOGMELIC_BUILTIN_SCALAR 5 /* Scalar */
#define TOGMELIC_BUILTIN_FE 6 /* Fe */
#define TOGMELIC_BUILTIN_GE 7 /* Ge */
#define TOGMELIC_BUILTIN_GEJ 8 /* Gej */
#define TOGMELIC_BUILTIN_POINT 9 /* Point */
#define TOGMELIC_BUILTIN_HEIGHT 10 /* Height */
#define TOGMELIC_BUILTIN_TIME 11 /* Time */
#define TOGMELIC_BUILTIN_DISTANCE 12 /* Distance */
#define TOGMELIC_BUILTIN_DURATION 13 /* Duration */
#define TOGMELIC_BUILTIN_LOCK 14 /* Lock */
#define TOGMELIC_BUILTIN_OUTPOINT 15 /* Outpoint */
#define TOGMELIC_BUILTIN_CONFIDENTIAL1 16 /* Confidential1 */
#define TOGMELIC_BUILTIN_EXPLICIT_ASSET 17 /* ExplicitAsset */
#define TOGMELIC_BUILTIN_ASSET1 18 /* Asset1 */
#define TOGMELIC_BUILTIN_EXPLICIT_AMOUNT 19 /* ExplicitAmount */
#define TOGMELIC_BUILTIN_AMOUNT1 20 /* Amount1 */
#define TOGMELIC_BUILTIN_EXPLICIT_NONCE 21 /* ExplicitNonce */
#define TOGMELIC_BUILTIN_NONCE 22 /* Nonce */
#define TOGMELIC_BUILTIN_TOKEN_AMOUNT1 23 /* TokenAmount1 */
/* End of what tools/kinds.py makes. */

/*
 * Lists a draft, a file of any number of functions and types: writes its lines into out and returns the bytes used, 41
 * times the lines. It takes drafts of up to 16,384 bytes and 2,048 tokens; for larger ones there is togmelic_list_large.
 *
 * An accepted draft has one line a record, a parent before its children:
 *
 *     kind start end low high size up
 *
 * in 2, 4, 4, 8, 8, 4 and 4 upper-case hexadecimal digits, one space between, LF after. Start and end are byte numbers
 * of the draft from 0, end being the byte after; size counts the record and all beneath it. Up is the way up: the
 * parent's line stands so many lines before this one, and only the first line, which has no parent, has 0. Lines stand
 * in the order of the tree, in which the two arms of a match may be exchanged, so the way up is not told by places.
 * docs/KINDS.md has the kinds and what low and high hold, docs/LANGUAGE.md which drafts are accepted. To have the records as
 * words, load what was written: togmelic_load with out and the bytes used, not out_length.
 *
 * Comments may hold any text in UTF-8, and everything else is ASCII. Places count bytes, not characters, also behind
 * such a comment. No start or end of a record cuts a character in two; the place of refusal 1, 16,384, may.
 *
 * The first line is the program's, kind 41, written 29: its place is the whole draft, which may be empty, and its size is
 * the number of lines. Its children are the items in the order of the draft, functions, kind 1, and type items, kind 42,
 * written 2A. A draft without items has the program's line alone.
 *
 * A refused draft, and no other, has a line that begins with 00, and that one alone: kind 00, the place twice, the number of
 * the refusal as low, high 0, size 1, up 0. The number is in hexadecimal too: refusal 19 is written 00000013. The place
 * is a byte number, or the draft's length where something is missing at its end. The number is one of 1 to 14, or 19
 * for an array type whose length is over 18,446,744,073,709,551,615, or 21 for a comment that is not well-formed UTF-8
 * (RFC 3629), at the first byte of the bad sequence. docs/REFUSALS.md has them all.
 *
 * Every byte of out behind the lines is set to zero. The lines are no C string: where they fill out, no zero ends them.
 *
 * Returns 0 only where the lines do not fit; then every byte of out is zero. A refusal needs 41 bytes.
 *
 * The draft may be any bytes of any length. Both lengths count bytes, and each pointer must be good for its length;
 * it may be NULL only where that length is 0. The draft must not change during the call: copy a file that is mapped into
 * memory first, unless no one can write to it.
 *
 * The two buffers must not overlap, since the proof and the compiler take it that they do not. Where they do, nothing is
 * promised: neither the answer, nor that memory outside of them is left alone. To have the listing where the draft stands,
 * copy the draft first, and list the copy.
 *
 * The answer depends on the draft and on out_length alone. Nothing is allocated, and nothing is kept: calls may be
 * made from several threads at once, each with an out of its own. A call takes up to 400,000 bytes of stack, so give
 * its thread 1 MiB.
 */
size_t togmelic_list(const unsigned char *draft, size_t draft_length, unsigned char *out, size_t out_length);

/*
 * Lists a draft as togmelic_list does, with other limits and in buffers for the tokens and the tree that are lent as well:
 * writes its lines into out and returns the bytes used. It takes drafts of up to 1,048,576 bytes and 131,072 tokens; the
 * other limits, 48 open brackets and 8 match in a row, are the same. Take it for contracts that a program generates, and
 * wherever the tokens or the records are wanted too: they stand in tokens and tree afterwards, so a server that reads such
 * drafts needs no Rattle, and loads nothing. togmelic_list is not changed by it.
 *
 * A draft of n bytes needs no more than
 *
 *     tokens  3 * min(n, 131072) words
 *     tree    7 * (min(n, 131072) + 1) words
 *     out     41 * (min(n, 131072) + 1) bytes where n is less than 65,536, else 49 * (min(n, 131072) + 1)
 *
 * TOGMELIC_LARGE_TOKEN_WORDS, TOGMELIC_LARGE_TREE_WORDS and TOGMELIC_LARGE_BYTES, 12 million bytes together, are enough for
 * every draft. Every word and byte that is lent is written, so lend what is needed: of longer buffers the rest is cleared
 * at every call.
 *
 * The lines are those that togmelic_list writes, above, in one of two forms, and all lines of a listing are of one:
 *
 *     25 01B6 0207 00000004 00000000 0009 0006
 *     25 0001B6 000207 00000004 00000000 000009 000006
 *
 * Where any start, end, size or way up in it is 65,536 or more, which four digits do not hold, every line of the listing
 * has six digits for each of these four numbers, and 49 bytes, TOGMELIC_LONG_LINE. Every other listing has lines of 41
 * bytes. A draft of less than 65,536 bytes never has a listing in the long form, and an accepted draft of as many or more
 * always does, since the end in its first line is its length. The first line tells the form: it has 49 bytes and not 41,
 * its LF counted, and its byte 7, counted from 0, is a digit and not a space. There are as many lines as the bytes used
 * divided by 41 or by 49. togmelic_load takes both forms.
 *
 * A refused draft has one line, as with togmelic_list, of 49 bytes where its place is 65,536 or more. The place of refusal 1
 * is 1,048,576, and that of 6 the first token too many: over 131,072, or over a third of the words of tokens, since each
 * needs three of them. 15 is given where tree has less than seven words for each record; its place is 0. So a buffer for
 * tokens or tree that is too short is a refusal, written as a line, of a draft that may be fine. Lend as many words as are
 * said above, and 6 and 15 are never about a buffer.
 *
 * Of an accepted draft tokens holds the tokens afterwards, three words each and in the order of the draft: kind, start,
 * and end, the byte after. Kinds are 1 to 36; docs/LANGUAGE.md, "Bytes and lexemes", has them. tree holds the records,
 * seven words each, the same words as togmelic_load gives for these lines. Every word behind them is zero, and no kind is,
 * so tokens and records end where a kind is 0 or the buffer ends. How many records there are is the number of lines, and
 * also tree[5], the size of the first record, which is the program's. Where the draft is refused, every word of tokens
 * and of tree is zero, so tree[0], where there is one, tells too whether the draft is accepted.
 *
 * Every byte of out behind the lines is set to zero. Returns 0 only where the lines do not fit; then every byte of out is
 * zero, and tokens and tree are as they are with an out that is long enough. So whoever wants the records alone may lend
 * an out of TOGMELIC_LONG_LINE bytes, in which the line of every refusal fits, and look at tree[0].
 *
 * The draft may be any bytes of any length. draft_length and out_length count bytes, tokens_length and tree_length count
 * words, and each pointer must be good for its length; it may be NULL only where that length is 0. tokens and tree must
 * be aligned for uint32_t. What the lent buffers held before the call does not matter. The draft must not change during
 * the call: copy a file that is mapped into memory first, unless no one can write to it.
 *
 * No two of the four buffers may overlap, since the proof and the compiler take it that they do not. Where two of them do,
 * nothing is promised: neither the answer, nor that memory outside of them is left alone. tokens and tree may be
 * parts of one array, one behind the other.
 *
 * The answer depends on the draft and on the lengths of the three other buffers alone. Nothing is allocated, and nothing is
 * kept: calls may be made from several threads at once, each with buffers of its own. A call takes up to 320,000 bytes
 * of stack, however long the draft is, so give its thread 1 MiB.
 */
size_t togmelic_list_large(const unsigned char *draft, size_t draft_length, uint32_t *tokens, size_t tokens_length,
                           uint32_t *tree, size_t tree_length, unsigned char *out, size_t out_length);

/*
 * Lists a draft as togmelic_list_large does, with a third of the words for its tokens: of each token starts keeps the start
 * alone, in one word, and not the kind and the end. Take it where many drafts are held at once. What is said above of
 * togmelic_list_large holds here too, of limits, lines, bytes used, out, tree and refusals, with these differences:
 *
 * A draft of n bytes needs no more than
 *
 *     starts  min(n, 131072) words
 *
 * that is, n words at most. TOGMELIC_LARGE_START_WORDS are enough for every draft.
 *
 * Of an accepted draft starts holds where each token begins, one word each and in the order of the draft, with zeros behind.
 * Each start is greater than the one before, and only the first may be 0; so behind the first word the starts end at the
 * first 0 or where the buffer ends. Where tree[5] is 1 the draft has no item, and no token. Where the draft is refused, every
 * word of starts and of tree is zero.
 *
 * The place of refusal 6 is the first token too many: over 131,072, or over the words of starts, whichever is less; not over
 * a third of them. So a starts that is too short is that refusal of a draft that may be fine.
 *
 * Wherever starts, here, and tokens, there, are long enough for the draft's tokens, or for 131,072, and tree and out are as
 * long, the two answer the same: the same bytes used, the same out and the same tree, also where the draft is refused; and
 * the starts are the second words of the tokens.
 *
 * No call reads what stood in starts before. So a server may lend one scratch again and again, and keep of each draft the
 * tree alone, or keep the starts with it. Kind and end of a token are had again in two ways. A record of one token, such as
 * a name or a number, has that token's place, and so its end, and the record's kind says what it is. For all tokens, brackets
 * and other marks too, call togmelic_list_large with the same draft when they are wanted: the token with the same number
 * has that start.
 *
 * No two of the four buffers may overlap, as with togmelic_list_large, and starts must be aligned for uint32_t. Nothing is
 * allocated, and nothing is kept: calls may be made from several threads at once, each with buffers of its own. A call takes up
 * to 320,000 bytes of stack, however long the draft is, so give its thread 1 MiB.
 */
size_t togmelic_list_lean(const unsigned char *draft, size_t draft_length, uint32_t *starts, size_t starts_length,
                          uint32_t *tree, size_t tree_length, unsigned char *out, size_t out_length);

/* Why a listing is refused, and at which line, each a size_t; both are 0 where it is not. */
struct togmelic_refusal {
    /* 16, 17 or 18. */
    size_t number;
    /* The first bad line, from 1, for 16; 0 for 17 and 18. */
    size_t line;
};

/*
 * Loads a listing, which may have been kept without its draft: writes its records into words, one a line and in the
 * order of the lines, and returns how many there are. A record is seven words, kind, start, end, low, high, size and the
 * way up. *refusal is then {0, 0}. Look at the kind before low: 0 is also TOGMELIC_BUILTIN_CTX8. Where low and high hold a
 * number of 64 bits (TOGMELIC_ARRAY_TYPE, TOGMELIC_LIST_TYPE, TOGMELIC_NUMBER) it is (uint64_t)high << 32 | low.
 *
 * The way up says how many records back the parent of a record begins: records, not words. It is 0 for the first record,
 * which nothing holds, and for no other. From the record with number at, counted from 0, this goes to each that holds it, its
 * parent first and the first record last:
 *
 *     while (at != 0) {
 *         at -= words[at * TOGMELIC_RECORD_WORDS + TOGMELIC_UP];
 *         ...
 *     }
 *
 * It ends, and stays in words, for every at that is less than the number of records.
 *
 * The first record is a program or a function, and its kind, words[0], tells which: TOGMELIC_PROGRAM in what
 * the three others write; TOGMELIC_FUNCTION in a listing of one function alone, such as those that were kept before files
 * were read.
 *
 * All lines of a listing are of one form, and there are three: of 41 bytes, as togmelic_list writes them; of 49, as
 * togmelic_list_large and togmelic_list_lean write those of which a start, an end, a size or a way up is 65,536 or more; and
 * of 36, those that were kept before records had the way up, five bytes shorter than 41, with LF behind the size. The way up is worked out then, and
 * the words are those of the same records in lines of 41.
 *
 * listing_length / TOGMELIC_SHORT_LINE * TOGMELIC_RECORD_WORDS words are always enough, for every form; for what
 * togmelic_list wrote, TOGMELIC_MOST_LINES * TOGMELIC_RECORD_WORDS are, and for what togmelic_list_large or
 * togmelic_list_lean wrote, TOGMELIC_LARGE_TREE_WORDS. Any other listing that is taken has at most 65,535 lines, or 16,777,215 of 49 bytes, which is
 * what the digits of a size can count.
 *
 * Only a listing whose records form one file or one function is taken. Else 0 is returned, and *refusal has the first
 * of these that is so:
 *
 *     16  a line is in none of the three forms, its last byte, LF, included, or in another than the first line is; the
 *         line is the first such. Lines are counted in the form of the first; where it is in none, it is line 1 itself.
 *         Or all lines are of 49 bytes, in form, and no start, end, size or way up is over 65,535, so that lines of 41
 *         would hold them, and only those are written; it is line 1 then
 *     17  the lines form neither one file nor one function: there are none, or it is a refusal's line, or two listings
 *         stand one behind the other, or a record's kind, low, high and children are not as docs/KINDS.md has them,
 *         two built-in arms are not in the order Left, None or False first, a size is not one more than those of the
 *         children, a program does not start at 0, any other start is not before its end, a child's place is not inside
 *         its parent's, or the way up in a line of 41 or 49 bytes does not lead to the parent, or is not 0 in the
 *         first line, as where the lines of one function are cut out of those of its file (docs/REFUSALS.md, 17)
 *     18  words is too short
 *
 * No draft is at hand, so a listing may be taken that is not your draft's, or no draft's at all: an end may be up to
 * 65,535, or 16,777,215 in lines of 49 bytes, and the places of siblings may overlap. See that an end is within the draft
 * before you cut a text out of it.
 *
 * Every word of words behind the records is set to zero, and where the listing is refused every word is. A file and a
 * function each have a record, also a file without items, so 0 is returned only where *refusal has a number: either one
 * tells the answer, and no word of a refused listing can be taken for a record.
 *
 * The listing may be any bytes of any length, such as those of a file, but no more than its lines: with the zeros that
 * the three others put behind them it is refused. listing_length counts bytes, words_length counts words, and each
 * pointer must be good for its length; it may be NULL only where that length is 0. words must be aligned for uint32_t.
 * refusal must not be NULL; what it held before the call does not matter. The listing must not change during the call,
 * which reads each byte more than once: copy a file that is mapped into memory first, unless no one can write to it.
 *
 * The listing, words and *refusal must not overlap, since the proof and the compiler take it that they do not. Where two of
 * them do, nothing is promised: neither the answer, nor that memory outside of them is left alone. To have the records
 * where the listing stands, copy the listing first, and load the copy.
 *
 * The answer depends on the listing and on words_length alone. Nothing is allocated, and nothing is kept: calls may be
 * made from several threads at once, each with words and a refusal of its own. A call takes less than 4,096 bytes of
 * stack, however deep the listing is nested.
 */
size_t togmelic_load(const unsigned char *listing, size_t listing_length, uint32_t *words, size_t words_length,
                     struct togmelic_refusal *refusal);

#ifdef __cplusplus
}
#endif

#endif
