/*
 * Rindovesh: a byte-pair trainer, proved. This is its C door: rindovesh_train trains a table of
 * pieces, rindovesh_piece reads one, rindovesh_merge_symbols rewrites a pair in one word.
 *
 * RUNS. Every buffer is a run of bytes: a pointer and a length in bytes. A number in a run is
 * little-endian on every host and unsigned unless said. A run may lie at any address: nothing is
 * asked of its alignment. Runs that are lent to one call must not overlap. A pointer must not be
 * null; an empty run may have any other pointer. Nothing is allocated, nothing is kept after a
 * call, and two calls may run at the same time on runs of their own.
 *
 * WHAT IS RETURNED. 0, or the number of a refusal (enum rindovesh_refusal). For every input the
 * functions return, and the bytes of every lent run are then as said below: no byte is left
 * unsaid, and no byte outside of the lent runs is written.
 *
 * THE ANSWER RUN is lent by the caller and must have at least 64 bytes. It then holds the numbers
 * given, 8 bytes each from its start, and every other byte of the whole run is 0; a refusal that
 * gives nothing leaves it all 0. Under 64 bytes a function returns RINDOVESH_BadShape, whatever
 * else is wrong, and no byte of any run changes, the answer run included.
 */
#ifndef RINDOVESH_H
#define RINDOVESH_H

#include <stddef.h>
#include <stdint.h>

#ifdef __cplusplus
extern "C" {
#endif

/*
 * The refusals, in the order in which they are tried: when several hold, the first is returned.
 * Places given count from 0.
 */
enum rindovesh_refusal {
    RINDOVESH_BadShape = 1,      /* a run is not of its shape */
    RINDOVESH_TooMany = 2,       /* a count or a length is over its limit */
    RINDOVESH_EmptyCorpus = 3,   /* no words */
    RINDOVESH_ZeroFrequency = 4, /* a frequency is 0; gives the first such word */
    RINDOVESH_OutOfOrder = 5,    /* a word is not above its predecessor; gives the first such word */
    RINDOVESH_TooHeavy = 6,      /* frequencies times units reach 2^53 */
    RINDOVESH_WorkRoom = 7,      /* the work room is too small; gives the bytes needed */
    RINDOVESH_SeedRoom = 8,      /* the seeds alone exceed an output room */
    RINDOVESH_VocabTooSmall = 9, /* size below the alphabet length; gives both numbers */
    RINDOVESH_OutputRoom = 10,   /* the answer exceeds an output room */
    RINDOVESH_NoSuchId = 11,     /* there is no piece with this number */
    RINDOVESH_ChangeRoom = 12    /* the list is too short for the reports */
};

/* The least length of an answer run. */
#define RINDOVESH_ANSWER_BYTES 64

/* What seeding means: how a word is cut into units. */
#define RINDOVESH_BYTES 0
#define RINDOVESH_CHARS 1

/* The longest piece length, which restricts nothing. */
#define RINDOVESH_NO_LIMIT UINT64_MAX

/* The most that rindovesh_train takes; anything over one of these is RINDOVESH_TooMany. */
#define RINDOVESH_MAX_WORDS 16777216
#define RINDOVESH_MAX_WORD_BYTES 268435456
#define RINDOVESH_MAX_VOCAB_SIZE 16777216
#define RINDOVESH_MAX_ALPHABET_SYMBOLS 65536
#define RINDOVESH_MAX_ALPHABET_BYTES 1048576
#define RINDOVESH_MAX_MARK_BYTES 255 /* of prefix and of suffix */

/*
 * The bytes of work room for so many units of all words and symbols of the initial alphabet. A word
 * has at most as many units as bytes, so the bytes of all words may stand for the units.
 */
#define RINDOVESH_WORK_BYTES(units, symbols) \
    ((uint64_t)512 * ((uint64_t)(units) + (uint64_t)(symbols)) + 32768)

/* A list with this many places has room for the reports of any word with so many symbols. */
#define RINDOVESH_REPORTS_AT_MOST(symbol_count) (2 * (size_t)(symbol_count))

/*
 * Trains: cuts words into units, then joins the most frequent pair of neighbours again and again,
 * until there are vocab_size pieces or no pair is frequent enough.
 *
 * The word table, its words in rising byte order:
 *   words            the bytes of all words, end to end
 *   word_ends        where each word ends in `words`, 4 bytes each
 *   frequencies      how often each word occurs, 8 bytes each
 * The settings:
 *   alphabet         symbols that are pieces whether or not a word has them, end to end
 *   alphabet_ends    where each symbol ends in `alphabet`, 4 bytes each
 *   prefix           put before each unit but a word's first; length 0 for none
 *   suffix           put after each word's last unit; length 0 for none
 *   seeding          RINDOVESH_BYTES: each byte is a unit, and all 256 byte values are pieces.
 *                    RINDOVESH_CHARS: a word that is well-formed UTF-8 (RFC 3629) is cut into its
 *                    characters, any other word into bytes
 *   vocab_size       how many pieces are wanted
 *   min_frequency    a pair with a lower count is not joined; 0 acts as 1
 *   max_piece_length the longest joined piece in bytes; RINDOVESH_NO_LIMIT restricts nothing
 * The rooms, lent to be written. Their contents at the start do not matter:
 *   work             at least RINDOVESH_WORK_BYTES(units of all words, symbols of the alphabet)
 *   pieces           the bytes of all pieces, end to end
 *   piece_ends       where each piece ends in `pieces`, 4 bytes each
 *   merges           for each merge the number of its left and of its right piece, 4 bytes each
 *   savings          for each merge the count that its pair had when it was chosen, 8 bytes
 *   answer           see above
 *
 * PIECES are numbered from 0: first the byte values, or the distinct units of all words in byte
 * order; then the symbols of the alphabet as they come; then each word's units with their prefix
 * and suffix, word by word. A spelling that is there already keeps its number. How many these are is
 * the alphabet length. Then each merge adds one piece, even if its spelling is there already: the
 * left spelling, then the right one without one leading prefix.
 *
 * MERGES. A pair's count is the sum over all words of frequency times the neighbouring places that
 * hold the pair; places may overlap (a a a holds a a twice). The pair with the greatest count is
 * joined, among equals the one with the lower left number, then with the lower right number; a pair
 * whose piece would be over max_piece_length is left out. Joining goes through each word from left to
 * right. Training ends when there are vocab_size pieces, or when no pair that is not left out has a
 * count of min_frequency or more. A word of one unit has no pair; an empty word has no unit.
 *
 * HOW LARGE. An answer has at most vocab_size pieces, and at most as many merges as vocab_size and as
 * there are units: 4 * vocab_size bytes of piece_ends and 8 * vocab_size bytes each of merges and
 * savings hold any answer. How long the pieces are is known at the end only. A room that is larger
 * than needed does no harm; for one that is too small there is a refusal, and the caller may lend a
 * larger one and call again.
 *
 * Returns 0 on success. The answer run gives three numbers: how many pieces there are, the alphabet
 * length, how many merges there are (the first is the sum of the others). `pieces`, `piece_ends`,
 * `merges` and `savings` hold the answer from their start, and 0 behind it; `work` is all 0.
 *
 * Returns otherwise the first of these that holds:
 *   RINDOVESH_BadShape      answer_len under 64 (no byte of any run changes); or seeding is neither
 *                           0 nor 1; word_ends or alphabet_ends no multiple of 4, frequencies none of
 *                           8; not as many frequencies as words; an end below the one before; a last
 *                           end that is not the length of its bytes (without ends: bytes)
 *   RINDOVESH_TooMany       more than a limit above
 *   RINDOVESH_EmptyCorpus   no words (an empty word is a word)
 *   RINDOVESH_ZeroFrequency, RINDOVESH_OutOfOrder
 *                           gives the place of the first such word; a word that comes twice is out of
 *                           order
 *   RINDOVESH_TooHeavy      the sum over all words of frequency times units is 2^53 or more
 *   RINDOVESH_WorkRoom      gives the bytes needed
 * and up to here `work` and the four output rooms stay as they were. After that they are set to 0, to
 * their last byte:
 *   RINDOVESH_SeedRoom      the pieces of the alphabet length exceed `pieces` or `piece_ends`
 *   RINDOVESH_VocabTooSmall gives vocab_size and the alphabet length
 *   RINDOVESH_OutputRoom    the whole answer exceeds one of the four output rooms, or has over
 *                           2^32 - 1 bytes of pieces
 *
 * Example: the words aab, ab and cab with the mark </w> after each.
 *
 *     #include <assert.h>
 *     #include <string.h>
 *     #include "rindovesh.h"
 *
 *     enum { SIZE = 64 };
 *     static uint8_t work[RINDOVESH_WORK_BYTES(8, 0)], pieces[1024], piece_ends[4 * SIZE];
 *     static uint8_t merges[8 * SIZE], savings[8 * SIZE], answer[RINDOVESH_ANSWER_BYTES];
 *
 *     int main(void) {
 *         const uint8_t words[8] = {'a', 'a', 'b', 'a', 'b', 'c', 'a', 'b'};
 *         const uint8_t word_ends[12] = {3, 0, 0, 0, 5, 0, 0, 0, 8, 0, 0, 0};
 *         const uint8_t frequencies[24] = {3, 0, 0, 0, 0, 0, 0, 0, 2, 0, 0, 0, 0, 0, 0, 0, 4};
 *         const uint8_t suffix[4] = {'<', '/', 'w', '>'}, none[1] = {0};
 *         uint64_t r = rindovesh_train(
 *             words, sizeof words, word_ends, sizeof word_ends, frequencies, sizeof frequencies,
 *             none, 0, none, 0, none, 0, suffix, sizeof suffix,
 *             RINDOVESH_CHARS, SIZE, 2, RINDOVESH_NO_LIMIT,
 *             work, sizeof work, pieces, sizeof pieces, piece_ends, sizeof piece_ends,
 *             merges, sizeof merges, savings, sizeof savings, answer, sizeof answer);
 *         assert(r == 0);
 *         // seven pieces: the seeds a, b, c and b</w>, then one for each of three merges
 *         assert(answer[0] == 7 && answer[8] == 4 && answer[16] == 3);
 *         assert(memcmp(pieces, "abcb</w>ab</w>cab</w>aab</w>", 28) == 0);
 *         assert(memcmp(piece_ends, "\1\0\0\0\2\0\0\0\3\0\0\0\10\0\0\0\16\0\0\0", 20) == 0);
 *         assert(memcmp(merges, "\0\0\0\0\3\0\0\0\2\0\0\0\4\0\0\0\0\0\0\0\4\0\0\0", 24) == 0);
 *         assert(savings[0] == 9 && savings[8] == 4 && savings[16] == 3);
 *         return 0;
 *     }
 *
 * Example: asking for the size of the work room by lending none.
 *
 *     #include <assert.h>
 *     #include "rindovesh.h"
 *
 *     int main(void) {
 *         const uint8_t words[2] = {'a', 'b'}, word_ends[4] = {2}, frequencies[8] = {1}, none[1] = {0};
 *         uint8_t no_room[1], answer[RINDOVESH_ANSWER_BYTES];
 *         uint64_t needed = 0;
 *         uint64_t r = rindovesh_train(
 *             words, sizeof words, word_ends, sizeof word_ends, frequencies, sizeof frequencies,
 *             none, 0, none, 0, none, 0, none, 0, RINDOVESH_BYTES, 300, 0, RINDOVESH_NO_LIMIT,
 *             no_room, 0, no_room, 0, no_room, 0, no_room, 0, no_room, 0, answer, sizeof answer);
 *         assert(r == RINDOVESH_WorkRoom);
 *         for (int i = 7; i >= 0; i--) {
 *             needed = needed << 8 | answer[i];
 *         }
 *         assert(needed == RINDOVESH_WORK_BYTES(2, 0));
 *         return 0;
 *     }
 */
uint64_t rindovesh_train(
    const uint8_t *words, size_t words_len,
    const uint8_t *word_ends, size_t word_ends_len,
    const uint8_t *frequencies, size_t frequencies_len,
    const uint8_t *alphabet, size_t alphabet_len,
    const uint8_t *alphabet_ends, size_t alphabet_ends_len,
    const uint8_t *prefix, size_t prefix_len,
    const uint8_t *suffix, size_t suffix_len,
    uint64_t seeding, uint64_t vocab_size, uint64_t min_frequency, uint64_t max_piece_length,
    uint8_t *work, size_t work_len,
    uint8_t *pieces, size_t pieces_len,
    uint8_t *piece_ends, size_t piece_ends_len,
    uint8_t *merges, size_t merges_len,
    uint8_t *savings, size_t savings_len,
    uint8_t *answer, size_t answer_len);

/*
 * Finds a piece of a trained table by its number.
 *
 *   pieces     the bytes of all pieces, end to end: exactly as many as the last end says
 *   piece_ends where each piece ends, 4 bytes each: exactly as many as there are pieces, without the
 *              zeros that training leaves behind them in a larger room
 *   number     the piece's number, from 0
 *   answer     see above
 *
 * Returns 0 on success. The answer run gives two numbers: where the piece starts in `pieces`, and its
 * length. The two other runs are only read.
 *
 * Returns RINDOVESH_BadShape if answer_len is under 64 (no byte of any run changes), or else if
 * piece_ends_len is no multiple of 4, there are over 16777216 ends, an end is below the one before, or
 * the last end is not pieces_len (without ends: if pieces_len is not 0); and after that
 * RINDOVESH_NoSuchId if number is at or past the piece count. Then the answer run is all 0.
 *
 * The whole table is looked at in each call. Who has looked once may read the ends directly.
 *
 * Example: a table of the pieces a, b and ab.
 *
 *     #include <assert.h>
 *     #include "rindovesh.h"
 *
 *     int main(void) {
 *         const uint8_t pieces[4] = {'a', 'b', 'a', 'b'};
 *         const uint8_t piece_ends[12] = {1, 0, 0, 0, 2, 0, 0, 0, 4, 0, 0, 0};
 *         uint8_t answer[RINDOVESH_ANSWER_BYTES];
 *         assert(rindovesh_piece(pieces, 4, piece_ends, 12, 2, answer, sizeof answer) == 0);
 *         assert(answer[0] == 2 && answer[8] == 2);
 *         assert(rindovesh_piece(pieces, 4, piece_ends, 12, 3, answer, sizeof answer) == RINDOVESH_NoSuchId);
 *         assert(rindovesh_piece(pieces, 3, piece_ends, 12, 0, answer, sizeof answer) == RINDOVESH_BadShape);
 *         return 0;
 *     }
 */
uint64_t rindovesh_piece(
    const uint8_t *pieces, size_t pieces_len,
    const uint8_t *piece_ends, size_t piece_ends_len,
    uint64_t number,
    uint8_t *answer, size_t answer_len);

/*
 * Rewrites the pair (left, right) to `joined` in one word, in place, and reports how the counts of
 * the pairs around it change.
 *
 *   symbols   the word: symbols of 4 bytes each
 *   changes   a list for the reports, 16 bytes each: the left symbol in 4 bytes, the right symbol
 *             in 4 bytes, then 1 or -1 in 8 bytes (two's complement)
 *   answer    see above
 *
 * The word is read from left to right, and occurrences do not overlap. `joined` may be any number,
 * also left, right or a symbol of the word. For each occurrence in turn there is reported, if a
 * symbol stands before it in the rewritten word,
 *     (previous, left) -1 and (previous, joined) +1,
 * where `previous` is the symbol before it in the rewritten word; then, if a symbol follows it,
 *     (right, next) -1 and (joined, next) +1,
 * where `next` is the symbol behind it in the word as it came. If `joined` occurs nowhere in the
 * word and is neither left nor right, the reports of each pair other than (left, right) add up to
 * the change in how often it stands in the word.
 *
 * Returns 0 on success. The answer run gives three numbers: how many occurrences were rewritten,
 * how many symbols are kept, how many reports there are. The kept symbols stand at the front of
 * `symbols`, the reports at the front of `changes`; all bytes behind them stay as they were.
 *
 * Returns RINDOVESH_BadShape if answer_len is under 64 (no byte of any run changes), or else if
 * symbols_len is no multiple of 4 or changes_len no multiple of 16; and after that
 * RINDOVESH_ChangeRoom if there are more reports than changes_len / 16. Then `symbols` and
 * `changes` stay as they were and the answer run is all 0.
 *
 * Example: in a b a b the pair (a, b) becomes X, with a = 1, b = 2, X = 3.
 *
 *     #include <assert.h>
 *     #include <string.h>
 *     #include "rindovesh.h"
 *
 *     int main(void) {
 *         uint8_t symbols[16] = {1, 0, 0, 0, 2, 0, 0, 0, 1, 0, 0, 0, 2, 0, 0, 0};
 *         uint8_t changes[4 * 16];
 *         uint8_t answer[RINDOVESH_ANSWER_BYTES];
 *         uint64_t r = rindovesh_merge_symbols(symbols, sizeof symbols, 1, 2, 3,
 *                                              changes, sizeof changes, answer, sizeof answer);
 *         assert(r == 0);
 *         assert(answer[0] == 2 && answer[8] == 2 && answer[16] == 4);
 *         assert(memcmp(symbols, "\3\0\0\0\3\0\0\0\1\0\0\0\2\0\0\0", 16) == 0);
 *         assert(memcmp(changes, "\2\0\0\0\1\0\0\0\377\377\377\377\377\377\377\377", 16) == 0);
 *         assert(memcmp(changes + 48, "\3\0\0\0\3\0\0\0\1\0\0\0\0\0\0\0", 16) == 0);
 *         return 0;
 *     }
 */
uint64_t rindovesh_merge_symbols(
    uint8_t *symbols, size_t symbols_len,
    uint32_t left, uint32_t right, uint32_t joined,
    uint8_t *changes, size_t changes_len,
    uint8_t *answer, size_t answer_len);

#ifdef __cplusplus
}
#endif

#endif
