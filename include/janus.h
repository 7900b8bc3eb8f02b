/*
 * janus.h: up to 64 seats agree on one number. For C99 and C++11 and later, on x86-64.
 *
 * A session is one agreement between n seats over rounds 1 to L. A sheet lists what happens, in order: a seat proposes a number,
 * takes a work turn, looks at the decision or crashes; or the session is closed, and takes no further proposal. janus_write makes
 * a sheet of a list of entries. janus_run opens a session, carries the sheet's entries out one after another and writes down which
 * seats have decided, and on what number. janus_report runs a sheet too and writes the board report's text.
 *
 * THE GUARANTEE
 *
 *   After janus_run all numbers in the buffer that are not 0 are equal, and that number was proposed: it is the value of a
 *   proposal entry that was carried out.
 *
 *   This is proved for every sheet and every budget, unless the sheet or the buffer is refused as a whole (the buffer is then as
 *   it was). docs/AGREEMENT.md has the theorem. Proved as well, for every sheet, damaged ones included: each number returned and
 *   each byte written is what the rules of the scope document give.
 *
 *   A sheet that janus_write has made is read as it was given: the same n, L and entries, cut into the same runs. And a sheet with
 *   an accepted header, well-formed entries, no gaps and no trailing bytes comes back byte for byte when what is read in it is
 *   written again. Both are proved.
 *
 * THE SHEET (numbers are little-endian)
 *
 *   byte 0         n, the number of seats, 1 to 64
 *   byte 1         p, the number of pairs, 0 to 16
 *   bytes 2, 3     L, the round limit, from the window W to 256; W goes by n, see DECISIONS
 *   then p pairs   16-bit offset and 16-bit length of a run of entries, offsets from the start of the sheet, sorted; the first run
 *                  starts at byte 4 + 4p or later, each next one at the end of the run before it or later
 *   entries        6 bytes each: kind, seat (0 to n - 1), 32-bit value
 *
 *   kind 0  propose    value: the number, 1 to 4,294,967,295
 *   kind 1  work turn  value: the leader hint, 0 no, 1 yes
 *   kind 2  look       value: 0
 *   kind 3  crash      value: 0
 *   kind 4  close      seat: 0, whatever n is; value: 0
 *
 *   A session is open at first. A close is told to the session and to no seat. It closes the session, also where it is closed
 *   already. From then on every proposal is refused, with 18 where nothing else is wrong with it, and all else goes on as in an open
 *   session. A close touches no register; it is an entry like the others, in the budget too. (Up to version 1.3 there was no kind 4:
 *   janus_write refused such an entry with 13, and janus_run stopped at it with 13. A sheet without one is run as before; of its
 *   report the line "board" has one word more.)
 *
 *   A run may have length 0. Bytes in no run are ignored. A sheet has 4 to 65,535 bytes, so it has 10,921 entries at most.
 *   janus_write makes the header and the pairs, so that nobody counts offsets by hand.
 *
 * WHOSE LIMITS
 *
 *   64 seats and 256 rounds are the clinic server's limits, and the three functions here use them. Those of the bedside cart, 16
 *   seats and 64 rounds, are for callers in Rattle: sheet_run::run and sheet_write::write with Caller::Cart. A sheet does not say
 *   whose it is. One that the cart has written is read here as it is, since the limits here are wider; one of more than 16 seats
 *   or 64 rounds the cart refuses with 1 or 2.
 */
#ifndef JANUS_H
#define JANUS_H

#include <stddef.h>
#include <stdint.h>

#define JANUS_VERSION_MAJOR 1
#define JANUS_VERSION_MINOR 4
#define JANUS_VERSION "1.4"

#define JANUS_SEATS_MAX 64
#define JANUS_ROUNDS_MAX 256
#define JANUS_PAIRS_MAX 16
#define JANUS_SHEET_MIN 4
#define JANUS_SHEET_MAX 65535
#define JANUS_ENTRY_LENGTH 6
#define JANUS_ENTRIES_MAX 10921
#define JANUS_BUFFER_LENGTH 256
#define JANUS_REPORT_LENGTH 5120

/* The bytes of a sheet that janus_write makes of so many runs and entries. */
#define JANUS_SHEET_SIZE(runs, entries) (4u + 4u * (runs) + 6u * (entries))

enum { JANUS_PROPOSE = 0, JANUS_WORK = 1, JANUS_LOOK = 2, JANUS_CRASH = 3, JANUS_CLOSE = 4 };
enum { JANUS_HINT_NO = 0, JANUS_HINT_YES = 1 };

/*
 * WHAT JANUS_RUN AND JANUS_WRITE RETURN: names, numbers and words
 *
 * The tests of janus_run are made in this order: 15; 10; 1; 2; 11 over all pairs; 12 over all runs. Then entry by entry: 13; for a
 * proposal 4, 5, 6, 18, for a work turn 4, 7, 8, 9, for a look or a crash 4, 7, 8, for a close no other. The first refused entry
 * ends the run. Those of janus_write: 1; 2; 12; 17; 13 over all entries; 15; refused, it changes nothing. The library's other
 * refusals (3, 14, 16, and all from 19 to 99) are for callers in Rattle, such as those that hold a session or a house; neither
 * function returns them.
 */
#define JANUS_RESULTS(X)                                                                                                    \
    X(JANUS_FINISHED, 0, "finished")                                                                                        \
    X(JANUS_BUDGET_ENDED, 100, "budget ended with entries left")                                                            \
    /* The buffer, the sheet or what is to be written is refused as a whole. The buffer is as it was. */                    \
    X(JANUS_BAD_BUFFER, 15, "buffer of wrong length")                                                                       \
    X(JANUS_BAD_SHEET, 10, "sheet under 4 or over 65,535 bytes, over 16 pairs, or too short for its pairs")                 \
    X(JANUS_BAD_SEAT_COUNT, 1, "seats not 1 to 64")                                                                         \
    X(JANUS_BAD_ROUND_LIMIT, 2, "round limit below the window or above 256")                                                \
    X(JANUS_BAD_PAIRS, 11, "pairs unsorted, overlapping, before the end of the pairs, or past the sheet")                   \
    X(JANUS_BAD_RUN, 12, "length of a run, or of the entries to be written, not a multiple of 6")                           \
    X(JANUS_BAD_CUTS, 17, "over 16 runs or 65,535 bytes to be written, or run lengths that do not add up to the entries")   \
    /* An entry is refused. janus_run: those before it were carried out, and the buffer tells how they left the seats. */   \
    X(JANUS_BAD_ENTRY, 13, "entry with an unknown kind or a wrong value, or a close with a seat other than 0")              \
    X(JANUS_NO_SUCH_SEAT, 4, "seat number n or above")                                                                      \
    X(JANUS_BLANK_PROPOSAL, 5, "proposal of 0")                                                                             \
    X(JANUS_SECOND_PROPOSAL, 6, "proposal by a seat that has proposed")                                                     \
    X(JANUS_CLOSED_TO_PROPOSALS, 18, "proposal to a closed session")                                                        \
    X(JANUS_SEAT_OUT, 7, "work turn, look or crash of a seat that has not proposed")                                        \
    X(JANUS_SEAT_GONE, 8, "work turn, look or crash of a seat that has crashed or decided")                                 \
    X(JANUS_SEAT_SPENT, 9, "work turn of a seat whose rounds are spent")

#define JANUS_RESULT_NAME(name, number, words) name = number,
enum { JANUS_RESULTS(JANUS_RESULT_NAME) };
#undef JANUS_RESULT_NAME

#ifdef __cplusplus
#define JANUS_NOEXCEPT noexcept
extern "C" {
#else
#define JANUS_NOEXCEPT
#endif

/*
 * Writes a sheet of n = `seats`, L = `limit` and the entries, 6 bytes each as above, cut into runs of runs[0], runs[1], ..
 * entries. The first run starts right behind the pairs, each next one at the end of the run before it. Returns 0 and, through
 * `size`, the sheet's size, which is JANUS_SHEET_SIZE of its runs and entries; bytes of the buffer `sheet` behind it are kept.
 * Otherwise returns the number of the first of these that does not hold, and changes neither the buffer nor *size:
 *
 *    1  n is 1 to 64
 *    2  L is from the window W to 256
 *   12  `entries_length`, in bytes, is a multiple of 6
 *   17  there are 16 runs or less, the sheet has 65,535 bytes or less, and the run lengths add up to the entries; they may be of
 *       any size, and a sum above SIZE_MAX does not add up
 *   13  each entry is of a known kind, with a value that its kind may have; a close has seat 0
 *   15  `sheet_length` is the sheet's size or more
 *
 * Nothing else of an entry is tested: a seat of n or above, a proposal of 0 and one behind a close are written, and refused when
 * the sheet is run. No runs and no entries make a sheet of 4 bytes. Entries are carried out alike however they are cut; one run for
 * all will do:
 *
 *   size_t run = COUNT, size;
 *   uint8_t sheet[JANUS_SHEET_SIZE(1, COUNT)];
 *   code = janus_write(n, limit, entries, COUNT * JANUS_ENTRY_LENGTH, &run, 1, sheet, sizeof sheet, &size);
 */
uint32_t janus_write(size_t seats, size_t limit, const uint8_t *entries, size_t entries_length, const size_t *runs,
                     size_t run_count, uint8_t *sheet, size_t sheet_length, size_t *size) JANUS_NOEXCEPT;

/*
 * Runs a sheet. `budget` is the most entries that are carried out; the one behind them is not tried, be it good or bad:
 *
 *   no entry is left behind them     0, even with a budget of 0
 *   some are left                  100, even if the next one would be refused
 *   SIZE_MAX or JANUS_ENTRIES_MAX  never 100: no sheet has more entries
 *
 * The sheet as a whole is tested whatever the budget. Every call starts from an empty board: to go on, run a longer sheet.
 *
 * After 0, 100 and a refused entry all 256 bytes of the buffer are written: bytes 4s to 4s + 3 hold seat s's decided number,
 * little-endian, or 0 where seat s has not decided (or does not exist), for s from 0 to 63. They do not tell whether the session is
 * closed; the report does.
 */
uint32_t janus_run(const uint8_t *sheet, size_t sheet_length, size_t budget, uint8_t *buffer, size_t buffer_length) JANUS_NOEXCEPT;

/*
 * Runs a sheet with a budget of JANUS_ENTRIES_MAX and writes the board report's text to the buffer, from its first byte on and
 * with no NUL behind it. Returns the text's size, which is never below 16; later bytes of the buffer are kept. Returns 15 and
 * changes nothing if the buffer is shorter than the text; one of JANUS_REPORT_LENGTH bytes never is.
 *
 * The text tells which entry was refused: its first line is then "outcome refused CODE INDEX", with indices from 0. The other
 * first lines are "outcome finished" and the number of entries carried out, and, alone, "sheet refused CODE". The line "tally" has
 * the register reads, the register writes and contested, which is the number of marked rounds on the board. The line "board" has
 * three fields: the highest filled round, 0 for none; the number in the decision register, 0 for none; and "open" or "closed", which
 * the session is at the end. (Up to version 1.3 it had the first two alone.)
 */
size_t janus_report(const uint8_t *sheet, size_t sheet_length, uint8_t *buffer, size_t buffer_length) JANUS_NOEXCEPT;

#ifdef __cplusplus
}
#endif

/*
 * POINTERS. What is read must be readable for its length and what is written writable for its length: the sheet that is run, the
 * entries and the run lengths; the buffer, the sheet that is written and *size. None of them may overlap one that is written, and
 * no other thread may write any of them during the call: the proof begins there. With length or count 0 a pointer is not looked at
 * and may be NULL: no sheet is answered with 10, no buffer with 15; no entries and no runs are in order. `size` must not be NULL.
 *
 * THREADS. The functions keep no state, allocate nothing, take no lock, make no system call and call nothing but memcpy and
 * memset. Any number of threads may call them at once, each with a buffer of its own; they may share what is only read.
 *
 * STACK. A call of janus_run takes about 18 KB, one of janus_report about 26 KB, one of janus_write less than 1 KB, and some 3 KB
 * more if the dynamic linker binds memcpy and memset during the call (measured with glibc 2.36 on a processor with AVX-512); each
 * takes less than JANUS_STACK. The C library keeps data of its own on a thread's stack. Give a thread JANUS_THREAD_STACK and what
 * your own functions take. A call on a stack that is too short ends in the guard page, if there is one, never beyond it.
 *
 * LINKING. ./install.sh PREFIX builds the archive and installs it, this header and PREFIX/lib/pkgconfig/janus.pc. Then, with
 * PKG_CONFIG_PATH=PREFIX/lib/pkgconfig: cc server.c $(pkg-config --cflags --libs janus). The code is position-independent and
 * uses the instructions that every x86-64 processor has. Linked into a shared library, -Wl,--exclude-libs,libjanus.a keeps its
 * names from being exported by that library. There are no unwind tables and no debug information: a backtrace ends in these
 * functions, and a C++ exception cannot pass through them. None needs to, as they call nothing back.
 */
#define JANUS_STACK 32768
#define JANUS_THREAD_STACK 65536

/* The words of a number that janus_run or janus_write returned. */
static inline const char *janus_result_text(uint32_t number)
{
#define JANUS_RESULT_WORDS(name, value, words) \
    case value:                                \
        return words;
    switch (number) {
        JANUS_RESULTS(JANUS_RESULT_WORDS)
    default:
        return "not a number that janus_run or janus_write returns";
    }
#undef JANUS_RESULT_WORDS
}

/*
 * DECISIONS. Every figure that goes by the window stands here. The figures are tested, not proved.
 *
 *   A seat commits once the last W rounds hold its number and none of them is contested. Every seat that looks from then on
 *   decides on that number. The seat that committed must look too: a commit alone decides nobody.
 *
 *   To get a decision, give one seat work turns with hint yes, and the others none, until that seat has committed; then let every
 *   seat look. A seat that works alone from an empty board commits with this work turn, whatever L is:
 *
 *   seats n          1      2    3-4    5-6    7-9  10-12  13-16  17-20  21-25  26-30  31-36  37-42  43-49  50-56  57-64
 *   window W         2      3      4      5      6      7      8      9     10     11     12     13     14     15     16
 *   work turns      12     19     27     36     46     57     69     82     96    111    127    144    162    181    201
 *
 *   W is the smallest whole number with W times W at least 4n (up to version 1.2: 2 times the root of n, rounded up, plus 1). No
 *   window has grown, so an L that was large enough still is. The same sheet may end otherwise than with 1.2: a seat may commit
 *   earlier and so be decided by an earlier look, and its turns after that are refused with 8; it may be through its rounds in
 *   fewer turns and so be spent earlier, and its work turns after that are refused with 9; and where seats are in each other's
 *   way, another of the numbers proposed may be decided.
 *
 *   The turns are W rounds with a read, a write and 1, 2, .. W comparisons, then two checks for each of the W rounds, then the
 *   commit: W (W + 9) / 2 + 1. In examples/run_sheet.c n is 2, so W is 3 and the turns are 19.
 *
 *   On a board in use, with h as its highest filled round, a seat that works alone commits in round h + W or before, within
 *   (W + 2) (4W + 4) + h work turns, if L is h + W or more. So L = W is enough for a seat that is alone from the start, and every
 *   round that seats fill in each other's way needs one more. A larger L takes no more memory.
 *
 *   The hint is read between rounds only, while rounds are left: with hint no a seat finishes its round, then waits. Seats that get
 *   hint yes by turns may hinder each other until their rounds are spent, so a run may end undecided: 0 is returned and the buffer
 *   holds no number. Run a sheet with a larger L, or one in which the hint stays longer with one seat.
 *
 *   A close changes none of these figures: seats that have proposed work and look in a closed session as in an open one.
 *
 *   Work turns after the commit do no harm while rounds are left. Once a seat has finished round L, its next work turn makes it
 *   spent, whatever the hint (up to version 1.1: with hint yes alone), and each one after that stops the sheet with 9. A spent seat
 *   may still look.
 */
static inline unsigned janus_window(unsigned seats)
{
    const unsigned once = seats < JANUS_SEATS_MAX ? seats : JANUS_SEATS_MAX, twice = once + once, end = twice + twice;
    unsigned root = 0, square = 0, odd = 1; /* 1 + 3 + 5 + ..: the sum of the first m odd numbers is m times m */
    while (square < end) {
        square += odd;
        odd += 2;
        root++;
    }
    return root;
}

/* The work turns that a seat alone takes from an empty board to its commit. */
static inline unsigned janus_turns_alone(unsigned seats)
{
    const unsigned window = janus_window(seats);
    return window * (window + 9) / 2 + 1;
}

#endif
