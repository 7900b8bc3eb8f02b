/*
 * Checks janus_run through its header: what it answers to whole and to damaged sheets, and what it leaves in the buffer. Each run
 * is lent a room of 0xAA bytes, so that a byte written where none should be is seen. Ends at the first failure.
 */
#include "c_sheet.h"

enum { ALL = JANUS_ENTRIES_MAX, LENGTH = JANUS_BUFFER_LENGTH, LARGEST = 300 };

static uint32_t decided[JANUS_SEATS_MAX]; /* what the buffer should hold */
static uint8_t room[GUARD + LARGEST + GUARD];
static uint8_t *const buffer = room + GUARD;

/* A sheet of which no seat is to decide as yet. */
static void start(uint8_t n, uint16_t limit)
{
    memset(decided, 0, sizeof decided);
    begin(n, limit);
}

/* One seat, two rounds: the seat commits 7 with its 12th turn and stands at the gate with no round left. */
static void start_solo(void)
{
    start(1, 2);
    add(JANUS_PROPOSE, 0, 7);
    work(0, 12);
}

/* Runs the sheet; nothing beside the lent buffer may be written. */
static uint32_t run(const char *what, size_t budget, size_t length)
{
    memset(room, FILL, sizeof room);
    uint32_t code = janus_run(sheet, sheet_length, budget, buffer, length);
    check(filled(room, buffer), what, "bytes before the buffer are kept");
    check(filled(buffer + length, room + sizeof room), what, "bytes after the buffer are kept");
    return code;
}

/* No session is made: the buffer is as it was. */
static void unchanged(const char *what, uint32_t code, size_t length)
{
    check(run(what, ALL, length) == code, what, "the number returned");
    check(filled(buffer, buffer + length), what, "the buffer is kept");
}

/* A session is made: the whole buffer is written. */
static void written(const char *what, uint32_t code, size_t budget)
{
    unsigned same = 0;
    check(run(what, budget, LENGTH) == code, what, "the number returned");
    while (same < JANUS_SEATS_MAX && number_at(buffer, same) == decided[same])
        same++;
    check(same == JANUS_SEATS_MAX, what, "the buffer holds the decided numbers");
}

static void opened(const char *what, uint8_t n, uint16_t limit, uint32_t code)
{
    header(n, 0, limit, 4);
    if (code == JANUS_FINISHED)
        written(what, code, ALL);
    else
        unchanged(what, code, LENGTH);
}

/* The paper's unstarred cases, and the bounds of an opening. */
static void openings(void)
{
    header(1, 0, 2, 0);
    unchanged("an empty sheet", JANUS_BAD_SHEET, LENGTH);
    opened("bytes 1, 0, 3, 0", 1, 3, JANUS_FINISHED);
    opened("bytes 1, 0, 2, 0", 1, 2, JANUS_FINISHED);
    opened("L = 256", 1, JANUS_ROUNDS_MAX, JANUS_FINISHED);
    opened("L = 257", 1, JANUS_ROUNDS_MAX + 1, JANUS_BAD_ROUND_LIMIT);
    opened("L below the window", 1, 1, JANUS_BAD_ROUND_LIMIT);
    opened("64 seats, L = 15", 64, 15, JANUS_BAD_ROUND_LIMIT);
    opened("64 seats, L = 16", 64, 16, JANUS_FINISHED);
    opened("64 seats, L = 256", JANUS_SEATS_MAX, JANUS_ROUNDS_MAX, JANUS_FINISHED);
    opened("16 seats, L = 65, over the cart's rounds", 16, 65, JANUS_FINISHED);
    opened("17 seats, L = 64, over the cart's seats", 17, 64, JANUS_FINISHED);
    opened("no seat", 0, 2, JANUS_BAD_SEAT_COUNT);
    opened("65 seats", 65, JANUS_ROUNDS_MAX, JANUS_BAD_SEAT_COUNT);
}

/* The budget beside the entries: as many as it allows are tried, and no other. */
static void budgets(void)
{
    start(1, 2);
    written("budget 0 and no entry", JANUS_FINISHED, 0);
    add(JANUS_PROPOSE, 0, 7);
    written("budget 0 and one entry", JANUS_BUDGET_ENDED, 0);
    written("budget 1 and one entry", JANUS_FINISHED, 1);
    add(JANUS_PROPOSE, 0, 0);
    written("a bad entry right behind the budget", JANUS_BUDGET_ENDED, 1);
    written("a bad entry at the budget", JANUS_BLANK_PROPOSAL, 2);
    written("a bad entry, and no bound", JANUS_BLANK_PROPOSAL, SIZE_MAX);
    sheet[0] = 0;
    check(run("a refused sheet and budget 0", 0, LENGTH) == JANUS_BAD_SEAT_COUNT, "a refused sheet and budget 0", "refused");
}

/* The most entries that a sheet has room for. */
static void full_sheet(void)
{
    start(1, 2);
    add(JANUS_PROPOSE, 0, 7);
    for (unsigned i = 1; i < JANUS_ENTRIES_MAX; i++)
        add(JANUS_WORK, 0, JANUS_HINT_NO);
    check(JANUS_SHEET_MAX - sheet_length < JANUS_ENTRY_LENGTH, "a full sheet", "has room for no other entry");
    written("a full sheet, one entry short", JANUS_BUDGET_ENDED, JANUS_ENTRIES_MAX - 1);
    written("a full sheet", JANUS_FINISHED, JANUS_ENTRIES_MAX);
    written("a full sheet, and no bound", JANUS_FINISHED, SIZE_MAX);
}

static void lengths(void)
{
    header(1, 0, 2, JANUS_SHEET_MIN - 1);
    unchanged("3 bytes", JANUS_BAD_SHEET, LENGTH);
    header(1, 1, 2, HEADER - 1);
    unchanged("too short for its pair", JANUS_BAD_SHEET, LENGTH);
    header(1, JANUS_PAIRS_MAX + 1, 2, 4 + 4 * (JANUS_PAIRS_MAX + 1));
    unchanged("17 pairs", JANUS_BAD_SHEET, LENGTH);
    header(1, 0, 2, JANUS_SHEET_MAX + 1);
    unchanged("65,536 bytes", JANUS_BAD_SHEET, LENGTH);
    header(1, 0, 2, JANUS_SHEET_MAX);
    written("65,535 bytes", JANUS_FINISHED, ALL);
}

static void buffers(void)
{
    begin(1, 2);
    unchanged("a buffer of 255 bytes", JANUS_BAD_BUFFER, LENGTH - 1);
    unchanged("a buffer of 257 bytes", JANUS_BAD_BUFFER, LENGTH + 1);
    unchanged("a buffer of no byte", JANUS_BAD_BUFFER, 0);
}

/* NULL stands for no byte at all. */
static void nulls(void)
{
    memset(room, FILL, sizeof room);
    check(janus_run(NULL, 0, ALL, buffer, LENGTH) == JANUS_BAD_SHEET, "NULL, a sheet of no byte", "refused");
    check(filled(room, room + sizeof room), "NULL, a sheet of no byte", "the buffer is kept");
    check(janus_run(sheet, sheet_length, ALL, NULL, 0) == JANUS_BAD_BUFFER, "NULL, a buffer of no byte", "refused");
    check(janus_run(NULL, 0, ALL, NULL, 0) == JANUS_BAD_BUFFER, "NULL for both", "refused");
}

/* A sheet with two pairs, which end at byte 12; each entry is a proposal of 0. */
static void pairs(uint16_t from, uint16_t size, uint16_t next, uint16_t next_size, size_t length)
{
    header(1, 2, 2, length);
    put(4, from, 2);
    put(6, size, 2);
    put(8, next, 2);
    put(10, next_size, 2);
}

static void runs(void)
{
    pairs(18, 6, 12, 6, 24);
    unchanged("pairs unsorted", JANUS_BAD_PAIRS, LENGTH);
    pairs(12, 12, 18, 6, 24);
    unchanged("runs that overlap", JANUS_BAD_PAIRS, LENGTH);
    pairs(11, 6, 18, 6, 24);
    unchanged("a run before the end of the pairs", JANUS_BAD_PAIRS, LENGTH);
    pairs(12, 6, 18, 6, 23);
    unchanged("a run past the sheet", JANUS_BAD_PAIRS, LENGTH);
    pairs(12, 7, 18, 6, 24);
    unchanged("runs that overlap, one of 7 bytes", JANUS_BAD_PAIRS, LENGTH);
    pairs(12, 6, 18, 5, 24);
    unchanged("a run of 5 bytes", JANUS_BAD_RUN, LENGTH);
    pairs(12, 6, 18, 6, 24);
    written("two runs", JANUS_BLANK_PROPOSAL, ALL);
    pairs(12, 0, 12, 0, 12);
    written("two runs of no entry", JANUS_FINISHED, ALL);
}

/* Everything is wrong at first. Each fault is mended when it has been named, and the next one is named. */
static void order(void)
{
    pairs(12, 7, 18, 6, 24);
    sheet[0] = 0;
    sheet[1] = JANUS_PAIRS_MAX + 1;
    sheet[2] = 0;
    sheet[12] = 9;
    unchanged("every fault, the buffer's too", JANUS_BAD_BUFFER, LENGTH - 1);
    unchanged("every fault of a sheet", JANUS_BAD_SHEET, LENGTH);
    sheet[1] = 2;
    unchanged("n, L, pairs, a run, an entry", JANUS_BAD_SEAT_COUNT, LENGTH);
    sheet[0] = 1;
    unchanged("L, pairs, a run, an entry", JANUS_BAD_ROUND_LIMIT, LENGTH);
    sheet[2] = 2;
    unchanged("pairs, a run, an entry", JANUS_BAD_PAIRS, LENGTH);
    put(8, 19, 2);
    sheet_length = 25;
    unchanged("a run, an entry", JANUS_BAD_RUN, LENGTH);
    put(6, 6, 2);
    written("an entry", JANUS_BAD_ENTRY, ALL);
}

/* The last entry is refused; the entries before it were carried out. */
static void refused(const char *what, uint32_t code, uint8_t kind, uint8_t seat, uint32_t value)
{
    size_t length = sheet_length;
    add(kind, seat, value);
    written(what, code, ALL);
    end_at(length);
}

static void malformed(void)
{
    start(1, 2);
    refused("an unknown kind", JANUS_BAD_ENTRY, 5, 0, 0);
    refused("an unknown kind of a seat that is not there", JANUS_BAD_ENTRY, 5, 9, 0);
    refused("the last kind of a byte", JANUS_BAD_ENTRY, 255, 0, 0);
    refused("a hint of 2", JANUS_BAD_ENTRY, JANUS_WORK, 0, 2);
    refused("a hint of 256", JANUS_BAD_ENTRY, JANUS_WORK, 0, 256);
    refused("a look with a value", JANUS_BAD_ENTRY, JANUS_LOOK, 0, 1);
    refused("a crash with a value", JANUS_BAD_ENTRY, JANUS_CRASH, 0, 1);
}

static void proposals(void)
{
    start(2, 3);
    refused("a proposal by seat n", JANUS_NO_SUCH_SEAT, JANUS_PROPOSE, 2, 7);
    refused("a proposal of 0 by seat n", JANUS_NO_SUCH_SEAT, JANUS_PROPOSE, 2, 0);
    refused("a work turn of seat n", JANUS_NO_SUCH_SEAT, JANUS_WORK, 2, JANUS_HINT_YES);
    refused("a proposal of 0", JANUS_BLANK_PROPOSAL, JANUS_PROPOSE, 1, 0);
    refused("a work turn before a proposal", JANUS_SEAT_OUT, JANUS_WORK, 1, JANUS_HINT_NO);
    refused("a look before a proposal", JANUS_SEAT_OUT, JANUS_LOOK, 1, 0);
    refused("a crash before a proposal", JANUS_SEAT_OUT, JANUS_CRASH, 1, 0);
    add(JANUS_PROPOSE, 1, 5);
    refused("a second proposal", JANUS_SECOND_PROPOSAL, JANUS_PROPOSE, 1, 5);
    refused("a second proposal, of 0", JANUS_BLANK_PROPOSAL, JANUS_PROPOSE, 1, 0);
}

/* A close names no seat and has no value: kind 4 with another seat or value is malformed, in an open session and in a closed one. */
static void malformed_closes(void)
{
    refused("a close with seat 1", JANUS_BAD_ENTRY, JANUS_CLOSE, 1, 0);
    refused("a close with seat n", JANUS_BAD_ENTRY, JANUS_CLOSE, 2, 0);
    refused("a close with seat 64", JANUS_BAD_ENTRY, JANUS_CLOSE, JANUS_SEATS_MAX, 0);
    refused("a close with seat 255", JANUS_BAD_ENTRY, JANUS_CLOSE, 255, 0);
    refused("a close with the value 1", JANUS_BAD_ENTRY, JANUS_CLOSE, 0, 1);
    refused("a close with the value 256", JANUS_BAD_ENTRY, JANUS_CLOSE, 0, 256);
    refused("a close with the largest value", JANUS_BAD_ENTRY, JANUS_CLOSE, 0, UINT32_MAX);
    refused("a close with a seat and a value", JANUS_BAD_ENTRY, JANUS_CLOSE, 255, 1);
}

/* Of two seats, seat 0 has proposed and seat 1 has not. No proposal is accepted; 4, 5 and 6 are tested before 18. */
static void closed_to_proposals(void)
{
    refused("a late proposal", JANUS_CLOSED_TO_PROPOSALS, JANUS_PROPOSE, 1, 7);
    refused("a late proposal of the largest number", JANUS_CLOSED_TO_PROPOSALS, JANUS_PROPOSE, 1, UINT32_MAX);
    refused("a late proposal by seat n", JANUS_NO_SUCH_SEAT, JANUS_PROPOSE, 2, 7);
    refused("a late proposal of 0 by seat n", JANUS_NO_SUCH_SEAT, JANUS_PROPOSE, 2, 0);
    refused("a late proposal of 0", JANUS_BLANK_PROPOSAL, JANUS_PROPOSE, 1, 0);
    refused("a late second proposal", JANUS_SECOND_PROPOSAL, JANUS_PROPOSE, 0, 7);
    refused("a late second proposal, of 0", JANUS_BLANK_PROPOSAL, JANUS_PROPOSE, 0, 0);
}

/* A seat that is out when the session is closed stays out. */
static void out_for_good(void)
{
    refused("a work turn of a seat that may not propose", JANUS_SEAT_OUT, JANUS_WORK, 1, JANUS_HINT_YES);
    refused("its look", JANUS_SEAT_OUT, JANUS_LOOK, 1, 0);
    refused("its crash", JANUS_SEAT_OUT, JANUS_CRASH, 1, 0);
}

/* A close counts as an entry, and it is accepted whatever has happened, a second time too. */
static void close_again(const char *what)
{
    const size_t entries = (sheet_length - HEADER) / JANUS_ENTRY_LENGTH;
    add(JANUS_CLOSE, 0, 0);
    written(what, JANUS_BUDGET_ENDED, entries);
    written(what, JANUS_FINISHED, entries + 1);
}

/* All but proposals goes on in a closed session: seat 0 works to its commit, looks and decides as in an open one. Nothing opens it. */
static void closes(void)
{
    start(2, 3);
    malformed_closes();
    close_again("a close of a session just opened");
    refused("a proposal behind a close", JANUS_CLOSED_TO_PROPOSALS, JANUS_PROPOSE, 0, 7);
    start(2, 3);
    add(JANUS_PROPOSE, 0, 7);
    close_again("a close behind a proposal");
    malformed_closes();
    closed_to_proposals();
    close_again("a second close");
    closed_to_proposals();
    out_for_good();
    work(0, 18);
    closed_to_proposals();
    add(JANUS_LOOK, 0, 0);
    written("a look before the commit, closed", JANUS_FINISHED, ALL);
    closed_to_proposals();
    work(0, 1);
    closed_to_proposals();
    close_again("a close behind a commit");
    add(JANUS_LOOK, 0, 0);
    decided[0] = 7;
    written("a look behind the commit, closed", JANUS_FINISHED, ALL);
    closed_to_proposals();
    close_again("a close behind a decision");
    closed_to_proposals();
    out_for_good();
}

/* Spent and crashed seats in a closed session: the same numbers as in an open one. */
static void ended_when_closed(void)
{
    start(2, 3);
    add(JANUS_PROPOSE, 0, 7);
    add(JANUS_CLOSE, 0, 0);
    add(JANUS_CRASH, 0, 0);
    closed_to_proposals();
    start_solo();
    add(JANUS_CLOSE, 0, 0);
    work(0, 1);
    refused("a work turn of a seat spent when closed", JANUS_SEAT_SPENT, JANUS_WORK, 0, JANUS_HINT_NO);
    add(JANUS_CRASH, 0, 0);
    written("a crash when closed", JANUS_FINISHED, ALL);
    close_again("a close behind a crash");
    refused("a work turn behind a crash, closed", JANUS_SEAT_GONE, JANUS_WORK, 0, JANUS_HINT_YES);
    refused("a look behind a crash, closed", JANUS_SEAT_GONE, JANUS_LOOK, 0, 0);
    refused("a proposal behind a crash, closed", JANUS_SECOND_PROPOSAL, JANUS_PROPOSE, 0, 7);
}

/* Three turns that no seat takes once it has crashed or decided. */
static void gone(const char *what)
{
    refused(what, JANUS_SEAT_GONE, JANUS_WORK, 0, JANUS_HINT_YES);
    refused(what, JANUS_SEAT_GONE, JANUS_LOOK, 0, 0);
    refused(what, JANUS_SEAT_GONE, JANUS_CRASH, 0, 0);
}

/* In round L the next turn makes the seat spent, whatever its hint, and each later one is refused. A look is not. */
static void spent(uint32_t hint)
{
    start_solo();
    add(JANUS_WORK, 0, hint);
    written("a work turn in round L", JANUS_FINISHED, ALL);
    refused("a work turn of a spent seat", JANUS_SEAT_SPENT, JANUS_WORK, 0, JANUS_HINT_YES);
    refused("a work turn of a spent seat, hint no", JANUS_SEAT_SPENT, JANUS_WORK, 0, JANUS_HINT_NO);
    add(JANUS_LOOK, 0, 0);
    written("the look, one entry short", JANUS_BUDGET_ENDED, 14);
    decided[0] = 7;
    written("the look of a spent seat", JANUS_FINISHED, 15);
}

static void walks(void)
{
    start_solo();
    written("12 turns and no look", JANUS_FINISHED, ALL);
    add(JANUS_CRASH, 0, 0);
    gone("a crashed seat");
    spent(JANUS_HINT_NO);
    spent(JANUS_HINT_YES);
    gone("a decided seat");
    refused("an unknown kind after a decision", JANUS_BAD_ENTRY, 5, 0, 0);
    refused("a proposal after a decision", JANUS_SECOND_PROPOSAL, JANUS_PROPOSE, 0, 8);
}

/* A call knows nothing of the call before it. */
static void fresh_boards(void)
{
    start_solo();
    add(JANUS_LOOK, 0, 0);
    decided[0] = 7;
    written("a decision", JANUS_FINISHED, ALL);
    written("the same sheet again", JANUS_FINISHED, ALL);
    start(1, 2);
    add(JANUS_PROPOSE, 0, 8);
    add(JANUS_LOOK, 0, 0);
    written("a look at an empty board, after a decision", JANUS_FINISHED, ALL);
    add(JANUS_CLOSE, 0, 0);
    written("a close", JANUS_FINISHED, ALL);
    start(1, 2);
    add(JANUS_PROPOSE, 0, 8);
    written("a proposal in an open session, after a closed one", JANUS_FINISHED, ALL);
}

/* Seat 1 has written first, so seat 0 adopts its number and commits it. */
static void agreement(void)
{
    start(2, JANUS_ROUNDS_MAX);
    add(JANUS_PROPOSE, 0, 0x01020304);
    add(JANUS_PROPOSE, 1, 0xFFFEFDFC);
    work(1, 2);
    work(0, 60);
    add(JANUS_LOOK, 1, 0);
    decided[1] = 0xFFFEFDFC;
    written("one of two seats has looked", JANUS_FINISHED, ALL);
    add(JANUS_LOOK, 0, 0);
    decided[0] = 0xFFFEFDFC;
    written("two seats decide the same number", JANUS_FINISHED, ALL);
}

static void last_seat(void)
{
    const uint8_t last = JANUS_SEATS_MAX - 1;
    start(JANUS_SEATS_MAX, JANUS_ROUNDS_MAX);
    add(JANUS_PROPOSE, last, 0x01020304);
    work(last, 300);
    add(JANUS_LOOK, last, 0);
    decided[last] = 0x01020304;
    written("the last of 64 seats decides", JANUS_FINISHED, ALL);
    check(buffer[LENGTH - 4] == 4 && buffer[LENGTH - 1] == 1, "the last of 64 seats decides", "the low byte is first");
}

/* Each number has words of its own, and the numbers are those of the scope document. */
static void words(void)
{
    const uint32_t numbers[] = {0, 1, 2, 4, 5, 6, 7, 8, 9, 10, 11, 12, 13, 15, 17, 18, 100};
    const size_t count = sizeof numbers / sizeof *numbers;
    const char *none = janus_result_text(UINT32_MAX);
    for (size_t i = 0; i < count; i++) {
        check(strcmp(janus_result_text(numbers[i]), none) != 0, "the words of a number", "there are some");
        for (size_t j = 0; j < i; j++)
            check(strcmp(janus_result_text(numbers[i]), janus_result_text(numbers[j])) != 0, "the words of two numbers", "differ");
    }
    check(strcmp(janus_result_text(3), none) == 0, "the words of 3", "there are none");
    check(strcmp(janus_result_text(16), none) == 0, "the words of 16", "there are none");
    check(strcmp(janus_result_text(JANUS_BLANK_PROPOSAL), "proposal of 0") == 0, "the words of 5", "as in the table");
    check(strcmp(janus_result_text(18), "proposal to a closed session") == 0, "the words of 18", "as in the table");
}

static void version(void)
{
    char text[16];
    snprintf(text, sizeof text, "%d.%d", JANUS_VERSION_MAJOR, JANUS_VERSION_MINOR);
    check(strcmp(text, JANUS_VERSION) == 0, "the version", "is its two numbers");
}

int main(void)
{
    openings();
    budgets();
    full_sheet();
    lengths();
    buffers();
    nulls();
    runs();
    order();
    malformed();
    proposals();
    closes();
    ended_when_closed();
    walks();
    fresh_boards();
    agreement();
    last_seat();
    words();
    version();
    printf("c entry: %u checks passed\n", passed);
    return 0;
}
