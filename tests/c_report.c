/*
 * Checks janus_report through its header: the text of whole and refused sheets, buffers that are too short, that fit and that are
 * longer. Ends at the first failure.
 *
 * usage: c_report              the checks
 *        c_report text <SHEET  the report of the sheet on standard input, to compare with another program's
 */
#include "c_sheet.h"

static uint8_t room[GUARD + JANUS_REPORT_LENGTH + GUARD];
static uint8_t *const text = room + GUARD;

/* Asks for the report in a buffer of a length; nothing beside its first bytes, as many as told, may change. */
static size_t ask(const char *what, size_t length, size_t bytes)
{
    memset(room, FILL, sizeof room);
    const size_t answer = janus_report(sheet, sheet_length, text, length);
    check(filled(room, text), what, "bytes before the buffer are kept");
    check(filled(text + bytes, room + sizeof room), what, "bytes behind the text are kept");
    return answer;
}

/* The report is these lines, in a buffer that fits and in a longer one; one that is a byte short gets nothing. */
static void lines(const char *what, const char *expected)
{
    const size_t size = strlen(expected);
    check(ask(what, size, size) == size && memcmp(text, expected, size) == 0, what, "the text, in a buffer that fits");
    check(ask(what, JANUS_REPORT_LENGTH, size) == size, what, "its size, in a longer buffer");
    check(memcmp(text, expected, size) == 0, what, "the text, in a longer buffer");
    check(ask(what, size - 1, 0) == JANUS_BAD_BUFFER, what, "a buffer that is a byte short");
    check(ask(what, 0, 0) == JANUS_BAD_BUFFER, what, "a buffer of no byte");
    check(size > JANUS_BAD_BUFFER, what, "no text has a size of 15");
}

/* The sheet of 02, wish 8: one seat decides, 14 entries, 92 bytes. */
static void decision(void)
{
    begin(1, 2);
    add(JANUS_PROPOSE, 0, 7);
    work(0, 12);
    add(JANUS_LOOK, 0, 0);
    check(sheet_length == 92, "a decision", "92 bytes");
    lines("a decision", "outcome finished 14\ntally 10 3 0\nboard 2 7 open\nseat 0 decided 7\n");
}

/* Over the limits of the bedside cart (02, wish 9), within the server's. */
static void server_limits(void)
{
    const char opened[] = "outcome finished 0\ntally 0 0 0\nboard 0 0 open\nseat 0 out\n";
    const uint16_t sizes[][2] = {{16, 65}, {17, 64}, {JANUS_SEATS_MAX, JANUS_ROUNDS_MAX}};
    for (size_t i = 0; i < sizeof sizes / sizeof *sizes; i++) {
        header((uint8_t)sizes[i][0], 0, sizes[i][1], 4);
        const size_t size = janus_report(sheet, sheet_length, text, JANUS_REPORT_LENGTH);
        check(size > strlen(opened) && memcmp(text, opened, strlen(opened)) == 0, "seats or rounds over the cart's limits", "opened");
    }
}

static void refused_sheets(void)
{
    header(1, 0, 2, 0);
    lines("an empty sheet", "sheet refused 10\n");
    header(65, 0, 2, 4);
    lines("65 seats", "sheet refused 1\n");
    check(janus_report(NULL, 0, text, JANUS_REPORT_LENGTH) == strlen("sheet refused 10\n"), "NULL, a sheet of no byte", "refused");
    check(janus_report(sheet, 4, NULL, 0) == JANUS_BAD_BUFFER, "NULL, a buffer of no byte", "refused");
}

/* The number and the index, counted from 0, of the entry that stops the sheet. */
static void refused_entries(void)
{
    begin(2, 3);
    add(JANUS_PROPOSE, 0, 4294967295u);
    add(JANUS_PROPOSE, 0, 5);
    lines("a second proposal", "outcome refused 6 1\ntally 0 0 0\nboard 0 0 open\nseat 0 working 0 4294967295\nseat 1 out\n");
    sheet[HEADER] = 5;
    lines("an unknown kind", "outcome refused 13 0\ntally 0 0 0\nboard 0 0 open\nseat 0 out\nseat 1 out\n");
}

/* The third field of the board line: "open" until a close is carried out, "closed" from then on, whatever comes. */
static void closes(void)
{
    begin(2, 3);
    lines("open at first", "outcome finished 0\ntally 0 0 0\nboard 0 0 open\nseat 0 out\nseat 1 out\n");
    add(JANUS_CLOSE, 1, 0);
    lines("a close with a seat", "outcome refused 13 0\ntally 0 0 0\nboard 0 0 open\nseat 0 out\nseat 1 out\n");
    begin(2, 3);
    add(JANUS_CLOSE, 0, 0);
    lines("a close", "outcome finished 1\ntally 0 0 0\nboard 0 0 closed\nseat 0 out\nseat 1 out\n");
    begin(2, 3);
    add(JANUS_PROPOSE, 0, 7);
    add(JANUS_CLOSE, 0, 0);
    add(JANUS_CLOSE, 0, 0);
    lines("a second close", "outcome finished 3\ntally 0 0 0\nboard 0 0 closed\nseat 0 working 0 7\nseat 1 out\n");
    work(0, 2);
    add(JANUS_PROPOSE, 1, 8);
    lines("a late proposal", "outcome refused 18 5\ntally 1 1 0\nboard 1 0 closed\nseat 0 working 1 7\nseat 1 out\n");
    end_at(sheet_length - JANUS_ENTRY_LENGTH);
    work(0, janus_turns_alone(2) - 2);
    add(JANUS_LOOK, 0, 0);
    lines("a decision when closed", "outcome finished 23\ntally 16 4 0\nboard 3 7 closed\nseat 0 decided 7\nseat 1 out\n");
    add(JANUS_CLOSE, 0, 64);
    lines("a close with a value", "outcome refused 13 23\ntally 16 4 0\nboard 3 7 closed\nseat 0 decided 7\nseat 1 out\n");
}

/* Both seats mark round 1, as in examples/flag_twice.txt: two register writes, one contested round. */
static void marks(void)
{
    begin(2, 3);
    add(JANUS_PROPOSE, 0, 3);
    add(JANUS_PROPOSE, 1, 8);
    work(0, 1);
    work(1, 1);
    work(0, 1);
    work(1, 1);
    work(0, 1);
    lines("a flag", "outcome finished 7\ntally 3 2 0\nboard 1 0 open\nseat 0 working 1 3\nseat 1 working 1 8\n");
    work(0, 1);
    lines("a mark", "outcome finished 8\ntally 3 3 1\nboard 1 0 open\nseat 0 working 1 3\nseat 1 working 1 8\n");
    work(1, 1);
    work(0, 2);
    work(1, 5);
    lines("a second flag", "outcome finished 16\ntally 10 4 1\nboard 2 0 open\nseat 0 working 2 3\nseat 1 working 2 3\n");
    work(1, 1);
    lines("a second mark", "outcome finished 17\ntally 10 5 1\nboard 2 0 open\nseat 0 working 2 3\nseat 1 working 2 3\n");
}

/* Every word that a seat can get. */
static void standings(void)
{
    begin(5, 5);
    for (uint8_t seat = 0; seat < 4; seat++)
        add(JANUS_PROPOSE, seat, 10u + seat);
    work(0, janus_turns_alone(5) + 1);
    work(1, 1);
    add(JANUS_CRASH, 2, 0);
    add(JANUS_LOOK, 3, 0);
    lines("five seats", "outcome finished 44\ntally 32 6 0\nboard 5 10 open\n"
                        "seat 0 spent 10\nseat 1 working 1 11\nseat 2 crashed\nseat 3 decided 10\nseat 4 out\n");
}

/* At the gate in round L a turn with hint no makes the seat spent: no register is touched, nothing is counted. */
static void last_round(void)
{
    begin(1, 2);
    add(JANUS_PROPOSE, 0, 7);
    work(0, 12);
    lines("the gate in round L", "outcome finished 13\ntally 9 3 0\nboard 2 7 open\nseat 0 working 2 7\n");
    add(JANUS_WORK, 0, JANUS_HINT_NO);
    lines("hint no in round L", "outcome finished 14\ntally 9 3 0\nboard 2 7 open\nseat 0 spent 7\n");
    add(JANUS_WORK, 0, JANUS_HINT_NO);
    lines("a turn after it", "outcome refused 9 14\ntally 9 3 0\nboard 2 7 open\nseat 0 spent 7\n");
}

/* A long report: 64 seats with the largest numbers, closed. JANUS_REPORT_LENGTH has room for it. */
static void long_report(void)
{
    begin(JANUS_SEATS_MAX, JANUS_ROUNDS_MAX);
    for (uint8_t seat = 0; seat < JANUS_SEATS_MAX; seat++)
        add(JANUS_PROPOSE, seat, UINT32_MAX - seat);
    add(JANUS_CLOSE, 0, 0);
    for (unsigned i = JANUS_SEATS_MAX + 1; i < JANUS_ENTRIES_MAX; i++)
        add(JANUS_WORK, (uint8_t)(i % JANUS_SEATS_MAX), JANUS_HINT_YES);
    const size_t size = janus_report(sheet, sheet_length, text, JANUS_REPORT_LENGTH);
    check(size > JANUS_BAD_BUFFER && size <= JANUS_REPORT_LENGTH, "a long report", "the buffer is long enough");
    check(ask("a long report", size, size) == size, "a long report", "fits its size");
    check(ask("a long report", size - 1, 0) == JANUS_BAD_BUFFER, "a long report", "is refused a byte less");
}

static int print_text(void)
{
    sheet_length = fread(sheet, 1, sizeof sheet, stdin);
    const size_t size = janus_report(sheet, sheet_length, text, JANUS_REPORT_LENGTH);
    return fwrite(text, 1, size, stdout) == size ? 0 : 1;
}

int main(int argc, char **argv)
{
    (void)argv;
    if (argc > 1)
        return print_text();
    decision();
    server_limits();
    refused_sheets();
    refused_entries();
    closes();
    marks();
    standings();
    last_round();
    long_report();
    printf("c report: %u checks passed\n", passed);
    return 0;
}
