/*
 * Checks what janus.h says of decisions: the window of every number of seats, the turns of a seat that works alone, on an empty
 * board and on one in use, the spent seat, all of it in open sessions and in closed ones, and the guarantee on random sheets. Prints
 * the header's table, for the script to look up.
 */
#include "c_sheet.h"

static uint8_t buffer[JANUS_BUFFER_LENGTH];

static uint32_t run(void)
{
    return janus_run(sheet, sheet_length, JANUS_ENTRIES_MAX, buffer, sizeof buffer);
}

static int closed; /* whether the sheet of one seat closes the session behind the proposal */

/* One seat proposes, works alone, goes on with hint no and looks. */
static uint32_t unled(uint8_t n, uint16_t limit, unsigned turns, unsigned more)
{
    begin(n, limit);
    add(JANUS_PROPOSE, 0, 7);
    if (closed)
        add(JANUS_CLOSE, 0, 0);
    work(0, turns);
    for (unsigned i = 0; i < more; i++)
        add(JANUS_WORK, 0, JANUS_HINT_NO);
    add(JANUS_LOOK, 0, 0);
    return run();
}

/* One seat proposes, works alone and looks. */
static uint32_t alone(uint8_t n, uint16_t limit, unsigned turns)
{
    return unled(n, limit, turns, 0);
}

/* The window is the least L, and the commit comes with the turn that the header names, for any L. */
static void turns_alone(uint8_t n, uint16_t limit)
{
    const unsigned turns = janus_turns_alone(n);
    check(alone(n, limit, turns - 1) == JANUS_FINISHED && number_at(buffer, 0) == 0, "a turn before the commit", "undecided");
    check(alone(n, limit, turns) == JANUS_FINISHED && number_at(buffer, 0) == 7, "the turn of the commit", "decided");
}

static void windows(void)
{
    for (unsigned n = 1; n <= JANUS_SEATS_MAX; n++) {
        const uint16_t w = (uint16_t)janus_window(n);
        check(alone((uint8_t)n, w - 1, 0) == JANUS_BAD_ROUND_LIMIT, "L below the window", "refused");
        turns_alone((uint8_t)n, w);
        turns_alone((uint8_t)n, JANUS_ROUNDS_MAX);
        check(alone((uint8_t)n, w, janus_turns_alone(n) + 1) == JANUS_FINISHED, "L = W, a turn after the commit", "spent");
        check(alone((uint8_t)n, w, janus_turns_alone(n) + 2) == JANUS_SEAT_SPENT, "a turn of a spent seat", "stops the sheet");
        check(unled((uint8_t)n, w, janus_turns_alone(n), 1) == JANUS_FINISHED, "L = W, a turn with hint no", "spent");
        check(unled((uint8_t)n, w, janus_turns_alone(n), 2) == JANUS_SEAT_SPENT, "hint no, a spent seat", "stops the sheet");
        check(unled((uint8_t)n, w + 1, janus_turns_alone(n), 99) == JANUS_FINISHED, "L = W + 1, hint no", "waits");
    }
    check(janus_window(65) == janus_window(64) && janus_window(UINT32_MAX) == janus_window(64), "over 64 seats", "ends");
    check(janus_window(1u << 30) == janus_window(64), "seats whose fourfold is 0 in 32 bits", "ends");
}

/* The windows that 02, wish 8, names. */
static void named_windows(void)
{
    const unsigned named[][2] = {{1, 2}, {2, 3}, {4, 4}, {5, 5}, {9, 6}, {16, 8}, {64, 16}};
    for (size_t i = 0; i < sizeof named / sizeof *named; i++)
        check(janus_window(named[i][0]) == named[i][1], "the window of a number of seats", "is the wish's");
}

/* The rows of the table in janus.h: a column for each window. */
static void table(void)
{
    const char *names[] = {"seats n", "window W", "work turns"};
    for (int row = 0; row < 3; row++) {
        printf(" *   %-11s", names[row]);
        for (unsigned first = 1, last; first <= JANUS_SEATS_MAX; first = last + 1) {
            char seats[16];
            for (last = first; last < JANUS_SEATS_MAX && janus_window(last + 1) == janus_window(first);)
                last++;
            snprintf(seats, sizeof seats, first == last ? "%u" : "%u-%u", first, last);
            if (row == 0)
                printf("%7s", seats);
            else
                printf("%7u", row == 1 ? janus_window(first) : janus_turns_alone(first));
        }
        printf("\n");
    }
}

/* A board in use: at most one round is filled for two turns taken, a read and a write. */
static void used_board(void)
{
    const unsigned before = any(200), most_filled = before / 2;
    const uint8_t n = (uint8_t)(1 + any(JANUS_SEATS_MAX)), seat = (uint8_t)any(n);
    const unsigned w = janus_window(n);
    contend(n, JANUS_ROUNDS_MAX, before);
    work(seat, (w + 2) * (4 * w + 4) + most_filled);
    add(JANUS_LOOK, seat, 0);
    check(run() == JANUS_FINISHED && number_at(buffer, seat) != 0, "alone on a board in use", "decided");
}

/* All seats look; the number of the first that has decided, 0 if none has. */
static uint32_t all_look(uint8_t n)
{
    uint32_t found = 0;
    for (uint8_t seat = 0; seat < n; seat++)
        add(JANUS_LOOK, seat, 0);
    run();
    for (uint8_t seat = 0; seat < JANUS_SEATS_MAX; seat++)
        if (found == 0)
            found = number_at(buffer, seat);
    return found;
}

/* All numbers in the buffer that are not 0 are equal, and that number was proposed. */
static int guaranteed(void)
{
    const uint8_t n = (uint8_t)(1 + any(8));
    contend(n, JANUS_ROUNDS_MAX, any(600));
    const uint32_t found = all_look(n);
    check(found == 0 || (found >= 1000 && found < 1000u + n), "the guarantee", "the number was proposed");
    for (uint8_t seat = 0; seat < JANUS_SEATS_MAX; seat++) {
        const uint32_t number = number_at(buffer, seat);
        check(number == 0 || number == found, "the guarantee", "the numbers are equal");
    }
    return found != 0;
}

int main(void)
{
    unsigned decisions = 0;
    for (closed = 0; closed < 2; closed++)
        windows();
    named_windows();
    for (int i = 0; i < 500; i++)
        used_board();
    for (int i = 0; i < 2000; i++)
        decisions += guaranteed();
    check(decisions > 0 && decisions < 2000, "random sheets", "some decide and some do not");
    table();
    fprintf(stderr, "c decision: %u checks passed, %u of 2000 random sheets decided\n", passed, decisions);
    return 0;
}
