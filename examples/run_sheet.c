/*
 * Writes a sheet, runs it and prints who decided what: seat 0 proposes 7 and seat 1 proposes 9; the session is closed, so that
 * nobody else may propose; seat 0 works alone until it has committed; both seats then look. C and C++.
 */
#include <stdio.h>

#include "janus.h"

enum { SEATS = 2, MOST = 100 };

static uint8_t entries[MOST * JANUS_ENTRY_LENGTH];
static size_t count;

static void add_entry(uint8_t kind, uint8_t seat, uint32_t value)
{
    uint8_t *entry = entries + JANUS_ENTRY_LENGTH * count++;
    entry[0] = kind;
    entry[1] = seat;
    for (int i = 0; i < 4; i++)
        entry[2 + i] = (uint8_t)(value >> (8 * i));
}

static uint32_t decided(const uint8_t *buffer, int seat)
{
    const uint8_t *b = buffer + 4 * seat;
    return (uint32_t)b[0] | (uint32_t)b[1] << 8 | (uint32_t)b[2] << 16 | (uint32_t)b[3] << 24;
}

int main(void)
{
    uint8_t sheet[JANUS_SHEET_SIZE(1, MOST)], buffer[JANUS_BUFFER_LENGTH] = {0};
    size_t size = 0;

    add_entry(JANUS_PROPOSE, 0, 7);
    add_entry(JANUS_PROPOSE, 1, 9);
    add_entry(JANUS_CLOSE, 0, 0);
    for (unsigned i = 0; i < janus_turns_alone(SEATS); i++)
        add_entry(JANUS_WORK, 0, JANUS_HINT_YES);
    add_entry(JANUS_LOOK, 0, 0);
    add_entry(JANUS_LOOK, 1, 0);

    /* All entries in one run. */
    uint32_t code = janus_write(SEATS, janus_window(SEATS), entries, JANUS_ENTRY_LENGTH * count, &count, 1,
                                sheet, sizeof sheet, &size);
    if (code == JANUS_FINISHED)
        code = janus_run(sheet, size, JANUS_ENTRIES_MAX, buffer, sizeof buffer);
    printf("code %u: %s\n", (unsigned)code, janus_result_text(code));
    for (int seat = 0; seat < SEATS; seat++)
        printf("seat %d decided %u\n", seat, (unsigned)decided(buffer, seat));
    return code == JANUS_FINISHED ? 0 : 1;
}
