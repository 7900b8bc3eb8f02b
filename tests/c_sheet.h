/*
 * What the tests in C share: one sheet that is built entry by entry, random numbers, and checks that end the program at the first
 * failure.
 */
#ifndef C_SHEET_H
#define C_SHEET_H

#include <stdio.h>
#include <stdlib.h>
#include <string.h>

#include "janus.h"

enum { HEADER = 8 };               /* four bytes and one pair */
enum { FILL = 0xAA, GUARD = 16 }; /* what a lent room is filled with, and how much of it stands before and behind a buffer */

static uint8_t sheet[JANUS_SHEET_MAX + 1];
static size_t sheet_length;
static unsigned passed;

static inline void check(int ok, const char *what, const char *fact)
{
    if (!ok) {
        fprintf(stderr, "FAILED: %s: %s\n", what, fact);
        exit(1);
    }
    passed++;
}

static inline void put_number(uint8_t *at, uint32_t value, size_t bytes)
{
    for (size_t i = 0; i < bytes; i++)
        at[i] = (uint8_t)(value >> (8 * i));
}

static inline void put_entry(uint8_t *at, uint8_t kind, uint8_t seat, uint32_t value)
{
    at[0] = kind;
    at[1] = seat;
    put_number(at + 2, value, 4);
}

static inline void put(size_t at, uint32_t value, size_t bytes)
{
    put_number(sheet + at, value, bytes);
}

/* A sheet of n seats and the round limit L with p pairs, all bytes after its first four 0. */
static inline void header(uint8_t n, uint8_t p, uint16_t limit, size_t length)
{
    memset(sheet, 0, sizeof sheet);
    sheet[0] = n;
    sheet[1] = p;
    put(2, limit, 2);
    sheet_length = length;
}

/* A sheet with one run, which has no entry yet. */
static inline void begin(uint8_t n, uint16_t limit)
{
    header(n, 1, limit, HEADER);
    put(4, HEADER, 2);
}

/* The run has as many bytes as the sheet has behind its header. */
static inline void end_at(size_t length)
{
    sheet_length = length;
    put(6, (uint32_t)(sheet_length - HEADER), 2);
}

static inline void add(uint8_t kind, uint8_t seat, uint32_t value)
{
    put_entry(sheet + sheet_length, kind, seat, value);
    end_at(sheet_length + JANUS_ENTRY_LENGTH);
}

static inline void work(uint8_t seat, unsigned turns)
{
    for (unsigned i = 0; i < turns; i++)
        add(JANUS_WORK, seat, JANUS_HINT_YES);
}

static inline uint32_t number_at(const uint8_t *buffer, unsigned seat)
{
    const uint8_t *b = buffer + 4 * seat;
    return (uint32_t)b[0] | (uint32_t)b[1] << 8 | (uint32_t)b[2] << 16 | (uint32_t)b[3] << 24;
}

/* No byte has been written here. */
static inline int filled(const uint8_t *from, const uint8_t *to)
{
    while (from < to && *from == FILL)
        from++;
    return from == to;
}

/* A number from 0 to below - 1. */
static inline unsigned any(unsigned below)
{
    static uint64_t state = 1;
    state = state * 6364136223846793005u + 1442695040888963407u;
    return (unsigned)((state >> 33) % below);
}

/*
 * Seats in each other's way: each proposes a number of its own, then as many work turns, of any seats and with any hints. Every
 * other time the session is closed behind the proposals or between two turns.
 */
static inline void contend(uint8_t n, uint16_t limit, unsigned turns)
{
    const unsigned place = any(2 * turns + 1);
    begin(n, limit);
    for (uint8_t seat = 0; seat < n; seat++)
        add(JANUS_PROPOSE, seat, 1000u + seat);
    for (unsigned i = 0; i < turns; i++) {
        if (i == place)
            add(JANUS_CLOSE, 0, 0);
        add(JANUS_WORK, (uint8_t)any(n), any(4) > 0);
    }
}

#endif
