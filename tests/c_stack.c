/*
 * Measures the stack that a call takes, in a thread whose stack is memory of our own, painted beforehand and between two pages
 * that cannot be touched, and exactly as long as janus.h tells one to make it.
 *
 * usage: c_stack [SIZE]     the size of the thread's stack, JANUS_THREAD_STACK unless told
 */
#define _GNU_SOURCE
#include <pthread.h>
#include <sys/mman.h>

#include "c_sheet.h"

enum { PAGE = 4096, PAINT = 0xA5 };

static uint8_t *stack;
static size_t stack_size = JANUS_THREAD_STACK;
static size_t used; /* by the last thread, beneath the frame of its function */

static void make_stack(void)
{
    uint8_t *all = mmap(NULL, stack_size + 2 * PAGE, PROT_NONE, MAP_PRIVATE | MAP_ANONYMOUS, -1, 0);
    check(all != MAP_FAILED, "a stack", "there is room");
    stack = all + PAGE;
    check(mprotect(stack, stack_size, PROT_READ | PROT_WRITE) == 0, "a stack", "it can be used");
}

/* Runs a function in a thread on the painted stack and measures how far down from its frame the paint is gone. */
static void in_thread(void *(*function)(void *))
{
    pthread_attr_t attributes;
    pthread_t thread;
    void *frame;
    uint8_t *lowest = stack;
    memset(stack, PAINT, stack_size);
    check(pthread_attr_init(&attributes) == 0, "a thread", "it has attributes");
    check(pthread_attr_setstack(&attributes, stack, stack_size) == 0, "a thread", "it takes the stack");
    check(pthread_create(&thread, &attributes, function, NULL) == 0, "a thread", "it starts");
    check(pthread_join(thread, &frame) == 0, "a thread", "it ends");
    pthread_attr_destroy(&attributes);
    while (*lowest == PAINT)
        lowest++;
    used = (size_t)((uint8_t *)frame - lowest);
}

static uint8_t buffer[JANUS_BUFFER_LENGTH];

static void *idle(void *unused)
{
    (void)unused;
    return __builtin_frame_address(0);
}

static void *runs(void *unused)
{
    (void)unused;
    janus_run(sheet, sheet_length, JANUS_ENTRIES_MAX, buffer, sizeof buffer);
    return __builtin_frame_address(0);
}

static uint8_t text[JANUS_REPORT_LENGTH];

static void *reports(void *unused)
{
    (void)unused;
    janus_report(sheet, sheet_length, text, sizeof text);
    return __builtin_frame_address(0);
}

static uint8_t copy[sizeof sheet];

/* The sheet's own entries, in one run. */
static void *writes(void *unused)
{
    const size_t length = sheet_length - HEADER, count = length / JANUS_ENTRY_LENGTH;
    size_t size;
    (void)unused;
    janus_write(sheet[0], sheet[2] + 256u * sheet[3], sheet + HEADER, length, &count, 1, copy, sizeof copy, &size);
    return __builtin_frame_address(0);
}

/* Seats in each other's way, then a look, a close and a crash; now and then a byte of the header is another. */
static void any_sheet(void)
{
    const uint8_t n = (uint8_t)(1 + any(JANUS_SEATS_MAX));
    contend(n, JANUS_ROUNDS_MAX, any(2000));
    add(JANUS_LOOK, (uint8_t)any(n), 0);
    add(JANUS_CLOSE, 0, 0);
    add(JANUS_CRASH, (uint8_t)any(n), 0);
    if (any(4) == 0)
        sheet[any(HEADER)] = (uint8_t)any(256);
}

/* The most that a function takes in any of many runs, its first one apart, in which memcpy and memset may be bound. */
static void measure(const char *name, void *(*function)(void *), size_t allowed)
{
    size_t first, most = 0;
    contend(JANUS_SEATS_MAX, JANUS_ROUNDS_MAX, 2000);
    in_thread(function);
    first = used;
    for (int i = 0; i < 200; i++) {
        any_sheet();
        in_thread(function);
        most = used > most ? used : most;
    }
    printf("c stack: %s: %zu bytes, %zu in its first call\n", name, most, first);
    check(most <= allowed && first <= JANUS_STACK, name, "takes no more than janus.h says");
}

int main(int argc, char **argv)
{
    if (argc > 1)
        stack_size = strtoul(argv[1], NULL, 10);
    make_stack();
    in_thread(idle);
    check(used < 1024, "a thread that does nothing", "takes next to nothing");
    measure("janus_run", runs, 18 * 1024);
    measure("janus_report", reports, JANUS_STACK);
    measure("janus_write", writes, 1024);
    return 0;
}
