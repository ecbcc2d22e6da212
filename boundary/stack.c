/*
 * Prints how many bytes of stack each of the two functions takes, the most over all items of a stream of table texts, or with the
 * word `runs` of a run stream. The functions are called on a thread whose stack was filled with a pattern; the lowest byte that
 * differs afterwards tells how far down they went. What a call that does nothing takes is taken off. Ends with 1 where one takes
 * more than the header says.
 */
#define _POSIX_C_SOURCE 200809L
#include "musselpath.h"

#include <pthread.h>
#include <stdio.h>
#include <stdlib.h>
#include <string.h>

#define STACK (1 << 20)

/* What include/musselpath.h tells a caller to see to. */
#define REPORT_PROMISED 21000
#define RUN_PROMISED 15000

#define ITEM 65535
#define PATTERN 0xa5

struct call {
    const uint8_t *bytes;
    size_t len;
};

typedef void *work(void *);

static uint8_t *stack;
static uint8_t out[MUSSELPATH_REPORT];
static uint64_t instants[MUSSELPATH_ROWS];

static void fail(const char *why)
{
    fprintf(stderr, "stack: %s\n", why);
    exit(1);
}

static void *nothing(void *argument)
{
    return argument;
}

static void *report(void *argument)
{
    struct call *call = argument;
    musselpath_report(call->bytes, call->len, out, sizeof out);
    return NULL;
}

static void *full_run(void *argument)
{
    struct call *call = argument;
    uint64_t ticks = 0;
    for (size_t i = 0; i < 4; i++) {
        ticks = ticks * 256 + call->bytes[i];
    }
    musselpath_full_run(call->bytes + 4, call->len - 4, ticks, instants, MUSSELPATH_ROWS);
    return NULL;
}

static size_t depth(work *work, struct call *call)
{
    pthread_attr_t attr;
    pthread_t thread;
    memset(stack, PATTERN, STACK);
    if (pthread_attr_init(&attr) || pthread_attr_setstack(&attr, stack, STACK) || pthread_create(&thread, &attr, work, call)
        || pthread_join(thread, NULL)) {
        fail("no thread with a stack of its own");
    }
    pthread_attr_destroy(&attr);
    size_t left = 0;
    while (left < STACK && stack[left] == PATTERN) {
        left++;
    }
    return STACK - left;
}

int main(int argc, char **argv)
{
    static uint8_t item[ITEM];
    uint8_t head[2];
    int runs = argc == 2 && strcmp(argv[1], "runs") == 0;
    size_t most = 0;
    void *room;
    if (argc > 1 && !runs) {
        fail("usage: stack [runs] <stream");
    }
    if (posix_memalign(&room, 4096, STACK)) {
        fail("no room for a stack");
    }
    stack = room;
    size_t least = depth(nothing, NULL);
    while (fread(head, 1, 2, stdin) == 2) {
        struct call call = {item, (size_t)head[0] * 256 + head[1]};
        if (fread(item, 1, call.len, stdin) != call.len || (runs && call.len < 4)) {
            fail("the input is no stream");
        }
        size_t took = depth(runs ? full_run : report, &call) - least;
        most = took > most ? took : most;
    }
    printf("%s: %zu bytes of stack\n", runs ? "musselpath_full_run" : "musselpath_report", most);
    if (most > (runs ? RUN_PROMISED : REPORT_PROMISED)) {
        fail("more than include/musselpath.h says");
    }
    return 0;
}
