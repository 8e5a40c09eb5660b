/* A call runs in a thread whose stack is painted before: what it leaves painted was not used. */
#define _POSIX_C_SOURCE 200809L
#include "stack.h"
#include <pthread.h>
#include <stdlib.h>
#include <string.h>

enum { STACK = 1 << 20, PAINT = 0x5a };

struct call {
    value_function *function;
    struct input filing;
};

static void *run(void *call)
{
    static uint64_t numbers[568], borrowings[374];
    struct call *c = call;
    uint64_t place;
    if (c->function != NULL) c->function(c->filing.bytes, c->filing.size, numbers, 568, borrowings, 374, &place);
    return NULL;
}

static size_t used(struct call call)
{
    void *memory;
    pthread_attr_t attributes;
    pthread_t thread;
    size_t left = 0;
    if (posix_memalign(&memory, 4096, STACK) != 0) abort();
    uint8_t *stack = memory;
    memset(stack, PAINT, STACK);
    pthread_attr_init(&attributes);
    if (pthread_attr_setstack(&attributes, stack, STACK) != 0 || pthread_create(&thread, &attributes, run, &call) != 0) abort();
    pthread_join(thread, NULL);
    while (left < STACK && stack[left] == PAINT) left++;
    free(memory);
    return STACK - left;
}

/* The first thread of a process takes more than the later ones, so one is run and not counted. */
size_t stack_of(value_function *function, struct input f)
{
    used((struct call){NULL, f});
    return used((struct call){function, f}) - used((struct call){NULL, f});
}
