/*
 * How deep the stack is under each call. The call is made on a stack of its own that is painted before; the deepest
 * byte that has changed is counted from the frame of the caller, which counts what it passes on the stack too.
 * Twelve nodes with cap 12 talk at random, on topics and as classes at random, so that every part of a call is run:
 * trims, full queues, refusals.
 */
#define _GNU_SOURCE
#include "causal_node.h"

#include <stdio.h>
#include <stdlib.h>
#include <string.h>
#include <ucontext.h>

enum { PLANT = 12, STEPS = 20000, STACK = 1 << 16, KEPT = 64, PAINT = 0x5A };
enum { SET_UP, SEND, OFFER, DELIVER, WRITE, STEP, WALK, CALLS };

static const char *const NAMES[CALLS] = {"node_set_up", "node_send",  "node_offer", "node_deliver",
                                         "trail_write", "trail_step", "trail_walk"};

static uint8_t images[PLANT][CAUSAL_IMAGE_BYTES], queues[PLANT][CAUSAL_QUEUE_BYTES];
static uint8_t out[CAUSAL_OUTPUT_BYTES], body[CAUSAL_BODY_BYTES], answer[CAUSAL_ANSWER_BYTES];
static uint8_t kept[KEPT][CAUSAL_FRAME_BYTES], file[CAUSAL_OUTPUT_BYTES];
static size_t lengths[KEPT], used, most;
static uint64_t cursor[5], shown[2];
static unsigned issued, taken[CALLS];

static uint8_t stack[STACK];
static ucontext_t host, calls;
static int call;
static size_t node, to, node_class;
static unsigned frame;
static uint8_t returned;
static const uint8_t *top;

static void make_call(void)
{
    top = __builtin_frame_address(0);
    switch (call) {
    case SET_UP: returned = node_set_up(images[node], sizeof images[node], node, PLANT, PLANT); break;
    case SEND:
        returned = node_send(images[node], sizeof images[node], to, node_class, body, to * 5, out, sizeof out, answer,
                             sizeof answer);
        break;
    case OFFER:
        returned = node_offer(images[node], sizeof images[node], kept[frame], lengths[frame], queues[node],
                              sizeof queues[node], answer, sizeof answer);
        break;
    case DELIVER:
        returned = node_deliver(images[node], sizeof images[node], queues[node], sizeof queues[node], out, sizeof out,
                                body, sizeof body, answer, sizeof answer);
        break;
    case WRITE: returned = trail_write(file, sizeof file, &used, kept[frame], lengths[frame]); break;
    case STEP: returned = trail_step(file, used, cursor, shown); break;
    default: returned = trail_walk(file, used, 1 + to, &most); break;
    }
}

/* Makes a call on the painted stack; gives how deep it was. */
static size_t depth_of(int next)
{
    size_t k = 0;

    call = next;
    memset(stack, PAINT, sizeof stack);
    getcontext(&calls);
    calls.uc_stack.ss_sp = stack;
    calls.uc_stack.ss_size = sizeof stack;
    calls.uc_link = &host;
    makecontext(&calls, make_call, 0);
    swapcontext(&host, &calls);
    while (k < sizeof stack && stack[k] == PAINT)
        k++;
    taken[call] += returned == CAUSAL_TAKEN;
    return (size_t)(top - (stack + k));
}

static void keep_output(void)
{
    size_t length = answer[CAUSAL_ANSWER_OUTPUT] | (size_t)answer[CAUSAL_ANSWER_OUTPUT + 1] << 8, at = 0;

    while (at < length) {
        size_t one = 12u + 6u * out[at + CAUSAL_FRAME_ENTRIES] + out[at + CAUSAL_FRAME_BODY];

        memcpy(kept[issued % KEPT], out + at, one);
        lengths[issued++ % KEPT] = one;
        at += one;
    }
}

int main(void)
{
    size_t deepest[CALLS] = {0}, k;
    uint32_t v = 1;
    int step, next;

    for (step = 0; step < STEPS; step++) {
        v ^= v << 13, v ^= v >> 17, v ^= v << 5;
        next = step < PLANT ? SET_UP : SEND + (int)(v % (CALLS - 1));
        node = step < PLANT ? (size_t)step : v / 64 % PLANT;
        to = v / 1024 % PLANT;
        node_class = v / 16384 % (CAUSAL_PANEL + 2);
        body[0] = (uint8_t)(v >> 24);
        frame = issued == 0 ? 0 : v / 65536 % (issued < KEPT ? issued : KEPT);
        if (next == OFFER && v / 16 % 8 > 0)
            node = kept[frame][CAUSAL_FRAME_TO];
        if (next == STEP)
            cursor[0] = used, cursor[1] = 8;
        if (used > sizeof file - CAUSAL_FRAME_BYTES)
            used = 0;
        k = depth_of(next);
        deepest[next] = k > deepest[next] ? k : deepest[next];
        if ((next == SEND || next == DELIVER) && returned == CAUSAL_TAKEN)
            keep_output();
    }
    for (next = 0; next < CALLS; next++)
        printf("%s %zu %u\n", NAMES[next], deepest[next], taken[next]);
    return EXIT_SUCCESS;
}
