/* Measures calls of the library for C at a node of 256 endpoints, of which all others have 16 states of 64 bytes. It prints a line
 * for each call: `bench NAME least N`, the least of nine samples, in nanoseconds a call. See embed. */
#include <stdio.h>
#include <stdlib.h>
#include <string.h>
#include <time.h>

#include "cg.h"

enum { OWNERS = 256, SAMPLES = 9 };
#define TEXT(words) (const uint8_t *)(words), strlen(words)

static cg_node node, nobody;
static cg_bytes text, frame, answer, syn;
static uint32_t version;
static size_t taken;

static void pass(uint32_t fault) {
    if (!fault) return;
    fprintf(stderr, "call times: fault %u\n", fault);
    exit(1);
}

static double now(void) {
    struct timespec at;
    clock_gettime(CLOCK_MONOTONIC, &at);
    return (double)at.tv_sec * 1e9 + (double)at.tv_nsec;
}

/* Starts a node at the endpoint of a number, with states unless it is the first. */
static void start(cg_node *it, int number) {
    char endpoint[32], state[65];
    cg_judgement judgement;
    cg_defaults(&judgement);
    snprintf(endpoint, sizeof endpoint, "10.0.%d.%d:7000", number / 256, number % 256);
    memset(state, 'x', 64);
    state[64] = 0;
    pass(cg_start(it, TEXT(endpoint), 5, TEXT("c1"), TEXT(""), &judgement));
    for (int key = 1; number && key <= 16; key++) pass(cg_set(it, key, TEXT(state), &version));
}

/* Has two nodes hold the same: the first one takes what the other holds by one message. */
static void exchange(cg_node *one, cg_node *other) {
    pass(cg_opening(one, &frame));
    pass(cg_handle(other, 1000, frame.start, frame.length, &taken, &text, &answer));
    pass(cg_handle(one, 1000, answer.start, answer.length, &taken, &text, &frame));
    pass(cg_handle(other, 1000, frame.start, frame.length, &taken, &text, &answer));
}

static void beat(void) { pass(cg_beat(&node, &version)); }
static void empty_handle(void) { (void)cg_beat(&nobody, &version); }
static void refused_remove(void) { (void)cg_remove(&node, 9, &version); }
static void state(void) { pass(cg_state(&node, TEXT("10.0.0.7:7000"), 1, &text, &version)); }
static void handle_equal_syn(void) { pass(cg_handle(&node, 1000, syn.start, syn.length, &taken, &text, &answer)); }

static void measure(const char *name, void (*call)(void)) {
    long turns = 0;
    double begun = now(), least = 1e18;
    for (; now() - begun < 15e6; turns++) call();
    for (int sample = 0; sample < SAMPLES; sample++) {
        begun = now();
        for (long turn = 0; turn < turns; turn++) call();
        double each = (now() - begun) / (double)turns;
        least = each < least ? each : least;
    }
    printf("bench %s least %.1f\n", name, least);
}

int main(void) {
    cg_node all = {0};
    start(&all, 1);
    for (int number = 2; number < OWNERS; number++) {
        cg_node other = {0};
        start(&other, number);
        exchange(&all, &other);
        cg_free(&other);
    }
    start(&node, 0);
    exchange(&node, &all);
    pass(cg_opening(&all, &syn));
    cg_free(&all);
    measure("handle_equal_syn", handle_equal_syn);
    measure("beat", beat);
    measure("around_empty_handle", empty_handle);
    measure("around_refused_remove", refused_remove);
    measure("around_state", state);
    cg_free(&node);
    cg_bytes_free(&text);
    cg_bytes_free(&frame);
    cg_bytes_free(&answer);
    cg_bytes_free(&syn);
    return 0;
}
