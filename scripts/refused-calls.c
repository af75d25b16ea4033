/* Makes each call of the library for C with its first request for memory refused, then its second, and so on, until a call makes no
 * such request. A refused call has to answer CG_OUT_OF_MEMORY and leave all as it was; made again, it has to answer and leave what
 * it does on a twin, of which nothing is refused. One that needs the memory for speed alone may do that at once. See embed; it is
 * linked with --wrap=malloc and --wrap=realloc. */
#include <stdio.h>
#include <stdlib.h>
#include <string.h>

#include "cg.h"

#define TEXT(words) (const uint8_t *)(words), strlen(words)
#define OWN "10.0.0.2:7000"
#define OTHER "10.0.0.1:7000"
#define SEEDS OTHER ",10.0.0.3:7000"

void *__real_malloc(size_t);
void *__real_realloc(void *, size_t);

/* how many requests are still to come, with the one that is refused, and whether it came */
static long left;
static int came;

static int is_refused(void) {
    if (left == 0 || --left) return 0;
    return came = 1;
}

void *__wrap_malloc(size_t size) { return is_refused() ? NULL : __real_malloc(size); }
void *__wrap_realloc(void *old, size_t size) { return is_refused() ? NULL : __real_realloc(old, size); }

/* A node, and all that a call can be lent beside it. */
struct held {
    cg_node node;
    cg_bytes text, frame;
    cg_judgement judgement;
    uint32_t version, newest;
    size_t length;
    uint8_t verdict;
};

/* messages of the other node: a SYN, an ACK that answers the own SYN, and an ACK2 that brings the other's entry */
static cg_bytes syn, ack, ack2;

static void pass(uint32_t fault, const char *what) {
    if (!fault) return;
    printf("refused calls: %s: fault %u\n", what, fault);
    exit(1);
}

static void start(struct held *it, const char *endpoint) {
    cg_defaults(&it->judgement);
    pass(cg_start(&it->node, TEXT(endpoint), 5, TEXT("c1"), TEXT(SEEDS), &it->judgement), "start");
}

/* A node that holds a text of its own, a token and the other's entry, and bytes of earlier calls. */
static struct held begun(void) {
    struct held it = {0};
    cg_bytes none = {0};
    start(&it, OWN);
    pass(cg_set(&it.node, 3, TEXT("a load"), &it.version), "set");
    pass(cg_set(&it.node, 1, TEXT("NORMAL"), &it.version), "set");
    pass(cg_set(&it.node, 2, TEXT("00000000000000000000000000000010"), &it.version), "set");
    if (ack2.length) pass(cg_handle(&it.node, 1000, ack2.start, ack2.length, &it.length, &none, &it.text), "handle");
    cg_bytes_free(&none);
    pass(cg_digests(&it.node, &it.text), "digests");
    pass(cg_ring(&it.node, &it.frame), "ring");
    it.newest = it.verdict = 7;
    return it;
}

static void end(struct held *it) {
    cg_free(&it->node);
    cg_bytes_free(&it->text);
    cg_bytes_free(&it->frame);
}

/* Makes the messages. */
static void exchange(void) {
    struct held own = begun(), other = {0};
    cg_bytes none = {0}, opening = {0};
    start(&other, OTHER);
    pass(cg_set(&other.node, 1, TEXT("NORMAL"), &other.version), "set");
    pass(cg_set(&other.node, 2, TEXT("00000000000000000000000000000020"), &other.version), "set");
    pass(cg_opening(&own.node, &opening), "opening");
    pass(cg_handle(&other.node, 1000, opening.start, opening.length, &other.length, &none, &ack), "handle");
    pass(cg_opening(&other.node, &syn), "opening");
    pass(cg_handle(&own.node, 1000, syn.start, syn.length, &own.length, &none, &opening), "handle");
    pass(cg_handle(&other.node, 1000, opening.start, opening.length, &other.length, &none, &ack2), "handle");
    pass(cg_beat(&other.node, &other.version), "beat");
    pass(cg_opening(&other.node, &syn), "opening");
    cg_bytes_free(&none);
    cg_bytes_free(&opening);
    end(&own);
    end(&other);
}

/* Adds bytes to what is shown. */
static char shown[4][1 << 14];
static void add(char *to, const void *from, size_t size) {
    size_t at;
    memcpy(&at, to, sizeof at);
    if (at + size > sizeof shown[0]) exit(2);
    memcpy(to + at, from, size);
    at += size;
    memcpy(to, &at, sizeof at);
}

/* Writes all that calls show of a node, and what the others hold of a call. */
static void show(struct held *it, char *to) {
    cg_bytes text = {0};
    uint8_t verdict = 9;
    size_t at = sizeof at;
    memset(to, 0, sizeof shown[0]);
    memcpy(to, &at, sizeof at);
    uint32_t (*const views[])(cg_node *, cg_bytes *) = {cg_owners, cg_gossipinfo, cg_digests, cg_ring, cg_opening};
    for (size_t view = 0; view < sizeof views / sizeof views[0]; view++) {
        uint32_t fault = views[view](&it->node, &text);
        add(to, &fault, sizeof fault);
        if (!fault) add(to, text.start, text.length);
    }
    cg_verdict(&it->node, TEXT(OTHER), 40000, &verdict);
    add(to, &verdict, 1);
    add(to, it->text.start, it->text.length);
    add(to, it->frame.start, it->frame.length);
    add(to, &it->version, sizeof it->version);
    add(to, &it->newest, sizeof it->newest);
    add(to, &it->length, sizeof it->length);
    add(to, &it->verdict, 1);
    cg_bytes_free(&text);
}

/* ---- the calls */

static uint32_t started(struct held *it) {
    return cg_start(&it->node, TEXT(OTHER), 6, TEXT("c2"), TEXT(SEEDS), &it->judgement);
}
static uint32_t freed(struct held *it) { return cg_free(&it->node), 0; }
static uint32_t bytes_freed(struct held *it) { return cg_bytes_free(&it->text), 0; }
static uint32_t defaults(struct held *it) { return cg_defaults(&it->judgement), 0; }
static uint32_t beat(struct held *it) { return cg_beat(&it->node, &it->version); }
static uint32_t set(struct held *it) { return cg_set(&it->node, 3, TEXT("another"), &it->version); }
static uint32_t set_status(struct held *it) { return cg_set(&it->node, 1, TEXT("LEFT"), &it->version); }
static uint32_t removed(struct held *it) { return cg_remove(&it->node, 3, &it->version); }
static uint32_t tick(struct held *it) { return cg_tick(&it->node, 2000, 1, 2, 3, 4, &it->text, &it->frame); }
static uint32_t opening(struct held *it) { return cg_opening(&it->node, &it->frame); }
static uint32_t handle(struct held *it, cg_bytes of) {
    return cg_handle(&it->node, 3000, of.start, of.length, &it->length, &it->text, &it->frame);
}
static uint32_t handle_syn(struct held *it) { return handle(it, syn); }
static uint32_t handle_ack(struct held *it) { return handle(it, ack); }
static uint32_t handle_ack2(struct held *it) { return handle(it, ack2); }
static uint32_t handle_cut(struct held *it) { return cg_handle(&it->node, 3000, syn.start, 9, &it->length, &it->text, &it->frame); }
static uint32_t frame_length(struct held *it) { return cg_frame_length(syn.start, syn.length, &it->length); }
static uint32_t entry(struct held *it) { return cg_entry(&it->node, TEXT(OTHER), &it->version, &it->newest); }
static uint32_t state(struct held *it) { return cg_state(&it->node, TEXT(OTHER), 1, &it->text, &it->version); }
static uint32_t verdict(struct held *it) { return cg_verdict(&it->node, TEXT(OTHER), 2000, &it->verdict); }
static uint32_t owners(struct held *it) { return cg_owners(&it->node, &it->text); }
static uint32_t gossipinfo(struct held *it) { return cg_gossipinfo(&it->node, &it->text); }
static uint32_t digests(struct held *it) { return cg_digests(&it->node, &it->frame); }
static uint32_t ring(struct held *it) { return cg_ring(&it->node, &it->text); }
static uint32_t replicas(struct held *it) { return cg_replicas(&it->node, TEXT("a key"), 2, &it->text); }

/* A call, its answer, and whether it asks for memory. */
static const struct {
    const char *name;
    uint32_t (*make)(struct held *), answer;
    int asks;
} calls[] = {
    {"cg_start", started, 0, 1}, {"cg_free", freed, 0, 0}, {"cg_bytes_free", bytes_freed, 0, 0}, {"cg_defaults", defaults, 0, 0},
    {"cg_beat", beat, 0, 1}, {"cg_set", set, 0, 1}, {"cg_set of STATUS", set_status, 0, 1}, {"cg_remove", removed, 0, 1},
    {"cg_tick", tick, 0, 1}, {"cg_opening", opening, 0, 1}, {"cg_handle of a SYN", handle_syn, 0, 1},
    {"cg_handle of an ACK", handle_ack, 0, 1}, {"cg_handle of an old ACK2", handle_ack2, 0, 1},
    {"cg_handle of a cut frame", handle_cut, CG_TRUNCATED, 0}, {"cg_frame_length", frame_length, 0, 0}, {"cg_entry", entry, 0, 0},
    {"cg_state", state, 0, 1}, {"cg_verdict", verdict, 0, 0}, {"cg_owners", owners, 0, 1}, {"cg_gossipinfo", gossipinfo, 0, 1},
    {"cg_digests", digests, 0, 1}, {"cg_ring", ring, 0, 1}, {"cg_replicas", replicas, 0, 1},
};

/* Makes a call with each of its requests refused in turn. Returns how many there were, or -1 if a run did what it may not do; it
 * counts those that the call did without. */
static long sweep(size_t which, long *survived) {
    struct held twin = begun();
    uint32_t due = calls[which].make(&twin);
    show(&twin, shown[0]);
    end(&twin);
    if (due != calls[which].answer) return -1;
    for (long number = 1;; number++) {
        struct held it = begun();
        cg_bytes text = it.text, frame = it.frame;
        void *at = it.node.at;
        int is_well = 1;
        show(&it, shown[1]);
        left = number, came = 0;
        uint32_t answer = calls[which].make(&it);
        left = 0;
        *survived += came && answer != CG_OUT_OF_MEMORY;
        if (came && answer == CG_OUT_OF_MEMORY) {
            show(&it, shown[2]);
            is_well = !memcmp(shown[1], shown[2], sizeof shown[1]) && it.node.at == at;
            is_well &= !memcmp(&text, &it.text, sizeof text) && !memcmp(&frame, &it.frame, sizeof frame);
            answer = calls[which].make(&it);
        }
        show(&it, shown[3]);
        end(&it);
        if (!is_well || answer != due || memcmp(shown[0], shown[3], sizeof shown[0])) return -1;
        if (!came) return number - 1;
    }
}

int main(void) {
    exchange();
    int failed = 0;
    for (size_t which = 0; which < sizeof calls / sizeof calls[0]; which++) {
        long survived = 0, refused = sweep(which, &survived);
        int is_well = calls[which].asks ? refused > survived : refused == 0;
        failed += !is_well;
        if (is_well) printf("%s: %ld requests for memory were refused in turn, %ld survived\n", calls[which].name, refused, survived);
        else printf("refused calls: %s: %ld\n", calls[which].name, refused);
    }
    cg_bytes_free(&syn);
    cg_bytes_free(&ack);
    cg_bytes_free(&ack2);
    return failed ? 1 : 0;
}
