/* A node of the gossip as a library. scripts/header writes this file from crates/cg_c. */
#ifndef CG_H
#define CG_H

#include <stddef.h>
#include <stdint.h>

#ifdef __cplusplus
extern "C" {
#endif

/* What the caller upholds:
 * - A handle, and bytes, are zero at first, as `cg_node node = {0};`, and then as the last call left them. None is copied and used
 *   after its copy was.
 * - A pointer leads to memory of its type, or to as many bytes as the length beside it says. It is never null, even at no bytes.
 * - What one call is lent does not overlap, and nothing else uses it until the call is back; it may be const only if it says so.
 * - One node, and what is read of it, is in one call at a time, on the thread that started it.
 * - The program's malloc, realloc and free are one allocator, which aligns a block to each power of two up to 16 that divides its
 *   size. No call is made from a signal handler, or from a forked child of a process with threads. */

/* A node, or nothing. It is freed by cg_free. */
typedef struct cg_node {
    void *at;
} cg_node;

/* Bytes that a call gave: `length` of them at `start`. They are freed by cg_bytes_free, or by the next call that gives bytes here. */
typedef struct cg_bytes {
    const uint8_t *start;
    size_t length;
    void *at;
} cg_bytes;

/* The numbers by which a node judges silence, as the keys of a settings file name them. */
typedef struct cg_judgement {
    uint32_t window;
    uint32_t initial_gap;
    uint32_t max_gap;
    uint32_t threshold;
} cg_judgement;

/* A call answers 0, or the number of its fault; it then left all that it was lent as it was. CG_OUT_OF_MEMORY may come in the place
 * of any other. CG_NO_SUCH_NODE says that a handle holds nothing. */
enum cg_fault {
    CG_OUT_OF_MEMORY = 1,
    CG_BAD_TEXT = 2,
    CG_TOO_LONG = 3,
    CG_VERSIONS_SPENT = 4,
    CG_TABLE_FULL = 8,
    CG_OTHER_CLUSTER = 9,
    CG_NO_SUCH_MESSAGE = 10,
    CG_NOT_RISING = 11,
    CG_BAD_FRAME = 12,
    CG_TRUNCATED = 13,
    CG_READ_FAULT = 14,
    CG_WRITE_FAULT = 15,
    CG_STRANGER = 16,
    CG_STUCK = 17,
    CG_FOLDED = 18,
    CG_NO_SUCH_NODE = 19,
    CG_NO_SUCH_KEY = 20,
};

/* Tells the numbers by which silence is judged if a settings file says nothing. */
void cg_defaults(cg_judgement *judgement);

/* Starts a node at an endpoint, as `10.0.0.1:7000`, in a generation, 1 to 2^31 - 1. The handle then holds the node; one
 * that it held is freed. The cluster is its name. The seeds are endpoints that rise, with a comma between them, or none.
 * It answers CG_BAD_TEXT if one of these, or a number of the judgement, is not of its form or out of its range. */
uint32_t cg_start(cg_node *node, const uint8_t *endpoint, size_t endpoint_length, uint32_t generation, const uint8_t *cluster, size_t cluster_length, const uint8_t *seeds, size_t seeds_length, const cg_judgement *judgement);

/* Frees the node that a handle holds, if it holds one. The handle then holds nothing. */
void cg_free(cg_node *node);

/* Raises the heartbeat version, and tells it. It answers CG_VERSIONS_SPENT if there is no version left. */
uint32_t cg_beat(cg_node *node, uint32_t *version);

/* Gives a key of the node, 1 to 16, a text, and tells the version of that. It answers CG_BAD_TEXT if the key or the text
 * is not one, CG_TOO_LONG if the text is too long, and CG_VERSIONS_SPENT if there is no version left. */
uint32_t cg_set(cg_node *node, uint8_t key, const uint8_t *text, size_t text_length, uint32_t *version);

/* Removes the text of a key of the node, and tells the version of that. It answers CG_BAD_TEXT if the key is not one,
 * CG_NO_SUCH_KEY if it has no text, and CG_VERSIONS_SPENT if there is no version left. */
uint32_t cg_remove(cg_node *node, uint8_t key, uint32_t *version);

/* Tells the length of the frame that bytes begin with, by the first five of them; the others need not be there. It
 * answers CG_TRUNCATED if fewer than four are there, and CG_BAD_FRAME if no frame of the layout that the fifth names is so
 * long, or none at all so short. */
uint32_t cg_frame_length(const uint8_t *bytes, size_t bytes_length, size_t *length);

/* Begins a round at `now`, in milliseconds of the clock of all calls: the heartbeat version rises, and peers are chosen
 * with four random words. It gives the line `round`, with each peer after a space, and the frame of the SYN for them.
 * It answers CG_VERSIONS_SPENT if there is no version left. */
uint32_t cg_tick(cg_node *node, uint64_t now, uint64_t a, uint64_t b, uint64_t c, uint64_t d, cg_bytes *peers, cg_bytes *frame);

/* Handles the message of the frame that bytes begin with, at `now`, and tells the length of the frame. It gives the
 * outcome of each delta, one a line, and the frame of the answer; no bytes if there is none. It answers CG_TRUNCATED if
 * the bytes end inside a frame, CG_BAD_FRAME if they begin with none, CG_OTHER_CLUSTER for a SYN of another cluster, and
 * CG_TABLE_FULL if more endpoints would be held than a table may hold. */
uint32_t cg_handle(cg_node *node, uint64_t now, const uint8_t *bytes, size_t bytes_length, size_t *taken, cg_bytes *outcomes, cg_bytes *frame);

/* Gives the frame of the SYN that opens an exchange. */
uint32_t cg_opening(cg_node *node, cg_bytes *frame);

/* Tells the generation and the newest version that is held of an endpoint. It answers CG_BAD_TEXT if that is not the text
 * of one, and CG_NO_SUCH_NODE if no entry of it is held. */
uint32_t cg_entry(cg_node *node, const uint8_t *endpoint, size_t endpoint_length, uint32_t *generation, uint32_t *newest);

/* Gives the text of a key, 1 to 16, of an endpoint, and tells the version that set it. It answers CG_BAD_TEXT if the
 * endpoint or the key is not one, CG_NO_SUCH_NODE if no entry of the endpoint is held, and CG_NO_SUCH_KEY if the key has no
 * text there. */
uint32_t cg_state(cg_node *node, const uint8_t *endpoint, size_t endpoint_length, uint8_t key, cg_bytes *text, uint32_t *version);

/* Tells the verdict of an endpoint's window at `now`: 0 for alive, 1 for silent, 2 if it was never heard. It answers
 * CG_BAD_TEXT if the endpoint is not one. */
uint32_t cg_verdict(cg_node *node, const uint8_t *endpoint, size_t endpoint_length, uint64_t now, uint8_t *verdict);

/* Gives the endpoint of each entry, one a line, rising by endpoint. */
uint32_t cg_owners(cg_node *node, cg_bytes *text);

/* Gives the entry of each endpoint, as text. */
uint32_t cg_gossipinfo(cg_node *node, cg_bytes *text);

/* Gives a digest of each entry, as text. */
uint32_t cg_digests(cg_node *node, cg_bytes *text);

/* Gives the ring of the table, as text. */
uint32_t cg_ring(cg_node *node, cg_bytes *text);

/* Gives the first `rf` replicas of a key, one a line. */
uint32_t cg_replicas(cg_node *node, const uint8_t *key, size_t key_length, uint64_t rf, cg_bytes *text);

/* Frees bytes that a call gave, and leaves none. At bytes that are none it does nothing. */
void cg_bytes_free(cg_bytes *bytes);

#ifdef __cplusplus
}
#endif

#endif
