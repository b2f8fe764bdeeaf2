/*
 * The causal node and the trail, for a host program in C or C++. Link libhost.a, which `rust/archives host` writes.
 *
 * Each function returns 0 (CAUSAL_TAKEN) or the number of a refusal; a refusal leaves every byte and number that was
 * lent. The functions require nothing of what the lent bytes are. They keep no pointer and share nothing: calls on
 * different nodes may run at the same time, calls on one node must come one after the other.
 *
 * Every pointer must be valid for its length, also where that is 0 (any pointer but NULL), and no two of the buffers
 * lent to one call may overlap. docs/host.md has the host's duties.
 */
#ifndef CAUSAL_NODE_H
#define CAUSAL_NODE_H

#include <stddef.h>
#include <stdint.h>

#ifdef __cplusplus
extern "C" {
#endif

/* Sizes in bytes, and limits. */
enum {
    CAUSAL_NODES = 12,             /* a plant has at most this many nodes, numbered from 0 */
    CAUSAL_HELD_FRAMES = 16,       /* at most this many frames are held back at a node */
    CAUSAL_IMAGE_BYTES = 632,      /* a node's image, exactly */
    CAUSAL_QUEUE_BYTES = 12832,    /* a node's hold-back queue, exactly; all zero before the first call */
    CAUSAL_OUTPUT_BYTES = 2048,    /* frame output, at least */
    CAUSAL_BODY_BYTES = 64,        /* the longest body; body output, at least */
    CAUSAL_ANSWER_BYTES = 11,      /* an answer, at least */
    CAUSAL_SHORTEST_FRAME_BYTES = 12,
    CAUSAL_FRAME_BYTES = 802       /* the longest frame */
};

/* Where each number of an answer stands; 0 where there is none. Numbers of several bytes have the lowest first. */
enum {
    CAUSAL_ANSWER_KIND = 0,
    CAUSAL_ANSWER_FROM = 1,
    CAUSAL_ANSWER_NUMBER = 2,      /* four bytes */
    CAUSAL_ANSWER_LOOKED = 6,      /* held frames tried */
    CAUSAL_ANSWER_BODY = 7,        /* body bytes written */
    CAUSAL_ANSWER_EXTRAS = 8,      /* extra frames issued */
    CAUSAL_ANSWER_OUTPUT = 9       /* frame bytes issued, two bytes */
};

/* Where a frame says what it is. Its length is 12 + 6 * entries + body, by which an output is cut into frames. */
enum {
    CAUSAL_FRAME_KIND = 0,
    CAUSAL_FRAME_FROM = 1,
    CAUSAL_FRAME_TO = 2,           /* the node that it is to be brought to */
    CAUSAL_FRAME_ENTRIES = 3,
    CAUSAL_FRAME_BODY = 4
};

/* The kinds of frames. */
enum {
    CAUSAL_USER = 1,               /* a message of a node's user */
    CAUSAL_EXTRA = 2               /* added by the algorithm: no body; brought and delivered like others */
};

/* The classes of nodes. docs/host.md has the table of what each may send. */
enum {
    CAUSAL_MOVER = 0,              /* moves something, as cover and dome do */
    CAUSAL_CAMERA = 1,
    CAUSAL_ARCHIVE = 2,
    CAUSAL_PANEL = 3
};

/* A body's first byte is its topic: the first topic of each group, which ends in front of the next one's. */
enum {
    CAUSAL_TOPIC_MOTION = 0,       /* to 31 */
    CAUSAL_TOPIC_EXPOSURE = 32,    /* to 95 */
    CAUSAL_TOPIC_FILING = 96,      /* to 127 */
    CAUSAL_TOPIC_NOTES = 128,      /* to 255 */
    CAUSAL_TOPIC_EMPTY = 128       /* the topic of an empty body */
};

/* What is returned. */
enum {
    CAUSAL_TAKEN = 0,
    CAUSAL_REFUSED_OUT_OF_RANGE = 1,     /* n, me or cap of a set-up */
    CAUSAL_REFUSED_TOO_SHORT = 3,        /* a lent buffer, or a queue of another length; no room for a trail's frame */
    CAUSAL_REFUSED_WRONG_QUEUE = 4,      /* the queue does not belong to the image, or was changed */
    CAUSAL_REFUSED_COUNTED_OUT = 5,      /* a count has come to 1,000,000,000 */
    CAUSAL_REFUSED_DESTINATION = 6,      /* the node itself, or no node */
    CAUSAL_REFUSED_LONG_BODY = 7,        /* more than 64 bytes */
    CAUSAL_REFUSED_DAMAGED_FRAME = 8,    /* its length, count or sum */
    CAUSAL_REFUSED_UNKNOWN_KIND = 9,     /* or its byte 7 is not zero */
    CAUSAL_REFUSED_OTHER_PLANT = 10,     /* its n, cap, from or to does not fit */
    CAUSAL_REFUSED_BAD_PARTS = 11,       /* its entries or its body break a rule */
    CAUSAL_REFUSED_OTHER_NODE = 12,      /* it is for another node */
    CAUSAL_REFUSED_NOT_ISSUED = 13,      /* it tells of more frames from this node than it has issued */
    CAUSAL_REFUSED_DELIVERED = 14,       /* it was delivered before */
    CAUSAL_REFUSED_HELD = 15,            /* it is held already */
    CAUSAL_REFUSED_QUEUE_FULL = 16,      /* 16 are held, or 15 are and this one has to wait */
    CAUSAL_REFUSED_TRAIL = 19,           /* the window, or the frame there or to be written */
    CAUSAL_REFUSED_IMAGE = 20,           /* another length, a bad trailer, or a record that breaks a rule */
    CAUSAL_REFUSED_NO_RIGHT = 21         /* the class is above 3, or has no right to the body's topic */
};

/* Writes the fresh image of node me of n (2 to 12) with this cap of its own (n to n * n), once in a plant's time: 1, 20. */
uint8_t node_set_up(uint8_t *image, size_t image_length, size_t me, size_t n, size_t cap);

/*
 * Issues a frame with this body to node `to`, and any extra frames, end to end in `out`. `node_class` is the class of
 * the sending node, which is no part of its image or its frames: 20, 3, 5, 6, 7, 21.
 */
uint8_t node_send(uint8_t *image, size_t image_length, size_t to, size_t node_class,
                  const uint8_t *body, size_t body_length, uint8_t *out, size_t out_length,
                  uint8_t *answer, size_t answer_length);

/* Checks a frame that a link brought and holds it back; the answer is zeros: 20, 3, 4, 8 to 16. */
uint8_t node_offer(uint8_t *image, size_t image_length, const uint8_t *frame, size_t frame_length,
                   uint8_t *queue, size_t queue_length, uint8_t *answer, size_t answer_length);

/* Delivers the first held frame that can be, its body to `body`, extra frames to `out`; kind 0: none. 20, 3, 4, 5. */
uint8_t node_deliver(uint8_t *image, size_t image_length, uint8_t *queue, size_t queue_length,
                     uint8_t *out, size_t out_length, uint8_t *body, size_t body_length,
                     uint8_t *answer, size_t answer_length);

/* Writes one frame on behind the bytes of the file that are in use, the number of which grows by it: 19, 3. */
uint8_t trail_write(uint8_t *file, size_t file_length, size_t *used, const uint8_t *frame, size_t frame_length);

/*
 * Shows the last frame of what is left: `cursor` is five numbers { file_length, w, 0, 0, 0 } at the start, `shown` two,
 * the frame's start and length; both 0 at the file's start, where cursor[4] is the largest count: 19.
 */
uint8_t trail_step(const uint8_t *file, size_t file_length, uint64_t *cursor, uint64_t *shown);

/* Walks back a whole file and gives the largest count of extra frames in any w (1 to 64) successive ones: 19. */
uint8_t trail_walk(const uint8_t *file, size_t file_length, size_t w, size_t *most);

#ifdef __cplusplus
}
#endif

#endif
