/*
 * The detour, played by a host program: cover, dome, camera and archive, and a link that loses, repeats, delays,
 * reorders and damages. From the top of the repository:
 *
 *     rust/archives host && cc -std=c99 -Iinclude examples/host.c target/staticlib/libhost.a -o host && ./host
 *
 * A real host has one of the nodes, and stores its image and queue, with the frames that it keeps, before it transmits
 * what a call issued. Here all four are in one program, and what would be transmitted is brought by `bring`.
 */
#include "causal_node.h"

#include <stdio.h>
#include <stdlib.h>
#include <string.h>

enum { COVER, DOME, CAMERA, ARCHIVE, PLANT };
enum { CAP = 4, MOST_KEPT = 32 };

static const char *const NAMES[PLANT] = {"cover", "dome", "camera", "archive"};

/* What each node is; a real host knows the class of its one node. */
static const size_t CLASSES[PLANT] = {CAUSAL_MOVER, CAUSAL_MOVER, CAUSAL_CAMERA, CAUSAL_ARCHIVE};

struct node {
    uint8_t image[CAUSAL_IMAGE_BYTES];
    uint8_t queue[CAUSAL_QUEUE_BYTES]; /* all zero at the start, as static data is */
};

/* A frame that its sender keeps until it hears that it was delivered. */
struct kept {
    uint8_t bytes[CAUSAL_FRAME_BYTES];
    size_t length;
    int delivered;
};

static struct node nodes[PLANT];
static struct kept kept[MOST_KEPT];
static size_t issued;

static void fail(const char *what, unsigned number)
{
    fprintf(stderr, "host: %s, number %u\n", what, number);
    exit(EXIT_FAILURE);
}

/* Ends the program where a call that this story relies on was refused. */
static void must(uint8_t number, const char *call)
{
    if (number != CAUSAL_TAKEN)
        fail(call, number);
}

static size_t frame_length(const uint8_t *frame)
{
    return CAUSAL_SHORTEST_FRAME_BYTES + 6u * frame[CAUSAL_FRAME_ENTRIES] + frame[CAUSAL_FRAME_BODY];
}

static uint32_t four_bytes(const uint8_t *bytes)
{
    return bytes[0] | (uint32_t)bytes[1] << 8 | (uint32_t)bytes[2] << 16 | (uint32_t)bytes[3] << 24;
}

/* A frame's number: one more than its entry in row from and column to, 1 without such an entry. */
static uint32_t number_of(const uint8_t *frame)
{
    const uint8_t *entry = frame + 8;
    unsigned left = frame[CAUSAL_FRAME_ENTRIES];

    for (; left > 0; left--, entry += 6)
        if (entry[0] == frame[CAUSAL_FRAME_FROM] && entry[1] == frame[CAUSAL_FRAME_TO])
            return four_bytes(entry + 2) + 1;
    return 1;
}

/* Cuts an output into frames and keeps each. */
static void keep(const uint8_t *out, size_t length)
{
    while (length > 0) {
        size_t first = frame_length(out);

        if (issued == MOST_KEPT || first > length)
            fail("more frames than are kept here, or no whole frame", (unsigned)first);
        memcpy(kept[issued].bytes, out, first);
        kept[issued].length = first;
        issued++;
        printf("    frame %zu, %s, from %s to %s, %zu bytes\n", issued,
               out[CAUSAL_FRAME_KIND] == CAUSAL_USER ? "user" : "extra", NAMES[out[CAUSAL_FRAME_FROM]],
               NAMES[out[CAUSAL_FRAME_TO]], first);
        out += first;
        length -= first;
    }
}

static size_t output_length(const uint8_t *answer)
{
    return answer[CAUSAL_ANSWER_OUTPUT] | (size_t)answer[CAUSAL_ANSWER_OUTPUT + 1] << 8;
}

/* Sends a topic byte and words behind it, as the class that the node has, and keeps what is issued. */
static uint8_t send_words(size_t from, size_t to, uint8_t topic, const char *words)
{
    uint8_t body[CAUSAL_BODY_BYTES], out[CAUSAL_OUTPUT_BYTES], answer[CAUSAL_ANSWER_BYTES], number;
    size_t length = strlen(words);

    if (length >= sizeof body)
        fail("more words than a body takes", (unsigned)length);
    body[0] = topic;
    memcpy(body + 1, words, length);
    number = node_send(nodes[from].image, sizeof nodes[from].image, to, CLASSES[from], body, 1 + length,
                       out, sizeof out, answer, sizeof answer);
    if (number == CAUSAL_TAKEN)
        keep(out, output_length(answer));
    return number;
}

static void say(size_t from, size_t to, uint8_t topic, const char *words)
{
    printf("%s says \"%s\" to %s:\n", NAMES[from], words, NAMES[to]);
    must(send_words(from, to, topic, words), "a send was refused");
}

/* The same of a motion by a node that is no mover: nothing is issued. */
static void announce_without_right(size_t from, size_t to, const char *words)
{
    uint8_t number = send_words(from, to, CAUSAL_TOPIC_MOTION, words);

    if (number != CAUSAL_REFUSED_NO_RIGHT)
        fail("a motion of a node that is no mover was not refused with 21", number);
    printf("%s would say \"%s\" to %s: refused with 21, its class may not announce a motion\n", NAMES[from], words,
           NAMES[to]);
}

/* What a host does about a frame that was not taken. */
static const char *refusal(uint8_t number)
{
    switch (number) {
    case CAUSAL_TAKEN: return "taken";
    case CAUSAL_REFUSED_DAMAGED_FRAME: return "refused with 8, damaged: dropped, a good copy will come";
    case CAUSAL_REFUSED_OTHER_NODE: return "refused with 12, for another node: dropped";
    case CAUSAL_REFUSED_DELIVERED: return "refused with 14, delivered before: dropped";
    case CAUSAL_REFUSED_HELD: return "refused with 15, held already: dropped";
    default: fail("an offer was refused", number); return "";
    }
}

static uint8_t offer(size_t node, const uint8_t *frame, size_t length)
{
    uint8_t answer[CAUSAL_ANSWER_BYTES];

    return node_offer(nodes[node].image, sizeof nodes[node].image, frame, length,
                      nodes[node].queue, sizeof nodes[node].queue, answer, sizeof answer);
}

/* Marks the frame that a delivery at a node names: its sender need not resend it. */
static void note_delivered(size_t node, const uint8_t *answer)
{
    size_t k;

    for (k = 0; k < issued; k++) {
        const uint8_t *frame = kept[k].bytes;

        if (frame[CAUSAL_FRAME_FROM] == answer[CAUSAL_ANSWER_FROM] && frame[CAUSAL_FRAME_TO] == node &&
            number_of(frame) == four_bytes(answer + CAUSAL_ANSWER_NUMBER)) {
            if (kept[k].delivered)
                fail("a frame was delivered twice", (unsigned)(k + 1));
            kept[k].delivered = 1;
            return;
        }
    }
    fail("a frame was delivered that nobody issued", answer[CAUSAL_ANSWER_FROM]);
}

/* Prints the words of a delivered message, which stand behind its topic. */
static void print_heard(size_t node, const uint8_t *body, const uint8_t *answer)
{
    int length = answer[CAUSAL_ANSWER_BODY];

    printf("    %s hears \"%.*s\" from %s\n", NAMES[node], length > 0 ? length - 1 : 0, (const char *)body + 1,
           NAMES[answer[CAUSAL_ANSWER_FROM]]);
}

/* Delivers at a node until there is none. */
static void deliver_all(size_t node)
{
    uint8_t out[CAUSAL_OUTPUT_BYTES], body[CAUSAL_BODY_BYTES], answer[CAUSAL_ANSWER_BYTES];

    for (;;) {
        must(node_deliver(nodes[node].image, sizeof nodes[node].image, nodes[node].queue, sizeof nodes[node].queue,
                          out, sizeof out, body, sizeof body, answer, sizeof answer),
             "a deliver was refused");
        if (answer[CAUSAL_ANSWER_KIND] == 0)
            break;
        if (answer[CAUSAL_ANSWER_KIND] == CAUSAL_USER)
            print_heard(node, body, answer);
        else
            printf("    %s takes an extra frame from %s\n", NAMES[node], NAMES[answer[CAUSAL_ANSWER_FROM]]);
        note_delivered(node, answer);
        keep(out, output_length(answer));
    }
    if (answer[CAUSAL_ANSWER_LOOKED] > 0)
        printf("    %u held at %s, waiting for an earlier frame\n", answer[CAUSAL_ANSWER_LOOKED], NAMES[node]);
}

/* The link brings a kept frame, counted from 1, to a node, which then delivers what it can. */
static void bring_to(size_t node, size_t frame)
{
    uint8_t number = offer(node, kept[frame - 1].bytes, kept[frame - 1].length);

    printf("the link brings frame %zu to %s: %s\n", frame, NAMES[node], refusal(number));
    if (number == CAUSAL_TAKEN)
        deliver_all(node);
}

static void bring(size_t frame)
{
    bring_to(kept[frame - 1].bytes[CAUSAL_FRAME_TO], frame);
}

/* The same with one bit changed on the way. */
static void bring_damaged(size_t frame)
{
    uint8_t bytes[CAUSAL_FRAME_BYTES];
    size_t node = kept[frame - 1].bytes[CAUSAL_FRAME_TO];

    memcpy(bytes, kept[frame - 1].bytes, kept[frame - 1].length);
    bytes[9] ^= 0x10;
    printf("the link brings frame %zu to %s with a bit changed: %s\n", frame, NAMES[node],
           refusal(offer(node, bytes, kept[frame - 1].length)));
}

/* Resends every kept frame that was not delivered, the latest first, until all are. */
static void resend(void)
{
    size_t k, left;

    do {
        left = 0;
        printf("what was not delivered is sent again:\n");
        for (k = issued; k > 0; k--)
            if (!kept[k - 1].delivered)
                bring(k);
        for (k = 0; k < issued; k++)
            left += !kept[k].delivered;
    } while (left > 0);
}

/* The camera's report reaches the archive before the cover's message, and waits there. */
static void detour(void)
{
    say(COVER, ARCHIVE, CAUSAL_TOPIC_MOTION, "closing");
    printf("the link loses frame 1\n");
    say(COVER, CAMERA, CAUSAL_TOPIC_MOTION, "closed");
    bring(2);
    say(CAMERA, ARCHIVE, CAUSAL_TOPIC_EXPOSURE, "exposure ended");
    bring(3);
    bring(3);
    bring_to(DOME, 3);
    bring_damaged(1);
    resend();
    bring(1);
}

/* More counts would stand at the cover than its cap allows: a delivery there issues extra frames. */
static void opening(void)
{
    say(COVER, DOME, CAUSAL_TOPIC_MOTION, "opening soon");
    say(DOME, CAMERA, CAUSAL_TOPIC_MOTION, "turning");
    say(DOME, COVER, CAUSAL_TOPIC_MOTION, "turning");
    announce_without_right(CAMERA, COVER, "dome turning");
    say(CAMERA, DOME, CAUSAL_TOPIC_NOTES, "ready");
    say(CAMERA, COVER, CAUSAL_TOPIC_NOTES, "ready");
    bring(6);
    bring(8);
    resend();
}

int main(void)
{
    size_t me;

    for (me = 0; me < PLANT; me++)
        must(node_set_up(nodes[me].image, sizeof nodes[me].image, me, PLANT, CAP), "a set-up was refused");
    detour();
    opening();
    printf("all %zu frames delivered\n", issued);
    return EXIT_SUCCESS;
}
