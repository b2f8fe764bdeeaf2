/*
 * Calls each function of the header so that the effect of every parameter is seen: distinct numbers, lengths on both
 * sides of their bounds, numbers above 32 bits, and marks behind what may be written. A line is printed for each call
 * that did not do what it must; a parameter that is missing, swapped or of another size shows itself there.
 */
#include "causal_node.h"

#include <stdio.h>
#include <string.h>

/* The types as they are exported. An initializer of another type is an error. */
static uint8_t (*const set_up)(uint8_t *, size_t, size_t, size_t, size_t) = node_set_up;
static uint8_t (*const send)(uint8_t *, size_t, size_t, size_t, const uint8_t *, size_t, uint8_t *, size_t, uint8_t *,
                             size_t) = node_send;
static uint8_t (*const offer)(uint8_t *, size_t, const uint8_t *, size_t, uint8_t *, size_t, uint8_t *,
                              size_t) = node_offer;
static uint8_t (*const deliver)(uint8_t *, size_t, uint8_t *, size_t, uint8_t *, size_t, uint8_t *, size_t, uint8_t *,
                                size_t) = node_deliver;
static uint8_t (*const write_on)(uint8_t *, size_t, size_t *, const uint8_t *, size_t) = trail_write;
static uint8_t (*const step)(const uint8_t *, size_t, uint64_t *, uint64_t *) = trail_step;
static uint8_t (*const walk)(const uint8_t *, size_t, size_t, size_t *) = trail_walk;

static const size_t FAR = (size_t)1 << 32;

static int failures;

static void expect(int holds, int line, const char *what)
{
    if (!holds) {
        printf("calls.c:%d: %s\n", line, what);
        failures++;
    }
}

#define EXPECT(holds) expect(holds, __LINE__, #holds)

enum { MARK = 0xA5, MORE = 8 };

/* What is lent, each with marked bytes behind it. */
static uint8_t image[CAUSAL_IMAGE_BYTES + MORE];
static uint8_t queue[CAUSAL_QUEUE_BYTES + MORE];
static uint8_t out[CAUSAL_OUTPUT_BYTES + MORE];
static uint8_t body[CAUSAL_BODY_BYTES + MORE];
static uint8_t answer[CAUSAL_ANSWER_BYTES + MORE];
static const uint8_t words[CAUSAL_BODY_BYTES + MORE] = "abcdefgh";

static int all(const uint8_t *bytes, size_t length, uint8_t value)
{
    while (length > 0)
        if (bytes[--length] != value)
            return 0;
    return 1;
}

/* Marks outputs and answer, and what stands behind image and queue. */
static void mark(void)
{
    memset(image + CAUSAL_IMAGE_BYTES, MARK, MORE);
    memset(queue + CAUSAL_QUEUE_BYTES, MARK, MORE);
    memset(out, MARK, sizeof out);
    memset(body, MARK, sizeof body);
    memset(answer, MARK, sizeof answer);
}

static void try_set_up(void)
{
    memset(image, MARK, sizeof image);
    EXPECT(set_up(image, 631, 2, 3, 4) == 20 && set_up(image, 633, 2, 3, 4) == 20);
    EXPECT(set_up(image, FAR + 632, 2, 3, 4) == 20); /* not so long, but only the length is looked at */
    EXPECT(set_up(image, 632, FAR + 2, 3, 4) == 1);
    EXPECT(set_up(image, 632, 2, FAR + 3, 4) == 1);
    EXPECT(set_up(image, 632, 2, 3, FAR + 4) == 1);
    EXPECT(all(image, sizeof image, MARK));
    EXPECT(set_up(image, 632, 2, 3, 4) == 0);
    EXPECT(image[0] == 2 && image[1] == 3 && image[2] == 4 && all(image + 3, 625, 0));
    EXPECT(all(image + CAUSAL_IMAGE_BYTES, MORE, MARK));
}

static void try_send(void)
{
    static const uint8_t frame[] = {1, 2, 1, 0, 5, 3, 4, 0, 'a', 'b', 'c', 'd', 'e', 13, 0, 84, 22};
    static const uint8_t said[] = {0, 0, 0, 0, 0, 0, 0, 0, 0, sizeof frame, 0};
    uint8_t before[CAUSAL_IMAGE_BYTES];

    mark();
    memcpy(before, image, sizeof before);
    EXPECT(send(image, 631, 1, CAUSAL_ARCHIVE, words, 5, out, 2048, answer, 11) == 20);
    EXPECT(send(image, 632, 1, CAUSAL_ARCHIVE, words, 5, out, 2047, answer, 11) == 3);
    EXPECT(send(image, 632, 1, CAUSAL_ARCHIVE, words, 5, out, 2048, answer, 10) == 3);
    EXPECT(send(image, 632, 2, CAUSAL_ARCHIVE, words, 5, out, 2048, answer, 11) == 6);
    EXPECT(send(image, 632, FAR + 1, CAUSAL_ARCHIVE, words, 5, out, 2048, answer, 11) == 6);
    EXPECT(send(image, 632, 1, CAUSAL_ARCHIVE, words, 65, out, 2048, answer, 11) == 7);
    EXPECT(send(image, 632, 1, CAUSAL_CAMERA, words, 65, out, 2048, answer, 11) == 7);
    EXPECT(send(image, 632, 1, CAUSAL_CAMERA, words, 5, out, 2048, answer, 11) == 21);
    EXPECT(send(image, 632, 1, 256 + CAUSAL_ARCHIVE, words, 5, out, 2048, answer, 11) == 21);
    EXPECT(send(image, 632, 1, FAR + CAUSAL_ARCHIVE, words, 5, out, 2048, answer, 11) == 21);
    EXPECT(send(image, 632, 1, SIZE_MAX, words, 5, out, 2048, answer, 11) == 21);
    EXPECT(memcmp(image, before, sizeof before) == 0 && all(out, sizeof out, MARK) && all(answer, sizeof answer, MARK));
    EXPECT(send(image, 632, 1, CAUSAL_ARCHIVE, words, 5, out, 2048, answer, 11) == 0);
    EXPECT(memcmp(out, frame, sizeof frame) == 0 && all(out + sizeof frame, sizeof out - sizeof frame, MARK));
    EXPECT(memcmp(answer, said, sizeof said) == 0 && all(answer + 11, MORE, MARK));
    /* M[2,1], in row 2 and column 1, is 1 now. */
    EXPECT(image[3 + 4 * (12 * 2 + 1)] == 1 && all(image + CAUSAL_IMAGE_BYTES, MORE, MARK));
}

/* Sends of the first and the last topic of each group, by each class and by the number above the last. */
static void try_class(void)
{
    static const uint8_t topics[] = {CAUSAL_TOPIC_MOTION, 31, CAUSAL_TOPIC_EXPOSURE, 95,
                                     CAUSAL_TOPIC_FILING, 127, CAUSAL_TOPIC_NOTES, 255};
    static const uint8_t numbers[][sizeof topics] = {
        {0, 0, 21, 21, 21, 21, 0, 0},
        {21, 21, 0, 0, 21, 21, 0, 0},
        {21, 21, 21, 21, 0, 0, 0, 0},
        {21, 21, 21, 21, 21, 21, 0, 0},
        {21, 21, 21, 21, 21, 21, 21, 21},
    };
    size_t node_class, k;

    for (node_class = CAUSAL_MOVER; node_class <= CAUSAL_PANEL + 1; node_class++) {
        const uint8_t *number = numbers[node_class];

        for (k = 0; k < sizeof topics; k++) {
            EXPECT(set_up(image, 632, 2, 3, 4) == 0);
            EXPECT(send(image, 632, 1, FAR + node_class, topics + k, 1, out, 2048, answer, 11) == 21);
            EXPECT(send(image, 632, 1, node_class, topics + k, 1, out, 2048, answer, 11) == number[k]);
        }
        /* An empty body is a note. */
        EXPECT(send(image, 632, 1, node_class, words, 0, out, 2048, answer, 11) == number[6]);
    }
}

/* Writes the trailer behind a frame's bytes; gives the whole length. */
static size_t sealed(uint8_t *frame, size_t length)
{
    unsigned sum = 0;
    size_t k;

    frame[length] = (uint8_t)length;
    frame[length + 1] = 0;
    for (k = 0; k < length + 2; k++)
        sum += (unsigned)(k + 1) * frame[k];
    frame[length + 2] = (uint8_t)(sum & 0xFF);
    frame[length + 3] = (uint8_t)(sum >> 8);
    return length + 4;
}

/* A user frame from `from` to node 0 of three, cap 3, with one entry and a body of one letter. */
static size_t frame_to_0(uint8_t *frame, uint8_t from, uint8_t row, uint8_t column, uint8_t letter)
{
    const uint8_t parts[] = {1, from, 0, 1, 1, 3, 3, 0, row, column, 1, 0, 0, 0, letter};

    memcpy(frame, parts, sizeof parts);
    return sealed(frame, sizeof parts);
}

static void try_offer(void)
{
    uint8_t frame[32];
    size_t length = frame_to_0(frame, 1, 1, 2, 'x');

    mark();
    EXPECT(set_up(image, 632, 0, 3, 3) == 0);
    EXPECT(offer(image, 633, frame, length, queue, 12832, answer, 11) == 20);
    EXPECT(offer(image, 632, frame, length, queue, 12831, answer, 11) == 3);
    EXPECT(offer(image, 632, frame, length, queue, 12833, answer, 11) == 3);
    EXPECT(offer(image, 632, frame, length, queue, 12832, answer, 10) == 3);
    EXPECT(offer(image, 632, frame, length - 1, queue, 12832, answer, 11) == 8);
    EXPECT(all(queue, CAUSAL_QUEUE_BYTES, 0) && all(answer, sizeof answer, MARK) && image[627] == 0);
    EXPECT(offer(image, 632, frame, length, queue, 12832, answer, 11) == 0);
    EXPECT(memcmp(queue, frame, length) == 0 && all(queue + length, CAUSAL_QUEUE_BYTES - length, 0));
    EXPECT(all(queue + CAUSAL_QUEUE_BYTES, MORE, MARK) && all(image + CAUSAL_IMAGE_BYTES, MORE, MARK));
    EXPECT(image[627] == 1 && all(answer, 11, 0) && all(answer + 11, MORE, MARK));
    /* An empty slice: any pointer but NULL. */
    EXPECT(offer(image, 632, words, 0, queue, 12832, answer, 11) == 8);
}

/* Node 0 has sent to 1 and to 2; it delivers the frame that is held, and a second one, which issues an extra frame. */
static void try_deliver(void)
{
    static const uint8_t first[] = {1, 1, 1, 0, 0, 0, 1, 1, 0, 0, 0};
    static const uint8_t second[] = {1, 2, 1, 0, 0, 0, 1, 1, 1, 24, 0};
    uint8_t frame[32];
    size_t length = frame_to_0(frame, 2, 2, 1, 'y');

    EXPECT(send(image, 632, 1, CAUSAL_PANEL, words, 0, out, 2048, answer, 11) == 0);
    EXPECT(send(image, 632, 2, CAUSAL_PANEL, words, 0, out, 2048, answer, 11) == 0);
    mark();
    EXPECT(deliver(image, 631, queue, 12832, out, 2048, body, 64, answer, 11) == 20);
    EXPECT(deliver(image, 632, queue, 12831, out, 2048, body, 64, answer, 11) == 3);
    EXPECT(deliver(image, 632, queue, 12832, out, 2047, body, 64, answer, 11) == 3);
    EXPECT(deliver(image, 632, queue, 12832, out, 2048, body, 63, answer, 11) == 3);
    EXPECT(deliver(image, 632, queue, 12832, out, 2048, body, 64, answer, 10) == 3);
    EXPECT(all(out, sizeof out, MARK) && all(body, sizeof body, MARK) && all(answer, sizeof answer, MARK));
    EXPECT(deliver(image, 632, queue, 12832, out, 2048, body, 64, answer, 11) == 0);
    EXPECT(memcmp(answer, first, sizeof first) == 0 && all(answer + 11, MORE, MARK));
    EXPECT(body[0] == 'x' && all(body + 1, sizeof body - 1, MARK) && all(out, sizeof out, MARK));
    EXPECT(all(queue, CAUSAL_QUEUE_BYTES, 0) && image[627] == 0 && image[579 + 4] == 1);
    EXPECT(offer(image, 632, frame, length, queue, 12832, answer, 11) == 0);
    EXPECT(deliver(image, 632, queue, 12832, out, 2048, body, 64, answer, 11) == 0);
    EXPECT(memcmp(answer, second, sizeof second) == 0 && body[0] == 'y');
    EXPECT(out[0] == 2 && out[1] == 0 && out[2] == 1 && all(out + 24, sizeof out - 24, MARK));
    EXPECT(all(queue + CAUSAL_QUEUE_BYTES, MORE, MARK) && all(image + CAUSAL_IMAGE_BYTES, MORE, MARK));
}

/* Two extra frames, one behind the other, from byte 5 on. */
static void try_trail(void)
{
    uint8_t frame[32] = {2, 0, 1, 0, 0, 3, 3, 0}, file[5 + 12 + 12 + MORE];
    uint64_t cursor[6] = {FAR + 29, 2, 0, 0, 0, MARK}, shown[3] = {MARK, MARK, MARK};
    size_t used = 5, most = SIZE_MAX, length = sealed(frame, 8);

    memset(file, MARK, sizeof file);
    EXPECT(length == 12);
    EXPECT(write_on(file, 16, &used, frame, 12) == 3 && write_on(file, 17, &used, frame, 11) == 19 && used == 5);
    EXPECT(write_on(file, 17, &used, frame, 12) == 0 && used == 17);
    EXPECT(write_on(file, 29, &used, frame, 12) == 0 && used == 29);
    EXPECT(all(file, 5, MARK) && memcmp(file + 5, frame, 12) == 0 && memcmp(file + 17, frame, 12) == 0);
    EXPECT(all(file + 29, MORE, MARK));
    used = FAR + 5;
    EXPECT(write_on(file, 29, &used, frame, 12) == 3 && used == FAR + 5);

    EXPECT(step(file, 28, cursor, shown) == 19 && shown[0] == MARK && cursor[0] == FAR + 29);
    EXPECT(step(file, 29, cursor, shown) == 0 && shown[0] == 17 && shown[1] == 12 && shown[2] == MARK);
    EXPECT(cursor[0] == 17 && cursor[1] == 2 && cursor[2] == 1 && cursor[3] == 1 && cursor[4] == 1);
    EXPECT(cursor[5] == MARK);
    cursor[1] = FAR + 2;
    EXPECT(step(file, 29, cursor, shown) == 19);

    EXPECT(walk(file + 5, 24, 0, &most) == 19 && walk(file + 5, 24, FAR + 1, &most) == 19 && most == SIZE_MAX);
    EXPECT(walk(file + 5, 23, 2, &most) == 19 && most == SIZE_MAX);
    EXPECT(walk(file + 5, 24, 1, &most) == 0 && most == 1);
    most = SIZE_MAX;
    EXPECT(walk(file + 5, 24, 2, &most) == 0 && most == 2);
}

int main(void)
{
    try_set_up();
    try_send();
    try_class();
    try_offer();
    try_deliver();
    try_trail();
    return failures > 0;
}
