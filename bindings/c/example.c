/* example.c: a few bytes go from a send buffer to a receive buffer, over a channel that loses the first frame.
 *
 *     ../../tools/staticlib          proves and builds the library, once
 *     cc -std=c11 example.c ../../target/native/libstream_c.a -o example && ./example
 *
 * The sender writes the bytes, then closes the stream by a marked write of no bytes. It sends frames of at most five bytes. The first one
 * is lost, and the loss is noticed once the next frame has arrived: so the receiver keeps bytes behind a hole until the lost ones come
 * again, and hands all of them out in order. At the end both sides must know the same final size.
 */
#include <stdio.h>
#include <stdlib.h>
#include <string.h>

#include "valemkhor.h"

#define ROOM 64 /* of each arena, and of the text that arrives */
#define FRAME 5 /* the most bytes of one frame */

/* Ends the program if a call refused what this program expects to succeed. */
static void expect(const char *call, vk_answer answer) {
    if (answer.number != VK_OK) {
        fprintf(stderr, "%s: refusal %llu\n", call, (unsigned long long)answer.number);
        exit(1);
    }
}

static void check(const char *what, bool holds) {
    if (!holds) {
        fprintf(stderr, "failed: %s\n", what);
        exit(1);
    }
}

int main(void) {
    static const uint8_t text[] = "carried whole";
    const size_t size = sizeof text - 1;
    uint8_t send_arena[ROOM] = {0}, recv_arena[ROOM] = {0};

    vk_send_buf_out s = vk_send_buf_new(ROOM, send_arena, ROOM);
    expect("vk_send_buf_new", s.answer);
    vk_recv_buf_out r = vk_recv_buf_new(ROOM, ROOM, recv_arena, ROOM);
    expect("vk_recv_buf_new", r.answer);

    /* The sender writes, and closes the stream. */
    s = vk_send_buf_write(s.buf, send_arena, ROOM, text, size, false);
    expect("vk_send_buf_write", s.answer);
    check("all bytes are accepted", s.answer.first == size);
    s = vk_send_buf_write(s.buf, send_arena, ROOM, text, 0, true);
    expect("closing vk_send_buf_write", s.answer);
    check("the sender knows its final size", vk_send_buf_is_fin(s.buf));

    /* Frames go over the channel until all of them are acked. */
    uint64_t lost_off = 0, lost_len = 0;
    for (int n = 0; !vk_send_buf_is_complete(s.buf); n++) {
        uint8_t frame[FRAME];
        uint64_t off = vk_send_buf_off_front(s.buf);
        s = vk_send_buf_emit(s.buf, send_arena, ROOM, frame, FRAME);
        expect("vk_send_buf_emit", s.answer);
        uint64_t len = s.answer.first;
        bool fin = s.answer.second == 1;
        printf("frame %d: %llu bytes at %llu%s%s\n", n, (unsigned long long)len, (unsigned long long)off, fin ? ", the end" : "", n == 0 ? ", lost" : "");
        if (n == 0) {
            lost_off = off;
            lost_len = len;
            continue;
        }
        r = vk_recv_buf_write(r.buf, recv_arena, ROOM, off, frame, (size_t)len, fin);
        expect("vk_recv_buf_write", r.answer);
        s = vk_send_buf_ack_and_drop(s.buf, off, len);
        expect("vk_send_buf_ack_and_drop", s.answer);
        if (n == 1) {
            check("nothing is ready behind the hole", !vk_recv_buf_ready(r.buf));
            s = vk_send_buf_retransmit(s.buf, lost_off, lost_len);
            expect("vk_send_buf_retransmit", s.answer);
            check("the lost bytes are to be sent again", s.answer.first == lost_len);
        }
    }

    /* The reader takes all of it. */
    uint8_t arrived[ROOM];
    size_t count = 0;
    bool ended = false;
    while (vk_recv_buf_ready(r.buf)) {
        r = vk_recv_buf_emit(r.buf, recv_arena, ROOM, arrived + count, ROOM - count);
        expect("vk_recv_buf_emit", r.answer);
        count += (size_t)r.answer.first;
        ended = r.answer.second == 1;
    }
    printf("arrived: %.*s\n", (int)count, (const char *)arrived);

    check("the bytes are those that were written", count == size && memcmp(arrived, text, size) == 0);
    check("the reader was told the end", ended && vk_recv_buf_is_fin(r.buf));
    check("the sender's final size", s.buf.fin_off.known && s.buf.fin_off.value == size);
    check("the receiver's final size", r.buf.fin_off.known && r.buf.fin_off.value == size);
    check("the sender has nothing left", vk_send_buf_is_empty(s.buf) && vk_send_buf_buffered_bytes(s.buf) == 0);

    /* A second read finds nothing, and says so by its number. */
    r = vk_recv_buf_emit(r.buf, recv_arena, ROOM, arrived, ROOM);
    check("a second read is refused as done", r.answer.number == VK_DONE);
    printf("final size at both ends: %zu\n", size);
    return 0;
}
