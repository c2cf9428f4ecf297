/* cases.c: states overwritten by hand, and what an _is_good function must say of each.
 *
 * What it must say is written from `Good` in crates/NAME/specs/State.antt. Each case begins with a state that calls gave, changes a field or
 * two, and asks. `yes` are the edges: as far as a field may go.
 */
#define _DEFAULT_SOURCE
#include "testing.h"

static unsigned long asked;

static void told(const char *object, const char *change, bool says, bool must) {
    char what[200];
    asked++;
    snprintf(what, sizeof what, "%s, %s: is_good says %s", object, change, says ? "yes" : "no");
    expect(what, says == must);
}

/* One case: the state made by `base`, named x, after `change`. */
#define CASE(type, object, base, change, must) \
    do { \
        type x = base; \
        change; \
        told(#object, #change, vk_##object##_is_good(x), must); \
    } while (0)

/* ---- A chunk */

static vk_range_buf chunk(uint64_t off, uint64_t len, uint64_t pos) {
    vk_range_buf c;
    c.off = off;
    c.len = len;
    c.pos = pos;
    return c;
}

#define CHUNK(must, change) CASE(vk_range_buf, range_buf, vk_range_buf_from(5, 10).buf, change, must)

static void chunks(void) {
    CHUNK(true, (void)x);
    CHUNK(true, x.pos = 10);
    CHUNK(false, x.pos = 11);
    CHUNK(false, x.pos = UINT64_MAX);
    CHUNK(false, x.len = UINT64_MAX);
    CHUNK(true, x = chunk(0, 0, 0));
    CHUNK(true, x = chunk(VK_M, 0, 0));
    CHUNK(true, x = chunk(0, VK_M, VK_M));
    CHUNK(true, x = chunk(VK_M - 1, 1, 0));
    CHUNK(false, x = chunk(VK_M, 1, 0));
    CHUNK(false, x = chunk(1, VK_M, 0));
    CHUNK(false, x = chunk(VK_M + 1, 0, 0));
    CHUNK(false, x = chunk(UINT64_MAX, 1, 0));                             /* the sum wraps to 0 */
    CHUNK(false, x = chunk(UINT64_C(1) << 63, UINT64_C(1) << 63, 0)); /* so does this one */
}

/* ---- The window */

#define FLOW(must, change) CASE(vk_flow_control, flow_control, vk_flow_control_new(100, 40, 50).flow, change, must)

static void windows(void) {
    FLOW(true, (void)x);
    FLOW(true, memset(&x, 0, sizeof x));
    FLOW(true, x.consumed = VK_M);
    FLOW(false, x.consumed = VK_M + 1);
    FLOW(true, x.window = 50);
    FLOW(false, x.window = 51);
    FLOW(false, x.max_window = 39);
    FLOW(true, x.max_window = VK_M);
    FLOW(false, x.max_window = VK_M + 1);
    FLOW(true, x.max_data = 2 * VK_M);
    FLOW(false, x.max_data = 2 * VK_M + 1);
    FLOW(false, x.last_update.value = 1); /* a value beside "missing" */
    FLOW(true, x.last_update.known = true);
    FLOW(true, (x.last_update.known = true, x.last_update.value = UINT64_MAX));
    FLOW(false, poke(&x.last_update.known, 2));
    FLOW(false, (poke(&x.last_update.known, 255), x.last_update.value = 7));
}

/* ---- The range set */

/* The ranges 10..20, 30..40 in a set of capacity 4. */
static vk_range_set two_ranges(void) {
    vk_range_set s = vk_range_set_new(4).set;
    s = vk_range_set_insert(s, 10, 20).set;
    return vk_range_set_insert(s, 30, 40).set;
}

static void put(vk_range_set *s, size_t i, uint64_t start, uint64_t end) {
    s->inner[i].start = start;
    s->inner[i].end = end;
}

#define SET(must, change) CASE(vk_range_set, range_set, two_ranges(), change, must)

static void set_numbers(void) {
    SET(true, (void)x);
    SET(false, memset(&x, 0, sizeof x)); /* capacity 0 */
    SET(false, memset(&x, 255, sizeof x));
    SET(false, x.capacity = 0);
    SET(false, x.capacity = 1); /* it holds 2 */
    SET(true, x.capacity = 2);
    SET(true, x.capacity = 64);
    SET(false, x.capacity = 65);
    SET(false, x.capacity = SIZE_MAX);
    SET(false, x.count = 5); /* above its capacity */
    SET(false, x.count = 65);
    SET(false, (x.count = 65, x.capacity = 65));
    SET(false, x.count = 200);
    SET(false, x.count = SIZE_MAX);
    SET(false, x.count = 1); /* an unused place is not zero */
    SET(false, x.count = 3); /* 0..0 stands behind 30..40 */
}

static void set_ranges(void) {
    SET(false, put(&x, 2, 0, 1)); /* unused places that are not zero */
    SET(false, put(&x, 63, 1, 0));
    SET(true, put(&x, 1, 21, 40));
    SET(false, put(&x, 1, 20, 40)); /* they touch */
    SET(false, put(&x, 1, 15, 40)); /* they overlap */
    SET(false, put(&x, 1, 0, 5));   /* out of order */
    SET(false, put(&x, 1, 40, 30)); /* backwards */
    SET(false, put(&x, 0, 20, 10));
    SET(true, put(&x, 0, 10, 10)); /* an empty range may stand */
    SET(true, (put(&x, 0, 0, 0), put(&x, 1, 1, 1)));
    SET(false, (put(&x, 0, 0, 0), put(&x, 1, 0, 0)));
    SET(true, put(&x, 1, 30, UINT64_MAX));
    SET(true, put(&x, 1, UINT64_MAX, UINT64_MAX));
    SET(false, put(&x, 0, 10, UINT64_MAX));                             /* no number is above that end */
    SET(false, (put(&x, 0, 10, UINT64_MAX), put(&x, 1, 0, 0)));         /* nor 0, to which its successor wraps */
    SET(false, (put(&x, 0, 10, UINT64_MAX), put(&x, 1, 0, UINT64_MAX)));
}

/* ---- The send buffer */

/* Chunks 0..10, 7 bytes of it sent, and 10..15, in an arena of 100; 0..3 is acked. */
static vk_send_buf two_chunks(void) {
    static uint8_t arena[100];
    uint8_t out[7], in[10] = {0};
    vk_send_buf b = vk_send_buf_new(1000, arena, sizeof arena).buf;
    b = vk_send_buf_write(b, arena, sizeof arena, in, 10, false).buf;
    b = vk_send_buf_write(b, arena, sizeof arena, in, 5, false).buf;
    b = vk_send_buf_emit(b, arena, sizeof arena, out, sizeof out).buf;
    return vk_send_buf_ack(b, 0, 3).buf;
}

static void set_number(vk_number *n, uint8_t known, uint64_t value) {
    poke(&n->known, known);
    n->value = value;
}

/* All offsets higher by d, and the limit with them. */
static void shift_send(vk_send_buf *b, uint64_t d) {
    for (size_t i = 0; i < b->count; i++) b->data[i].off += d;
    b->off += d;
    b->emit_off += d;
    b->max_data = b->off;
}

#define SEND(must, change) CASE(vk_send_buf, send_buf, two_chunks(), change, must)

static void send_table(void) {
    SEND(true, (void)x);
    SEND(false, memset(&x, 0, sizeof x)); /* its acked set has capacity 0 */
    SEND(false, memset(&x, 255, sizeof x));
    SEND(false, x.count = 200);
    SEND(false, x.count = 65);
    SEND(false, x.count = SIZE_MAX);
    SEND(false, x.count = 1); /* an unused place is not zero */
    SEND(false, x.count = 3); /* an empty chunk */
    SEND(false, x.data[2].off = 15);
    SEND(false, x.data[63].pos = 1);
    SEND(false, x.data[1].off = 11); /* a gap */
    SEND(false, x.data[1].off = 9);  /* an overlap */
    SEND(false, x.data[1].len = 6);  /* ends above off */
    SEND(false, x.data[1].len = 0);
    SEND(false, x.data[0].pos = 11); /* consumed past its end */
    SEND(true, shift_send(&x, VK_M - 15));
    SEND(false, shift_send(&x, VK_M - 14)); /* a chunk past M */
    SEND(false, shift_send(&x, UINT64_MAX - 14));
}

static void send_numbers(void) {
    SEND(false, x.off = 14);
    SEND(false, x.off = 16);
    SEND(false, x.emit_off = 6); /* a consumed byte was never sent */
    SEND(true, x.emit_off = 15);
    SEND(false, x.emit_off = 16);     /* above off */
    SEND(false, x.buffered_bytes = 7);
    SEND(false, x.buffered_bytes = 9);
    SEND(true, x.max_data = 15);
    SEND(false, x.max_data = 14); /* below off */
    SEND(true, x.max_data = VK_M);
    SEND(false, x.max_data = VK_M + 1);
    SEND(false, x.pos = 1); /* the first chunk has bytes to send */
    SEND(true, (x.data[0].pos = 10, x.emit_off = 10, x.buffered_bytes = 5, x.pos = 1));
    SEND(false, x.pos = 3);
    SEND(false, (x.data[0].off = 8, x.data[0].len = 2, x.data[0].pos = 0, x.buffered_bytes = 7)); /* begins above what was sent */
    SEND(false, x.arena_len = 65537);
    SEND(true, x.arena_len = 65536);
    SEND(true, x.arena_len = 15);
    SEND(false, x.arena_len = 14); /* the chunks have 15 */
    SEND(false, x.arena_len = 0);
}

static void send_flags(void) {
    SEND(true, set_number(&x.fin_off, 1, 15));
    SEND(false, set_number(&x.fin_off, 1, 14));
    SEND(false, set_number(&x.fin_off, 1, 16));
    SEND(false, set_number(&x.fin_off, 0, 15));
    SEND(false, set_number(&x.fin_off, 2, 15));
    SEND(true, set_number(&x.blocked_at, 1, UINT64_MAX));
    SEND(false, set_number(&x.blocked_at, 0, 1));
    SEND(false, set_number(&x.blocked_at, 3, 0));
    SEND(true, set_number(&x.error, 1, 0));
    SEND(false, set_number(&x.error, 0, 7));
    SEND(false, set_number(&x.error, 128, 7));
    SEND(true, poke(&x.shutdown, 1));
    SEND(false, poke(&x.shutdown, 2));
    SEND(false, poke(&x.shutdown, 255));
}

static void send_acked(void) {
    SEND(true, put(&x.acked, 0, 0, 7));
    SEND(false, put(&x.acked, 0, 0, 8)); /* never sent */
    SEND(false, x.acked.capacity = 63);
    SEND(false, x.acked.capacity = 65);
    SEND(false, x.acked.count = 0); /* an unused place is not zero */
    SEND(false, x.acked.count = 65);
    SEND(false, (x.acked.count = 2, put(&x.acked, 1, 3, 5))); /* they touch */
    SEND(true, (x.acked.count = 2, put(&x.acked, 1, 4, 5)));
    SEND(false, put(&x.acked, 1, 4, 5)); /* not counted */
}

/* ---- The receive buffer */

/* Chunks 0..10, 4 bytes of it handed out, and 20..25, in an arena of 64. */
static vk_recv_buf two_runs(void) {
    static uint8_t arena[64];
    uint8_t out[4], in[10] = {0};
    vk_recv_buf b = vk_recv_buf_new(100, 100, arena, sizeof arena).buf;
    b = vk_recv_buf_write(b, arena, sizeof arena, 0, in, 10, false).buf;
    b = vk_recv_buf_write(b, arena, sizeof arena, 20, in, 5, false).buf;
    return vk_recv_buf_emit(b, arena, sizeof arena, out, sizeof out).buf;
}

/* All offsets higher by d. */
static void shift_recv(vk_recv_buf *b, uint64_t d) {
    for (size_t i = 0; i < b->count; i++) b->data[i].off += d;
    b->off += d;
    b->len += d;
}

#define RECV(must, change) CASE(vk_recv_buf, recv_buf, two_runs(), change, must)

static void recv_table(void) {
    RECV(true, (void)x);
    RECV(true, memset(&x, 0, sizeof x)); /* what a refused creation leaves: it refuses every arena */
    RECV(false, memset(&x, 255, sizeof x));
    RECV(false, x.count = 200);
    RECV(false, x.count = 65);
    RECV(false, x.count = SIZE_MAX);
    RECV(false, x.count = 1); /* an unused place is not zero */
    RECV(false, x.count = 3); /* 0..0 stands behind 20..25 */
    RECV(false, x.data[2].len = 1);
    RECV(false, x.data[63].pos = 1);
    RECV(true, x.data[1].off = 10); /* they may adjoin */
    RECV(false, x.data[1].off = 9); /* they overlap */
    RECV(false, x.data[1].len = 6); /* ends above the highest end */
    RECV(true, x.data[1].pos = 5);
    RECV(false, x.data[1].pos = 6); /* consumed past its end */
    RECV(true, x.data[1].len = 0);  /* an empty chunk may stand */
    RECV(false, x.data[0].pos = 3); /* begins below what was handed out */
    RECV(false, x.data[1].off = UINT64_MAX - 2);
    RECV(true, shift_recv(&x, VK_M - 25));
    RECV(false, shift_recv(&x, VK_M - 24)); /* a chunk past M */
    RECV(false, shift_recv(&x, UINT64_MAX - 24));
}

static void recv_numbers(void) {
    RECV(true, x.off = 3);
    RECV(false, x.off = 5);
    RECV(false, x.off = 26);
    RECV(false, x.len = 24);
    RECV(true, x.len = 26);
    RECV(true, x.len = VK_M);
    RECV(false, x.len = VK_M + 1);
    RECV(false, x.arena_len = 65537);
    RECV(true, x.arena_len = 65536);
    RECV(true, x.arena_len = 21);
    RECV(false, x.arena_len = 20); /* the last byte kept is 21 above what was handed out */
    RECV(true, (x.arena_len = 6, x.data[1].pos = 5)); /* a chunk without bytes needs no room */
    RECV(false, (x.arena_len = 5, x.data[1].pos = 5));
    RECV(true, x.flow_control.consumed = VK_M);
    RECV(false, x.flow_control.consumed = VK_M + 1);
    RECV(false, x.flow_control.window = 101);
    RECV(false, x.flow_control.max_window = VK_M + 1);
    RECV(false, x.flow_control.max_data = 2 * VK_M + 1);
}

static void recv_flags(void) {
    RECV(true, set_number(&x.fin_off, 1, 25));
    RECV(false, set_number(&x.fin_off, 1, 24));
    RECV(false, set_number(&x.fin_off, 1, 26));
    RECV(false, set_number(&x.fin_off, 0, 25));
    RECV(false, set_number(&x.fin_off, 2, 25));
    RECV(true, set_number(&x.error, 1, UINT64_MAX));
    RECV(false, set_number(&x.error, 0, 1));
    RECV(false, set_number(&x.error, 2, 0));
    RECV(true, set_number(&x.flow_control.last_update, 1, 9));
    RECV(false, set_number(&x.flow_control.last_update, 0, 9));
    RECV(false, set_number(&x.flow_control.last_update, 2, 9));
    RECV(false, poke(&x.drain, 1)); /* shut down, and it keeps chunks */
    RECV(true, x = vk_recv_buf_shutdown(x).buf);
    RECV(false, (x = vk_recv_buf_shutdown(x).buf, x.off--)); /* shut down, and not all is handed out */
    RECV(true, (x = vk_recv_buf_shutdown(x).buf, poke(&x.drain, 0)));
    RECV(false, (x = vk_recv_buf_shutdown(x).buf, poke(&x.drain, 2)));
}

int main(void) {
    chunks();
    windows();
    set_numbers();
    set_ranges();
    send_table();
    send_numbers();
    send_flags();
    send_acked();
    recv_table();
    recv_numbers();
    recv_flags();
    printf("cases: %lu states by hand, %lu wrong\n", asked, wrongs);
    return wrongs != 0;
}
