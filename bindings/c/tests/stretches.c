/* stretches.c: the compiled copy between a caller's bytes and the ring, over every cut into stretches.
 *
 * For each arena of 1 to 80 bytes and some longer ones, from each place on (of the longer ones: near both ends and in the middle), for each
 * number of bytes that fits (likewise): the byte of stream offset o must lie at place o mod A (docs/RULES.md, 1.3), and no other place may
 * change; what is handed out must be those bytes, and nothing before or behind it may change. The proofs are about the code; this is about the
 * vector code that the compiler makes of it.
 */
#define _DEFAULT_SOURCE
#include "testing.h"

#define SMALL 80
#define UNTOUCHED 0xee

static uint8_t *arena_end, *out_end; /* guarded */
static uint8_t input[ROOM], expected[ROOM];
static unsigned long copies;

/* Memory of len bytes that ends at a guard, all untouched. */
static uint8_t *fresh(uint8_t *end, size_t len) {
    return (uint8_t *)memset(end - len, UNTOUCHED, len);
}

static void same(const char *what, const uint8_t *got, size_t A, size_t from, size_t n) {
    char text[100];
    snprintf(text, sizeof text, "%s: %zu bytes from offset %zu on, an arena of %zu", what, n, from, A);
    copies++;
    expect(text, memcmp(got, expected, A) == 0);
}

/* The arena once the first n bytes of the input are kept from offset `from` on, by the rule. */
static void by_the_rule(size_t A, size_t from, size_t n) {
    memset(expected, UNTOUCHED, A);
    for (size_t k = 0; k < n; k++) expected[(from + k) % A] = input[k];
}

/* An output of A bytes with the first n bytes of the input at its end. */
static void at_the_end(size_t A, size_t n) {
    memset(expected, UNTOUCHED, A);
    memcpy(expected + (A - n), input, n);
}

/* n bytes through a send buffer whose next offset is `from`. */
static void sent(vk_send_buf s, size_t A, size_t from, size_t n) {
    uint8_t *arena = fresh(arena_end, A), *out = fresh(out_end, A);
    s = vk_send_buf_write(s, arena, A, input, n, false).buf;
    by_the_rule(A, from, n);
    same("written", arena, A, from, n);
    vk_send_buf_emit(s, arena, A, out + (A - n), n);
    at_the_end(A, n);
    same("emitted", out, A, from, n);
}

/* The same through a receive buffer. */
static void received(vk_recv_buf r, size_t A, size_t from, size_t n) {
    uint8_t *arena = fresh(arena_end, A), *out = fresh(out_end, A);
    r = vk_recv_buf_write(r, arena, A, from, input, n, false).buf;
    by_the_rule(A, from, n);
    same("received", arena, A, from, n);
    vk_recv_buf_emit(r, arena, A, out + (A - n), n);
    at_the_end(A, n);
    same("handed out", out, A, from, n);
}

/* Each number of bytes, from offset `from` on: the bytes before it have come and gone. */
static void from_place(size_t A, size_t from) {
    uint8_t *arena = fresh(arena_end, A), *out = fresh(out_end, A);
    vk_send_buf s = vk_send_buf_write(vk_send_buf_new(VK_M, arena, A).buf, arena, A, input, from, false).buf;
    s = vk_send_buf_ack_and_drop(vk_send_buf_emit(s, arena, A, out, from).buf, 0, from).buf;
    vk_recv_buf r = vk_recv_buf_write(vk_recv_buf_new(VK_M, VK_M, arena, A).buf, arena, A, 0, input, from, false).buf;
    r = vk_recv_buf_emit(r, arena, A, out, from).buf;
    for (size_t n = 0; n <= A; n++) {
        if (n > SMALL && n < A - 3 && n % 509 != 0) continue;
        sent(s, A, from, n);
        received(r, A, from, n);
    }
}

static void arena_of(size_t A) {
    size_t near = A <= 256 ? 33 : 2;
    for (size_t from = 0; from < A; from++) {
        if (A > SMALL && from >= near && from != A / 2 && from < A - near) continue;
        from_place(A, from);
    }
}

int main(void) {
    static const size_t longer[] = {127, 128, 129, 255, 1200, 4095, 4097, ROOM};
    arena_end = guarded();
    out_end = guarded();
    for (size_t k = 0; k < ROOM; k++) input[k] = (uint8_t)(rnd() % UNTOUCHED); /* never UNTOUCHED */
    for (size_t A = 1; A <= SMALL; A++) arena_of(A);
    for (size_t i = 0; i < sizeof longer / sizeof *longer; i++) arena_of(longer[i]);
    printf("stretches: %lu arenas and outputs compared; %lu wrong\n", copies, wrongs);
    return wrongs != 0;
}
