/* nulls.c: NULL with length 0, to every call that takes a pointer, as arena, as input and as output.
 *
 * Each answer must be the one that docs/RULES.md gives for no bytes: 1 for creation, 4.2 and 7.2 for a write, 4.3 and 7.3 for an emit. The
 * library's calls of memcpy, memmove and memset come to the functions below (the linker's --wrap), which want pointers that are not NULL, also for
 * no bytes: C gives such a call no meaning. It makes none of memmove today.
 */
#define _DEFAULT_SOURCE
#include <inttypes.h>

#include "testing.h"

#define LEN 64 /* of each arena */

static unsigned long copies;

#ifdef __cplusplus
extern "C" {
#endif
void *__real_memcpy(void *to, const void *from, size_t len);
void *__real_memmove(void *to, const void *from, size_t len);
void *__real_memset(void *at, int byte, size_t len);

void *__wrap_memcpy(void *to, const void *from, size_t len);
void *__wrap_memcpy(void *to, const void *from, size_t len) {
    copies++;
    expect("memcpy is given pointers", to != NULL && from != NULL);
    return __real_memcpy(to, from, len);
}

void *__wrap_memmove(void *to, const void *from, size_t len);
void *__wrap_memmove(void *to, const void *from, size_t len) {
    copies++;
    expect("memmove is given pointers", to != NULL && from != NULL);
    return __real_memmove(to, from, len);
}

void *__wrap_memset(void *at, int byte, size_t len);
void *__wrap_memset(void *at, int byte, size_t len) {
    copies++;
    expect("memset is given a pointer", at != NULL);
    return __real_memset(at, byte, len);
}
#ifdef __cplusplus
}
#endif

static unsigned long asked;

static void told(const char *what, vk_answer a, uint64_t number, uint64_t first, uint64_t second) {
    char text[200];
    asked++;
    snprintf(text, sizeof text, "%s: %" PRIu64 " (%" PRIu64 ", %" PRIu64 ")", what, a.number, a.first, a.second);
    expect(text, a.number == number && a.first == first && a.second == second);
}

static void creation(void) {
    told("a send buffer over no arena", vk_send_buf_new(100, NULL, 0).answer, VK_BAD_SETUP, 0, 0);
    told("a receive buffer over no arena", vk_recv_buf_new(100, 100, NULL, 0).answer, VK_BAD_SETUP, 0, 0);
}

/* What a refused creation leaves is for an arena of no bytes, and refuses that too. */
static void dead(void) {
    vk_send_buf s = vk_send_buf_new(100, NULL, 0).buf;
    vk_recv_buf r = vk_recv_buf_new(100, 100, NULL, 0).buf;
    told("write to a dead send buffer", vk_send_buf_write(s, NULL, 0, NULL, 0, true).answer, VK_BAD_SETUP, 0, 0);
    told("emit of a dead send buffer", vk_send_buf_emit(s, NULL, 0, NULL, 0).answer, VK_BAD_SETUP, 0, 0);
    told("write to a dead receive buffer", vk_recv_buf_write(r, NULL, 0, 0, NULL, 0, true).answer, VK_BAD_SETUP, 0, 0);
    told("emit of a dead receive buffer", vk_recv_buf_emit(r, NULL, 0, NULL, 0).answer, VK_BAD_SETUP, 0, 0);
}

/* A send buffer with bytes in it, closed by a write of no bytes. */
static void sending(void) {
    uint8_t arena[LEN] = {0}, out[LEN] = {0};
    vk_send_buf_out s = vk_send_buf_new(100, arena, LEN);
    told("an unmarked write of no bytes", (s = vk_send_buf_write(s.buf, arena, LEN, NULL, 0, false)).answer, VK_OK, 0, 0);
    told("an emit of nothing into nothing", (s = vk_send_buf_emit(s.buf, arena, LEN, NULL, 0)).answer, VK_OK, 0, 0);
    told("a write", (s = vk_send_buf_write(s.buf, arena, LEN, (const uint8_t *)"abc", 3, false)).answer, VK_OK, 3, 0);
    told("a write with another arena", vk_send_buf_write(s.buf, NULL, 0, NULL, 0, true).answer, VK_BAD_SETUP, 0, 0);
    told("a write with another arena", vk_send_buf_write(s.buf, NULL, 0, arena, 1, true).answer, VK_BAD_SETUP, 0, 0);
    told("the closing write", (s = vk_send_buf_write(s.buf, arena, LEN, NULL, 0, true)).answer, VK_OK, 0, 0);
    expect("the closing write is kept", vk_send_buf_is_fin(s.buf));
    told("an emit with another arena", vk_send_buf_emit(s.buf, NULL, 0, out, LEN).answer, VK_BAD_SETUP, 0, 0);
    told("an emit into nothing", (s = vk_send_buf_emit(s.buf, arena, LEN, NULL, 0)).answer, VK_OK, 0, 0);
    told("an emit", (s = vk_send_buf_emit(s.buf, arena, LEN, out, LEN)).answer, VK_OK, 3, 1);
    expect("the bytes", memcmp(out, "abc", 3) == 0);
    told("the end alone, into nothing", (s = vk_send_buf_emit(s.buf, arena, LEN, NULL, 0)).answer, VK_OK, 0, 1);
    expect("the state is good", vk_send_buf_is_good(s.buf));
}

/* A receive buffer that is given the end alone, before its bytes. */
static void receiving(void) {
    uint8_t arena[LEN] = {0}, out[LEN] = {0};
    vk_recv_buf_out r = vk_recv_buf_new(100, 100, arena, LEN);
    told("a frame of nothing", (r = vk_recv_buf_write(r.buf, arena, LEN, 0, NULL, 0, false)).answer, VK_OK, 0, 0);
    told("nothing is ready", (r = vk_recv_buf_emit(r.buf, arena, LEN, NULL, 0)).answer, VK_DONE, 0, 0);
    told("the end alone", (r = vk_recv_buf_write(r.buf, arena, LEN, 3, NULL, 0, true)).answer, VK_OK, 0, 0);
    told("a frame with another arena", vk_recv_buf_write(r.buf, NULL, 0, 0, out, 3, false).answer, VK_BAD_SETUP, 0, 0);
    told("a frame with another arena", vk_recv_buf_write(r.buf, NULL, 0, 3, NULL, 0, true).answer, VK_BAD_SETUP, 0, 0);
    told("its bytes", (r = vk_recv_buf_write(r.buf, arena, LEN, 0, (const uint8_t *)"abc", 3, false)).answer, VK_OK, 0, 0);
    told("an emit with another arena", vk_recv_buf_emit(r.buf, NULL, 0, out, LEN).answer, VK_BAD_SETUP, 0, 0);
    told("an emit into nothing", (r = vk_recv_buf_emit(r.buf, arena, LEN, NULL, 0)).answer, VK_OK, 0, 0);
    told("an emit", (r = vk_recv_buf_emit(r.buf, arena, LEN, out, LEN)).answer, VK_OK, 3, 1);
    expect("the bytes", memcmp(out, "abc", 3) == 0);
    expect("everything is read", vk_recv_buf_is_fin(r.buf));
    expect("the state is good", vk_recv_buf_is_good(r.buf));
}

/* A stream of no bytes: its end is all there is. */
static void no_bytes_at_all(void) {
    uint8_t arena[LEN] = {0};
    vk_send_buf s = vk_send_buf_new(0, arena, LEN).buf;
    vk_recv_buf r = vk_recv_buf_new(0, 0, arena, LEN).buf;
    told("the closing write", vk_send_buf_write(s, arena, LEN, NULL, 0, true).answer, VK_OK, 0, 0);
    s = vk_send_buf_write(s, arena, LEN, NULL, 0, true).buf;
    told("its frame", vk_send_buf_emit(s, arena, LEN, NULL, 0).answer, VK_OK, 0, 1);
    r = vk_recv_buf_write(r, arena, LEN, 0, NULL, 0, true).buf;
    told("the end is told", vk_recv_buf_emit(r, arena, LEN, NULL, 0).answer, VK_OK, 0, 1);
    r = vk_recv_buf_reset(r, 7, 0).buf;
    told("a reset is told", vk_recv_buf_emit(r, arena, LEN, NULL, 0).answer, VK_RESET, 7, 0);
}

int main(void) {
    creation();
    dead();
    sending();
    receiving();
    no_bytes_at_all();
    printf("nulls: %lu answers, with NULL and 0 in every place; %lu copies within them, none of NULL; %lu wrong\n", asked, copies, wrongs);
    return wrongs != 0;
}
