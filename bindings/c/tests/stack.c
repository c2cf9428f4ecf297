/* stack.c: how much of the stack each function takes, and that the most of it keeps within VK_STACK.
 *
 *     stack            the most
 *     stack all        each function, and the most
 *
 * A call is made on a thread whose stack was painted before; what is overwritten below the caller is what it took. The states that go in and
 * come back, which lie there too, are counted. Random calls give the states; each function is tried in some hundreds of them, and the most
 * counts. Now and then a send buffer is given 64 chunks, so that a write and a loss join them. To be compiled with -O2 -pthread and without a sanitizer, and linked with -z now, so that finding memcpy takes no stack.
 */
#define _DEFAULT_SOURCE
#include <pthread.h>

#include "testing.h"

#define STEPS 40000
#define DEEP (128 * 1024) /* of the thread's stack */
#define PAINT UINT64_C(0x5ca1ab1e0ddba115)

/* What the calls below take and give: the five states, bytes, and numbers that are chosen anew for each call. */
static vk_range_buf c;
static vk_flow_control f;
static vk_range_set t;
static vk_send_buf s;
static vk_recv_buf r;
static uint8_t arena[2][ROOM], bytes[ROOM];
static uint64_t a, b, at, len;
static size_t n, i;
static bool flag;
static volatile uint64_t sink;

/* Each function, and a call of it. */
#define CALLS(X) \
    X(vk_range_buf_from, c = vk_range_buf_from(a, len).buf) \
    X(vk_range_buf_off, sink = vk_range_buf_off(c)) \
    X(vk_range_buf_max_off, sink = vk_range_buf_max_off(c)) \
    X(vk_range_buf_len, sink = vk_range_buf_len(c)) \
    X(vk_range_buf_is_empty, sink = vk_range_buf_is_empty(c)) \
    X(vk_range_buf_consume, c = vk_range_buf_consume(c, len).buf) \
    X(vk_range_buf_split_off, c = vk_range_buf_split_off(c, len).right) \
    X(vk_range_buf_is_good, sink = vk_range_buf_is_good(c)) \
    X(vk_flow_control_new, f = vk_flow_control_new(a, b, len).flow) \
    X(vk_flow_control_window, sink = vk_flow_control_window(f)) \
    X(vk_flow_control_max_data, sink = vk_flow_control_max_data(f)) \
    X(vk_flow_control_add_consumed, f = vk_flow_control_add_consumed(f, a).flow) \
    X(vk_flow_control_should_update_max_data, sink = vk_flow_control_should_update_max_data(f)) \
    X(vk_flow_control_max_data_next, sink = vk_flow_control_max_data_next(f)) \
    X(vk_flow_control_update_max_data, f = vk_flow_control_update_max_data(f, a)) \
    X(vk_flow_control_autotune_window, f = vk_flow_control_autotune_window(f, a, b)) \
    X(vk_flow_control_ensure_window_lower_bound, f = vk_flow_control_ensure_window_lower_bound(f, a).flow) \
    X(vk_flow_control_is_good, sink = vk_flow_control_is_good(f)) \
    X(vk_range_set_new, t = vk_range_set_new(64 - i % 4).set) \
    X(vk_range_set_len, sink = vk_range_set_len(t)) \
    X(vk_range_set_contains, sink = vk_range_set_contains(t, a)) \
    X(vk_range_set_get, sink = vk_range_set_get(t, i).range.start) \
    X(vk_range_set_last, sink = vk_range_set_last(t).value) \
    X(vk_range_set_eq, sink = vk_range_set_eq(t, a, b)) \
    X(vk_range_set_insert, t = vk_range_set_insert(t, a, a + len).set) \
    X(vk_range_set_try_insert, t = vk_range_set_try_insert(t, a, a + len).set) \
    X(vk_range_set_push_item, t = vk_range_set_push_item(t, a).set) \
    X(vk_range_set_remove_until, t = vk_range_set_remove_until(t, len)) \
    X(vk_range_set_is_good, sink = vk_range_set_is_good(t)) \
    X(vk_send_buf_new, s = vk_send_buf_new(VK_M, arena[0], ROOM).buf) \
    X(vk_send_buf_write, s = vk_send_buf_write(s, arena[0], ROOM, bytes, n, flag).buf) \
    X(vk_send_buf_emit, s = vk_send_buf_emit(s, arena[0], ROOM, bytes, n).buf) \
    X(vk_send_buf_update_max_data, s = vk_send_buf_update_max_data(s, a).buf) \
    X(vk_send_buf_update_blocked_at, s = vk_send_buf_update_blocked_at(s, flag, a)) \
    X(vk_send_buf_blocked_at, sink = vk_send_buf_blocked_at(s).value) \
    X(vk_send_buf_ack, s = vk_send_buf_ack(s, at, len).buf) \
    X(vk_send_buf_ack_and_drop, s = vk_send_buf_ack_and_drop(s, at, len).buf) \
    X(vk_send_buf_retransmit, s = vk_send_buf_retransmit(s, at, len).buf) \
    X(vk_send_buf_reset, s = vk_send_buf_reset(s).buf) \
    X(vk_send_buf_stop, s = vk_send_buf_stop(s, a).buf) \
    X(vk_send_buf_shutdown, s = vk_send_buf_shutdown(s).buf) \
    X(vk_send_buf_off_back, sink = vk_send_buf_off_back(s)) \
    X(vk_send_buf_off_front, sink = vk_send_buf_off_front(s)) \
    X(vk_send_buf_max_off, sink = vk_send_buf_max_off(s)) \
    X(vk_send_buf_is_fin, sink = vk_send_buf_is_fin(s)) \
    X(vk_send_buf_is_complete, sink = vk_send_buf_is_complete(s)) \
    X(vk_send_buf_is_stopped, sink = vk_send_buf_is_stopped(s)) \
    X(vk_send_buf_is_shutdown, sink = vk_send_buf_is_shutdown(s)) \
    X(vk_send_buf_is_empty, sink = vk_send_buf_is_empty(s)) \
    X(vk_send_buf_ack_off, sink = vk_send_buf_ack_off(s)) \
    X(vk_send_buf_cap, sink = vk_send_buf_cap(s).first) \
    X(vk_send_buf_bufs_count, sink = vk_send_buf_bufs_count(s)) \
    X(vk_send_buf_buffered_bytes, sink = vk_send_buf_buffered_bytes(s)) \
    X(vk_send_buf_is_good, sink = vk_send_buf_is_good(s)) \
    X(vk_recv_buf_new, r = vk_recv_buf_new(VK_M, VK_M, arena[1], ROOM).buf) \
    X(vk_recv_buf_write, r = vk_recv_buf_write(r, arena[1], ROOM, at, bytes, n, flag).buf) \
    X(vk_recv_buf_emit, r = vk_recv_buf_emit(r, arena[1], ROOM, bytes, n).buf) \
    X(vk_recv_buf_discard, r = vk_recv_buf_discard(r, len).buf) \
    X(vk_recv_buf_reset, r = vk_recv_buf_reset(r, a, flag ? r.len : at).buf) \
    X(vk_recv_buf_shutdown, r = vk_recv_buf_shutdown(r).buf) \
    X(vk_recv_buf_update_max_data, r = vk_recv_buf_update_max_data(r, a)) \
    X(vk_recv_buf_max_data_next, sink = vk_recv_buf_max_data_next(r)) \
    X(vk_recv_buf_max_data, sink = vk_recv_buf_max_data(r)) \
    X(vk_recv_buf_window, sink = vk_recv_buf_window(r)) \
    X(vk_recv_buf_autotune_window, r = vk_recv_buf_autotune_window(r, a, b)) \
    X(vk_recv_buf_off_front, sink = vk_recv_buf_off_front(r)) \
    X(vk_recv_buf_almost_full, sink = vk_recv_buf_almost_full(r)) \
    X(vk_recv_buf_max_off, sink = vk_recv_buf_max_off(r)) \
    X(vk_recv_buf_is_fin, sink = vk_recv_buf_is_fin(r)) \
    X(vk_recv_buf_is_draining, sink = vk_recv_buf_is_draining(r)) \
    X(vk_recv_buf_ready, sink = vk_recv_buf_ready(r)) \
    X(vk_recv_buf_readable_len, sink = vk_recv_buf_readable_len(r, len)) \
    X(vk_recv_buf_flow_control, f = vk_recv_buf_flow_control(r)) \
    X(vk_recv_buf_set_flow_control, r = vk_recv_buf_set_flow_control(r, f)) \
    X(vk_recv_buf_is_good, sink = vk_recv_buf_is_good(r))

#define CALLER(name, call) static void call_##name(void) { call; }
CALLS(CALLER)

typedef struct row {
    const char *name;
    void (*call)(void);
    size_t most;
} row;

#define ROW(name, call) {#name, call_##name, 0},
static row rows[] = {CALLS(ROW)};
#define ROWS (sizeof rows / sizeof *rows)

/* Calls that end a stream, or begin a state anew: made seldom, so that states grow. */
static bool is_seldom(const char *name) {
    static const char *const ends[] = {"_new", "_from", "_reset", "_stop", "_shutdown", "_split_off"};
    for (size_t k = 0; k < sizeof ends / sizeof *ends; k++)
        if (strlen(name) > strlen(ends[k]) && strcmp(name + strlen(name) - strlen(ends[k]), ends[k]) == 0) return true;
    return false;
}

/* ---- The painted thread */

static uint64_t *stack;   /* its lowest word */
static uintptr_t caller; /* where the caller of a call stands in it */

static void *on_thread(void *which) {
    uint64_t here = 0;
    caller = (uintptr_t)&here;
    ((row *)which)->call();
    return NULL;
}

static void measure(row *which, pthread_attr_t *attr) {
    pthread_t thread;
    size_t low = 0;
    for (size_t k = 0; k < DEEP / 8; k++) stack[k] = PAINT;
    if (pthread_create(&thread, attr, on_thread, which) != 0 || pthread_join(thread, NULL) != 0) {
        perror("a thread");
        exit(2);
    }
    while (stack[low] == PAINT) low++;
    size_t took = caller - (uintptr_t)&stack[low];
    if (took > which->most) which->most = took;
}

static void choose(void) {
    a = number();
    b = number();
    len = below(300);
    at = below(2) ? below(s.off + 2) : r.off + below(3000);
    n = (size_t)below(below(20) ? 300 : ROOM + 1);
    i = (size_t)below(64);
    flag = below(200) == 0;
}

/* A send buffer with 64 chunks, all sent: the next write joins them, and so does a loss that ends inside one. */
static void crowd(void) {
    call_vk_send_buf_new();
    for (int k = 0; k < 64; k++) s = vk_send_buf_write(s, arena[0], ROOM, bytes, 300, false).buf;
    s = vk_send_buf_emit(s, arena[0], ROOM, bytes, ROOM).buf;
}

int main(int argc, char **argv) {
    bool all = argc > 1 && strcmp(argv[1], "all") == 0;
    pthread_attr_t attr;
    const row *most = rows;
    stack = (uint64_t *)aligned_alloc(4096, DEEP);
    if (!stack || pthread_attr_init(&attr) != 0 || pthread_attr_setstack(&attr, stack, DEEP) != 0) exit(2);
    call_vk_range_set_new();
    call_vk_send_buf_new();
    call_vk_recv_buf_new();
    for (int k = 0; k < STEPS; k++) {
        row *which = &rows[below(ROWS)];
        if (k % 200 == 0) crowd();
        choose();
        if (!is_seldom(which->name) || below(8) == 0) measure(which, &attr);
    }
    for (size_t k = 0; k < ROWS; k++) {
        if (all) printf("    %-44s %6zu\n", rows[k].name, rows[k].most);
        if (rows[k].most > most->most) most = &rows[k];
    }
    expect("no call takes more than VK_STACK", most->most <= VK_STACK);
    printf("stack: %zu functions, the most is %zu bytes (%s), within %d\n", ROWS, most->most, most->name, VK_STACK);
    return wrongs != 0;
}
