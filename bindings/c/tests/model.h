/* model.h: when a state is good, in plain C, from `Good` in crates/NAME/specs/State.antt. It is there to hold the library's _is_good functions
 * against: it was written from those definitions and from nothing of the library.
 */
#ifndef MODEL_H
#define MODEL_H

#include "testing.h"

/* A flag is 0 or 1. */
static inline bool is_flag(const bool *flag) { return peek(flag) <= 1; }

/* The value of a missing number is 0. */
static inline bool is_number(const vk_number *n) { return is_flag(&n->known) && (peek(&n->known) == 1 || n->value == 0); }

/* It is missing, or it is this one. */
static inline bool is_only(const vk_number *n, uint64_t value) { return peek(&n->known) == 0 || n->value == value; }

/* ---- range_buf */

static inline bool good_chunk(const vk_range_buf *c) { return c->pos <= c->len && c->off <= VK_M && c->len <= VK_M - c->off; }

/* ---- flowcontrol */

static inline bool good_flow(const vk_flow_control *f) {
    return f->consumed <= VK_M && f->window <= f->max_window && f->max_window <= VK_M && f->max_data <= 2 * VK_M && is_number(&f->last_update);
}

/* ---- ranges */

/* Sorted, never touching: each starts above the end of the one before it. */
static inline bool is_sorted(const vk_range *r, size_t count) {
    for (size_t i = 0; i < count; i++)
        if (r[i].start > r[i].end || (i > 0 && r[i].start <= r[i - 1].end)) return false;
    return true;
}

static inline bool good_set(const vk_range_set *s) {
    if (s->capacity < 1 || s->capacity > VK_PLACES || s->count > s->capacity) return false;
    for (size_t i = s->count; i < VK_PLACES; i++)
        if (s->inner[i].start != 0 || s->inner[i].end != 0) return false;
    return is_sorted(s->inner, s->count);
}

/* ---- The two buffers: a table of chunks */

/* The first count of 64 places are in use, by chunks that end at or below M; the others are zero. */
static inline bool is_table(const vk_range_buf *data, size_t count) {
    if (count > VK_PLACES) return false;
    for (size_t i = 0; i < VK_PLACES; i++) {
        if (i < count && !good_chunk(&data[i])) return false;
        if (i >= count && (data[i].off != 0 || data[i].len != 0 || data[i].pos != 0)) return false;
    }
    return true;
}

/* ---- send_buf */

/* The chunks adjoin up to off, none empty; those before the send position are spent; what is consumed was sent; the rest is counted. */
static inline bool are_sent(const vk_send_buf *b) {
    uint64_t end = b->count ? b->data[0].off : b->off, left = 0;
    if (end > b->emit_off || b->off - end > b->arena_len) return false;
    for (size_t i = 0; i < b->count; i++) {
        const vk_range_buf *c = &b->data[i];
        if (c->off != end || c->len == 0) return false;
        if (i < b->pos && c->pos != c->len) return false;
        if (c->pos > 0 && c->off + c->pos > b->emit_off) return false;
        end += c->len;
        left += c->len - c->pos;
    }
    return end == b->off && left == b->buffered_bytes;
}

/* The acked ranges: of bytes that were sent, in a set of capacity 64. */
static inline bool are_acked(const vk_send_buf *b) {
    return good_set(&b->acked) && b->acked.capacity == VK_PLACES && (b->acked.count == 0 || b->acked.inner[b->acked.count - 1].end <= b->emit_off);
}

static inline bool good_send(const vk_send_buf *b) {
    return is_number(&b->blocked_at) && is_number(&b->fin_off) && is_number(&b->error) && is_flag(&b->shutdown) && is_table(b->data, b->count) &&
           b->arena_len <= ROOM && b->emit_off <= b->off && b->off <= b->max_data && b->max_data <= VK_M && is_only(&b->fin_off, b->off) &&
           b->pos <= b->count && are_acked(b) && are_sent(b);
}

/* ---- recv_buf */

/* The chunks are sorted and apart, from off on and up to len; those with bytes end within an arena's length above off. */
static inline bool are_kept(const vk_recv_buf *b) {
    uint64_t low = b->off;
    for (size_t i = 0; i < b->count; i++) {
        const vk_range_buf *c = &b->data[i];
        uint64_t start = c->off + c->pos, end = c->off + c->len;
        if (start < low || end > b->len || (start < end && end > b->off + b->arena_len)) return false;
        low = end;
    }
    return true;
}

static inline bool good_recv(const vk_recv_buf *b) {
    return is_number(&b->fin_off) && is_number(&b->error) && is_flag(&b->drain) && good_flow(&b->flow_control) && is_table(b->data, b->count) &&
           b->arena_len <= ROOM && b->off <= b->len && b->len <= VK_M && is_only(&b->fin_off, b->len) &&
           (peek(&b->drain) == 0 || (b->count == 0 && b->off == b->len)) && are_kept(b);
}

#endif
