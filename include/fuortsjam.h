/*
 * The bridge board for C: clear a board, add a link, remove a link, score a post.
 *
 * A board has n posts, numbered from 0, with n from 1 to 256. The caller lends its memory, each buffer with its length in bytes:
 *   links    n(n-1)/2 bits, rounded up to bytes: the pair a < b is bit b(b-1)/2 + a, most significant bit first
 *   figures  8n bytes: a number of grains for each post, least significant byte first
 *   marks    n bits, rounded up to bytes: a bit for each post, most significant bit first
 * 5,342,931,457,063,200 grains make 1. The buffers of a call must not overlap, and no other thread may use them during it.
 * A pointer whose length is 0 may be null: a board of one post has no link bytes.
 *
 * Refusal numbers, in the order in which they are tested. A call that is refused writes nothing.
 *    0  the call is accepted
 *    1  n is 0 or above 256
 *    2  links, figures or marks has another length than n requires
 *    4  a post's number is n or more
 *    5  the two posts are the same
 *    6  the link to add is there
 *    7  the link to remove is not there
 *   11  before the call, a post has more than 40 links
 *   12  after the call, a post would have more than 40 links
 */
#ifndef FUORTSJAM_H
#define FUORTSJAM_H

#include <stddef.h>
#include <stdint.h>

#ifdef __cplusplus
extern "C" {
#endif

/* No links, all figures 0, all posts settled, whatever the buffers held. Returns the refusal number. */
uint64_t fj_clear(uint64_t n, uint8_t *links, size_t links_len, uint8_t *figures, size_t figures_len,
                  uint8_t *marks, size_t marks_len);

/* Adds the link of a and b. Returns the refusal number. */
uint64_t fj_add(uint64_t n, uint8_t *links, size_t links_len, uint8_t *figures, size_t figures_len,
                uint8_t *marks, size_t marks_len, uint64_t a, uint64_t b);

/* Removes the link of a and b. Returns the refusal number. */
uint64_t fj_remove(uint64_t n, uint8_t *links, size_t links_len, uint8_t *figures, size_t figures_len,
                   uint8_t *marks, size_t marks_len, uint64_t a, uint64_t b);

/* Returns the score of a post in grains, or 2^64 less the refusal number. Writes nothing. */
uint64_t fj_score(uint64_t n, const uint8_t *links, size_t links_len, uint64_t post);

#ifdef __cplusplus
}
#endif

#endif
