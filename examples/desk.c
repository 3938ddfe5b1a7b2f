/* The desk: edits a board of four posts and prints the scores after each edit; then a board of one post, which has no link bytes. */
#include <inttypes.h>
#include <stdio.h>

#include "fuortsjam.h"

enum { POSTS = 4 };

struct board {
    uint64_t posts;
    uint8_t *links;
    size_t links_len;
    uint8_t *figures;
    size_t figures_len;
    uint8_t *marks;
    size_t marks_len;
};

static void clear(const struct board *b)
{
    uint64_t refusal = fj_clear(b->posts, b->links, b->links_len, b->figures, b->figures_len, b->marks, b->marks_len);
    printf("clear: %" PRIu64 "\n", refusal);
}

static void add(const struct board *b, uint64_t p, uint64_t q)
{
    uint64_t refusal = fj_add(b->posts, b->links, b->links_len, b->figures, b->figures_len, b->marks, b->marks_len, p, q);
    printf("add %" PRIu64 " %" PRIu64 ": %" PRIu64 "\n", p, q, refusal);
}

static void take(const struct board *b, uint64_t p, uint64_t q)
{
    uint64_t refusal = fj_remove(b->posts, b->links, b->links_len, b->figures, b->figures_len, b->marks, b->marks_len, p, q);
    printf("remove %" PRIu64 " %" PRIu64 ": %" PRIu64 "\n", p, q, refusal);
}

static void score(const struct board *b, uint64_t post)
{
    uint64_t answer = fj_score(b->posts, b->links, b->links_len, post);
    uint64_t refusal = 0 - answer;
    if (refusal <= 12 && refusal != 0)
        printf("score %" PRIu64 ": refused, %" PRIu64 "\n", post, refusal);
    else
        printf("score %" PRIu64 ": %" PRIu64 "\n", post, answer);
}

static void show(const struct board *b, const char *title)
{
    size_t i;
    uint64_t post;

    printf("%s\n", title);
    printf("links");
    for (i = 0; i < b->links_len; i++)
        printf(" %02X", b->links[i]);
    printf(", figures");
    for (post = 0; post < b->posts; post++) {
        uint64_t figure = 0;
        for (i = 0; i < 8; i++)
            figure |= (uint64_t)b->figures[8 * post + i] << (8 * i);
        printf(" %" PRIu64, figure);
    }
    printf(", marks");
    for (i = 0; i < b->marks_len; i++)
        printf(" %02X", b->marks[i]);
    printf("\n");
    for (post = 0; post < b->posts; post++)
        score(b, post);
}

static void four_posts(void)
{
    static uint8_t links[(POSTS * (POSTS - 1) / 2 + 7) / 8], figures[8 * POSTS], marks[(POSTS + 7) / 8];
    const struct board board = {POSTS, links, sizeof links, figures, sizeof figures, marks, sizeof marks};
    const struct board *b = &board;

    clear(b);
    add(b, 0, 1);
    add(b, 0, 2);
    add(b, 0, 3);
    show(b, "a star:");

    take(b, 0, 2);
    add(b, 1, 2);
    add(b, 2, 3);
    show(b, "a ring:");

    add(b, 0, 2);
    add(b, 1, 3);
    take(b, 2, 3);
    show(b, "all but 2-3:");

    printf("calls that are refused:\n");
    add(b, 0, 0);
    add(b, 0, 1);
    add(b, 0, POSTS);
    take(b, 2, 3);
    score(b, POSTS);
    printf("a short buffer: %" PRIu64 "\n",
           fj_clear(POSTS, links, sizeof links, figures, sizeof figures - 1, marks, sizeof marks));
    printf("no posts: %" PRIu64 "\n", fj_clear(0, links, sizeof links, figures, sizeof figures, marks, sizeof marks));
    printf("no memory: %" PRIu64 "\n", fj_clear(POSTS, NULL, 0, NULL, 0, NULL, 0));
    show(b, "the board is as it was:");
}

static void one_post(void)
{
    uint8_t figures[8] = {1, 2, 3, 4, 5, 6, 7, 8}, marks[1] = {0xFF};
    const struct board board = {1, NULL, 0, figures, sizeof figures, marks, sizeof marks};

    clear(&board);
    show(&board, "one post:");
    add(&board, 0, 0);
    add(&board, 0, 1);
    take(&board, 1, 0);
    score(&board, 1);
}

int main(void)
{
    four_posts();
    one_post();
    return 0;
}
