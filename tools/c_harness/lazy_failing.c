/* lazy_failing DIR < FENS: lists the tables and asks with the n-th allocation refused, for each n, and all after it too, and then again
 * with none refused: every answer is then that of all tables. Built over contrib/hofsjurd_folder.c with
 * -Wl,--wrap=malloc,--wrap=calloc,--wrap=realloc. */
#include <stdio.h>
#include <stdlib.h>
#include <string.h>
#include "hofsjurd_folder.h"

void *__real_malloc(size_t n);
void *__real_calloc(size_t count, size_t n);
void *__real_realloc(void *p, size_t n);
static long left = -1, calls;
static bool refuse(void)
{
    calls++;
    if (left > 0) left--;
    return left == 0;
}
void *__wrap_malloc(size_t n) { return refuse() ? NULL : __real_malloc(n); }
void *__wrap_calloc(size_t count, size_t n) { return refuse() ? NULL : __real_calloc(count, n); }
void *__wrap_realloc(void *p, size_t n) { return refuse() ? NULL : __real_realloc(p, n); }

enum { MOST = 40, ASKED = 4 };
static hofsjurd_board boards[MOST];
static hofsjurd_reply wanted[MOST][ASKED];
static size_t count;
static long refused, wrong;

static hofsjurd_reply asked(hofsjurd_prober *prober, size_t i, int what)
{
    hofsjurd_root_move moves[HOFSJURD_MOST_MOVES];
    if (what == 0) return hofsjurd_prober_determined_wdl(prober, &boards[i]);
    if (what == 1) return hofsjurd_prober_dtz(prober, &boards[i]);
    if (what == 2) return hofsjurd_prober_judge(prober, &boards[i]);
    return hofsjurd_prober_root(prober, &boards[i], moves, HOFSJURD_MOST_MOVES);
}

/* Each answer is the one that is wanted, or where that may be, that memory was refused. */
static void ask_all(hofsjurd_prober *prober, bool may_refuse, bool is_first)
{
    for (size_t i = 0; i < count; i++)
        for (int what = 0; what < ASKED; what++) {
            hofsjurd_reply reply = asked(prober, i, what);
            if (is_first) wanted[i][what] = reply;
            else if (may_refuse && reply.status == HOFSJURD_OUT_OF_MEMORY) refused++;
            else if (memcmp(&reply, &wanted[i][what], sizeof reply)) wrong++;
        }
}

/* Whether some allocation was refused. */
static bool run(const char *path, long n)
{
    hofsjurd_listing *listing = NULL;
    hofsjurd_prober *prober = NULL;
    calls = 0;
    left = n;
    uint32_t status = hofsjurd_listing_add(&listing, path, NULL, NULL);
    if (!status) status = hofsjurd_prober_open(&prober, listing, 4);
    if (!status) ask_all(prober, true, n < 0);
    else if (status != HOFSJURD_OUT_OF_MEMORY) wrong++;
    bool is_refused = n > 0 && calls >= n;
    left = -1;
    if (!status) ask_all(prober, false, false);
    hofsjurd_prober_close(prober);
    hofsjurd_listing_free(listing);
    return is_refused;
}

int main(int argc, char **argv)
{
    char line[512];
    long runs = 0;
    if (argc != 2) return 2;
    while (count < MOST && fgets(line, sizeof line, stdin)) {
        if (!hofsjurd_read_fen(line, strcspn(line, "\t\r\n"), &boards[count])) count++;
    }
    run(argv[1], -1);
    for (long n = 1; run(argv[1], n); n++) runs++;
    printf("lazy, memory refused: %ld runs, %ld answers refused, %ld wrong\n", runs, refused, wrong);
    return wrong != 0;
}
