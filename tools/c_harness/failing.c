/* failing DIR < FENS: opens the tables and probes with the n-th allocation refused, for each n, and all after it too.
 * cc -O2 -Wl,--wrap=malloc,--wrap=realloc failing.c libhofsjurd_c.a liblibc_c.a */
#define _POSIX_C_SOURCE 200809L
#include <stdio.h>
#include <stdlib.h>
#include <string.h>
#include "hofsjurd.h"

void *__real_malloc(size_t n);
void *__real_realloc(void *p, size_t n);
static long left = -1, live_calls;
static bool refuse(void) { live_calls++; if (left < 0) return false; if (left == 0) return true; left--; return false; }
void *__wrap_malloc(size_t n) { return refuse() ? NULL : __real_malloc(n); }
void *__wrap_realloc(void *p, size_t n) { return refuse() ? NULL : __real_realloc(p, n); }

static const char *names[] = {
    "KQvK.rtbw", "KQvK.rtbz", "KRvK.rtbw", "KRvK.rtbz", "KPvK.rtbw", "KPvK.rtbz", "KBvK.rtbw", "KNvK.rtbw"};
enum { N = sizeof names / sizeof *names };
static uint8_t *bytes[N];
static size_t lengths[N];
static char fens[4000][100];

int main(int argc, char **argv)
{
    if (argc < 2) return 2;
    left = -1;
    for (int i = 0; i < N; i++) {
        char path[4096];
        snprintf(path, sizeof path, "%s/%s", argv[1], names[i]);
        FILE *f = fopen(path, "rb");
        if (!f) return 2;
        bytes[i] = malloc(1 << 20);
        lengths[i] = fread(bytes[i], 1, 1 << 20, f);
        fclose(f);
    }
    size_t count = 0;
    while (count < 4000 && fgets(fens[count], 100, stdin)) { fens[count][strcspn(fens[count], "\r\n")] = 0; count++; }
    long refused = 0, answers = 0, runs = 0, wrong = 0;
    static hofsjurd_reply want[4000][3];
    for (long n = -1;; n++) {
        hofsjurd h = HOFSJURD_CLOSED;
        live_calls = 0;
        left = n;
        uint32_t s = hofsjurd_open(&h, 4);
        if (s) { if (s != HOFSJURD_OUT_OF_MEMORY || h.is_open) wrong++; }
        bool all = s == 0;
        for (int i = 0; i < N && !s; i++) {
            uint32_t t = hofsjurd_add(&h, names[i], strlen(names[i]), bytes[i], lengths[i]);
            if (t && t != HOFSJURD_OUT_OF_MEMORY) wrong++;
            if (t) { refused++; all = false; }
        }
        hofsjurd other = HOFSJURD_CLOSED;
        uint32_t shared = hofsjurd_share(&h, &other, 4);
        if (shared) {
            if (other.is_open || shared != (s ? HOFSJURD_HANDLE_CLOSED : HOFSJURD_OUT_OF_MEMORY)) wrong++;
            refused++;
        } else if (hofsjurd_largest(&other).value != hofsjurd_largest(&h).value) wrong++;
        hofsjurd_close(&other);
        for (size_t i = 0; i < count && i < 300; i++) {
            const char *text = fens[i];
            size_t m = strlen(fens[i]);
            hofsjurd_reply r[3] = {hofsjurd_wdl(&h, text, m), hofsjurd_dtz(&h, text, m), hofsjurd_judge(&h, text, m)};
            for (int k = 0; k < 3; k++) {
                if (n < 0) want[i][k] = r[k];
                else if (!all || !memcmp(&want[i][k], &r[k], sizeof r[k])) answers++;
                else if (k && r[k].status == HOFSJURD_OUT_OF_MEMORY) refused++;
                else wrong++;
            }
        }
        hofsjurd_close(&h);
        runs++;
        if (n >= 0 && n >= live_calls) break;
        if (n > 3000) n += 500;
    }
    printf("%ld runs, %ld calls refused for memory, %ld answers, %ld wrong\n", runs, refused, answers, wrong);
    for (int i = 0; i < N; i++) free(bytes[i]);
    return wrong != 0;
}
