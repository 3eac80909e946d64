/* lazy DIR SCRATCH < FENS: tables that are opened when a position asks for them, beside all tables of DIR at once.
 *
 *   threads   four probers over one listing, on a thread each, which ask in orders of their own: every answer is that of all tables
 *   files     in the folder SCRATCH: a file that is missing, damaged, exchanged, removed, and one for which no descriptor is left
 *
 * The status is 0 only where nothing is wrong. Built over contrib/hofsjurd_folder.c. */
#define _DEFAULT_SOURCE
#include <dirent.h>
#include <errno.h>
#include <pthread.h>
#include <stdio.h>
#include <stdlib.h>
#include <string.h>
#include <sys/resource.h>
#include <unistd.h>
#include "hofsjurd_folder.h"

enum { THREADS = 4, ROUNDS = 3, MOST_FENS = 50000, MOST_CHECKED_ROOTS = 2000 };

typedef struct {
    hofsjurd_reply wdl, dtz, verdict, determined_wdl, determined_dtz, root, determined_root;
    uint64_t moves, determined_moves; /* of the lists of root moves, a number each */
} answers;

static char *fens[MOST_FENS];
static answers wanted[MOST_FENS];
static hofsjurd_board boards[MOST_FENS];
static bool is_board[MOST_FENS];
static size_t count;
static int wrong;

static uint64_t number_of(const hofsjurd_root_move *moves, hofsjurd_reply root)
{
    uint64_t sum = 14695981039346656037ULL;
    for (int i = 0; !root.status && i < root.value; i++) {
        const hofsjurd_root_move *m = &moves[i];
        const uint32_t parts[] = {m->move.from, m->move.to, m->move.promotion, m->effect, m->state, m->wdl.status, (uint32_t)m->wdl.value, m->dtz.status, (uint32_t)m->dtz.value};
        for (size_t k = 0; k < sizeof parts / sizeof *parts; k++) sum = (sum ^ parts[k]) * 1099511628211ULL;
    }
    return sum;
}

/* What the library says over all tables, of the text where it takes one. */
static void ask_all(hofsjurd *tables, size_t i)
{
    hofsjurd_root_move moves[HOFSJURD_MOST_MOVES];
    size_t n = strlen(fens[i]);
    answers *all = &wanted[i];
    all->wdl = hofsjurd_wdl(tables, fens[i], n);
    all->dtz = hofsjurd_dtz(tables, fens[i], n);
    all->verdict = hofsjurd_judge(tables, fens[i], n);
    all->determined_wdl = hofsjurd_determined_wdl(tables, fens[i], n);
    all->determined_dtz = hofsjurd_determined_dtz(tables, fens[i], n);
    if (i >= MOST_CHECKED_ROOTS) return;
    all->root = hofsjurd_root(tables, fens[i], n, moves, HOFSJURD_MOST_MOVES);
    all->moves = number_of(moves, all->root);
    all->determined_root = hofsjurd_determined_root(tables, fens[i], n, moves, HOFSJURD_MOST_MOVES);
    all->determined_moves = number_of(moves, all->determined_root);
}

static bool is_same(hofsjurd_reply one, hofsjurd_reply other)
{
    return one.status == other.status && one.value == other.value;
}

/* Each question first in its turn, so that each has to open what it takes. */
static int ask_one(hofsjurd_prober *prober, size_t i, size_t first)
{
    hofsjurd_root_move moves[HOFSJURD_MOST_MOVES];
    const hofsjurd_board *board = &boards[i];
    const answers *all = &wanted[i];
    int differ = 0;
    for (size_t k = 0; k < 7; k++) {
        size_t what = (first + k) % 7;
        if (what > 4 && i >= MOST_CHECKED_ROOTS) continue;
        if (what == 0) differ += !is_same(hofsjurd_prober_wdl(prober, board), all->wdl);
        if (what == 1) differ += !is_same(hofsjurd_prober_dtz(prober, board), all->dtz);
        if (what == 2) differ += !is_same(hofsjurd_prober_judge(prober, board), all->verdict);
        if (what == 3) differ += !is_same(hofsjurd_prober_determined_wdl(prober, board), all->determined_wdl);
        if (what == 4) differ += !is_same(hofsjurd_prober_determined_dtz(prober, board), all->determined_dtz);
        if (what == 5) {
            hofsjurd_reply root = hofsjurd_prober_root(prober, board, moves, HOFSJURD_MOST_MOVES);
            differ += !is_same(root, all->root) || number_of(moves, root) != all->moves;
        }
        if (what == 6) {
            hofsjurd_reply root = hofsjurd_prober_determined_root(prober, board, moves, HOFSJURD_MOST_MOVES);
            differ += !is_same(root, all->determined_root) || number_of(moves, root) != all->determined_moves;
        }
    }
    if (differ) printf("%s: %d answers differ\n", fens[i], differ);
    return differ;
}

typedef struct {
    hofsjurd_listing *listing;
    size_t turn;
    int differ;
} asker;

static void *ask_on(void *it)
{
    asker *own = (asker *)it;
    hofsjurd_prober *prober;
    if (hofsjurd_prober_open(&prober, own->listing, 1 + 16 * own->turn)) exit(3);
    size_t from = own->turn * count / THREADS;
    for (size_t n = 0; n < count; n++) {
        size_t i = own->turn % 2 ? (from + count - n) % count : (from + n) % count;
        if (is_board[i]) own->differ += ask_one(prober, i, own->turn + n);
    }
    hofsjurd_prober_close(prober);
    return NULL;
}

static int threads(const char *path)
{
    size_t listed = 0, opened = 0;
    int differ = 0;
    for (int round = 0; round < ROUNDS; round++) {
        hofsjurd_listing *listing = NULL;
        pthread_t on[THREADS];
        asker askers[THREADS];
        if (hofsjurd_listing_add(&listing, path, NULL, NULL) || hofsjurd_listing_open_count(listing)) return 1;
        for (size_t i = 0; i < THREADS; i++) {
            askers[i] = (asker){listing, i + (size_t)round, 0};
            if (pthread_create(&on[i], NULL, ask_on, &askers[i])) return 1;
        }
        for (size_t i = 0; i < THREADS; i++) {
            pthread_join(on[i], NULL);
            differ += askers[i].differ;
        }
        listed = hofsjurd_listing_count(listing);
        opened = hofsjurd_listing_open_count(listing);
        hofsjurd_listing_free(listing);
    }
    printf("lazy: %zu positions on %d threads, %d times: %d answers differ; %zu of %zu tables opened\n", count, THREADS, ROUNDS, differ, opened, listed);
    return differ || opened > listed;
}

/* ---- files */

static char scratch[4000];

static void copy(const char *from, const char *name, const char *as, size_t cut)
{
    static char path[5000], bytes[1 << 21];
    snprintf(path, sizeof path, "%s/%s", from, name);
    FILE *f = fopen(path, "rb");
    size_t n = f ? fread(bytes, 1, sizeof bytes, f) : 0;
    if (f) fclose(f);
    snprintf(path, sizeof path, "%s/new", scratch);
    f = fopen(path, "wb");
    if (!n || !f || fwrite(bytes, 1, n > cut ? n - cut : 0, f) != (n > cut ? n - cut : 0)) exit(2);
    fclose(f);
    char last[5000];
    snprintf(last, sizeof last, "%s/%s", scratch, as);
    if (rename(path, last)) exit(2);
}

static void expect(bool is_so, const char *what)
{
    if (is_so) return;
    printf("files: %s\n", what);
    wrong = 1;
}

static void expect_refusal(hofsjurd_prober *prober, const hofsjurd_board *board, uint32_t status, const char *name, int error, const char *what)
{
    hofsjurd_reply reply = hofsjurd_prober_wdl(prober, board);
    const hofsjurd_refusal *refusal = hofsjurd_prober_refusal(prober);
    expect(reply.status == status && !reply.value, what);
    expect(refusal->status == status && !strcmp(refusal->name, name) && refusal->error == error, what);
    expect(hofsjurd_prober_judge(prober, board).status == status, what);
    expect(hofsjurd_prober_determined_wdl(prober, board).status == status, what);
}

static int descriptors(void)
{
    int n = 0;
    DIR *all = opendir("/proc/self/fd");
    while (all && readdir(all)) n++;
    if (all) closedir(all);
    return n;
}

static bool count_report(void *counted, const char *path, const char *name, uint32_t status, int error)
{
    (void)path, (void)name, (void)status, (void)error;
    ++*(int *)counted;
    return true;
}

/* a white man of this kind, queen, rook, bishop, knight or pawn, beside the kings */
static hofsjurd_board with(int kind)
{
    hofsjurd_board board = {1ULL << 46 | 1ULL << 8, 1ULL << 63, 1ULL << 46 | 1ULL << 63, 0, 0, 0, 0, 0, 0, 1, 0, 0, 64};
    uint64_t *kinds[] = {&board.queens, &board.rooks, &board.bishops, &board.knights, &board.pawns};
    *kinds[kind] = 1ULL << 8;
    return board;
}

static int files(const char *path)
{
    hofsjurd_listing *listing = NULL;
    hofsjurd_prober *prober, *other;
    hofsjurd_board queen = with(0), rook = with(1), bishop = with(2), knight = with(3), pawn = with(4);
    int reports = 0, open_before = descriptors();
    copy(path, "KQvK.rtbw", "KQvK.rtbw", 0);
    copy(path, "KRvK.rtbw", "KRvK.rtbw", 64);
    copy(path, "KBvK.rtbw", "KBvK.rtbw", 0);
    copy(path, "KNvK.rtbw", "KNvK.rtbw", 0);
    usleep(50000); /* times of files go by a clock that ticks some hundred times a second */
    expect(!hofsjurd_listing_add(&listing, scratch, NULL, NULL) && hofsjurd_listing_count(listing) == 4, "a file isn't listed");
    hofsjurd_listing_report(listing, count_report, &reports);
    expect(hofsjurd_listing_largest(listing) == 3 && hofsjurd_listing_has(listing, "KBvK.rtbw") && !hofsjurd_listing_has(listing, "KBvK.rtbz"), "a name");
    expect(!hofsjurd_prober_open(&prober, listing, 64) && !hofsjurd_prober_open(&other, listing, 1), "a prober isn't opened");
    expect(hofsjurd_prober_wdl(prober, &queen).value == HOFSJURD_WIN, "the queen doesn't win");
    /* missing, and then damaged, once and again */
    expect(hofsjurd_prober_wdl(prober, &pawn).status == HOFSJURD_NOT_COVERED, "a missing table is told otherwise");
    expect(!hofsjurd_prober_refusal(prober)->name[0], "a missing table is refused");
    for (int i = 0; i < 2; i++) expect_refusal(prober, &rook, HOFSJURD_FILE_TRUNCATED, "KRvK.rtbw", 0, "a damaged file is told otherwise");
    expect(reports == 1, "a damaged file isn't reported once");
    /* exchanged: what is open stays, and what isn't is refused, also with the bytes that it had */
    copy(path, "KRvK.rtbw", "KQvK.rtbw", 0);
    copy(path, "KRvK.rtbw", "KNvK.rtbw", 0);
    expect(hofsjurd_prober_wdl(other, &queen).value == HOFSJURD_WIN, "an open table is another one");
    for (int i = 0; i < 2; i++) expect_refusal(other, &knight, HOFSJURD_FOLDER_CHANGED, "KNvK.rtbw", 0, "an exchanged file is told otherwise");
    copy(path, "KNvK.rtbw", "KNvK.rtbw", 0);
    expect_refusal(prober, &knight, HOFSJURD_FOLDER_CHANGED, "KNvK.rtbw", 0, "a file that came back is told otherwise");
    static char gone[5000];
    snprintf(gone, sizeof gone, "%s/KNvK.rtbw", scratch);
    unlink(gone);
    expect_refusal(prober, &knight, HOFSJURD_FOLDER_UNREADABLE, "KNvK.rtbw", ENOENT, "a file that was removed is told otherwise");
    /* no descriptor is left; then there is one */
    struct rlimit all, none;
    getrlimit(RLIMIT_NOFILE, &all);
    none = all;
    none.rlim_cur = 0;
    setrlimit(RLIMIT_NOFILE, &none);
    expect_refusal(prober, &bishop, HOFSJURD_FOLDER_UNREADABLE, "KBvK.rtbw", EMFILE, "want of descriptors is told otherwise");
    setrlimit(RLIMIT_NOFILE, &all);
    hofsjurd_reply draw = hofsjurd_prober_wdl(prober, &bishop);
    expect(!draw.status && draw.value == HOFSJURD_DRAW, "a file isn't asked for again");
    expect(descriptors() == open_before, "a descriptor is held open");
    expect(hofsjurd_listing_open_count(listing) == 2, "a table is opened otherwise");
    hofsjurd_prober_close(prober);
    hofsjurd_prober_close(other);
    hofsjurd_listing_free(listing);
    if (!wrong) puts("lazy: files that are missing, damaged, exchanged, removed and without a descriptor are told, by their names");
    return wrong;
}

int main(int argc, char **argv)
{
    static hofsjurd_folder folder;
    static char line[512];
    hofsjurd tables = HOFSJURD_CLOSED;
    if (argc != 3 || strlen(argv[2]) >= sizeof scratch) return 2;
    strcpy(scratch, argv[2]);
    if (hofsjurd_folder_map(&folder, argv[1]) || hofsjurd_folder_open(&folder, &tables, 64, NULL)) return 2;
    while (count < MOST_FENS && fgets(line, sizeof line, stdin)) {
        if (line[0] == '#') continue;
        line[strcspn(line, "\t\r\n")] = 0;
        fens[count] = strdup(line);
        ask_all(&tables, count);
        uint32_t read = hofsjurd_read_fen(line, strlen(line), &boards[count]);
        is_board[count] = !read;
        if (read && read != wanted[count].wdl.status) wrong = 1;
        count++;
    }
    hofsjurd_close(&tables);
    hofsjurd_folder_unmap(&folder);
    wrong |= threads(argv[1]);
    wrong |= files(argv[1]);
    for (size_t i = 0; i < count; i++) free(fens[i]);
    return wrong;
}
