/* harness DIR compare < FENS            both libraries on each position: how many values differ
 * harness DIR bytes < FENS              every text cut short and every byte changed, for memcheck
 * harness DIR games < FENS              legal moves, games and names, each against the other calls
 * harness DIR WHO WHAT ROUNDS < FENS    WHO ours or fathom, WHAT wdl, dtz, and of ours judge, board (WDL of a board), many
 *                                       (WDL of all boards at once): time alone
 * The tables are all files *.rtbw and *.rtbz of DIR. tools/c_harness/run builds it and runs all of these. */
#define _POSIX_C_SOURCE 200809L
#include <dirent.h>
#include <stdio.h>
#include <stdlib.h>
#include <string.h>
#include <time.h>
#include <tbprobe.h>
#include "hofsjurd.h"

typedef struct { uint64_t c[2], t[7]; unsigned ep; bool white, castles; } position;

static bool read_fen(const char *s, position *p)
{
    static const char kinds[] = " pnbrqk";
    int rank = 7, file = 0;
    memset(p, 0, sizeof *p);
    for (; *s && *s != ' '; s++) {
        if (*s == '/') { rank--; file = 0; continue; }
        if (*s >= '1' && *s <= '8') { file += *s - '0'; continue; }
        const char *k = strchr(kinds, *s | 32);
        if (!k || k == kinds || rank < 0 || file > 7) return false;
        uint64_t bit = 1ULL << (rank * 8 + file++);
        p->c[(*s & 32) != 0] |= bit;
        p->t[k - kinds] |= bit;
    }
    if (*s++ != ' ') return false;
    p->white = *s == 'w';
    if (*s++ == 0 || *s++ != ' ') return false;
    p->castles = *s != '-';
    while (*s && *s != ' ') s++;
    if (*s++ != ' ') return false;
    if (*s != '-') p->ep = (unsigned)(s[1] - '1') * 8 + (unsigned)(s[0] - 'a');
    return true;
}

static unsigned fathom_wdl(const position *p)
{
    const uint64_t *c = p->c, *t = p->t;
    return tb_probe_wdl(c[0], c[1], t[6], t[5], t[4], t[3], t[2], t[1], 0, p->castles, p->ep, p->white);
}

static unsigned fathom_root(const position *p)
{
    const uint64_t *c = p->c, *t = p->t;
    return tb_probe_root(c[0], c[1], t[6], t[5], t[4], t[3], t[2], t[1], 0, p->castles, p->ep, p->white, NULL);
}

typedef struct { char *name; uint8_t *bytes; size_t length; } table;

static table *tables;
static size_t table_count;

static void read_tables(const char *folder)
{
    DIR *d = opendir(folder);
    for (struct dirent *e; d && (e = readdir(d));) {
        size_t n = strlen(e->d_name);
        if (n < 6 || (strcmp(e->d_name + n - 5, ".rtbw") && strcmp(e->d_name + n - 5, ".rtbz"))) continue;
        char path[4096];
        snprintf(path, sizeof path, "%s/%s", folder, e->d_name);
        FILE *f = fopen(path, "rb");
        if (!f) continue;
        fseek(f, 0, SEEK_END);
        long size = ftell(f);
        rewind(f);
        tables = realloc(tables, (table_count + 1) * sizeof *tables);
        table *t = &tables[table_count++];
        t->name = strdup(e->d_name);
        t->bytes = malloc((size_t)size + 1);
        t->length = fread(t->bytes, 1, (size_t)size, f);
        fclose(f);
    }
    if (d) closedir(d);
}

static uint32_t add_all(hofsjurd *h)
{
    uint32_t worst = 0;
    for (size_t i = 0; i < table_count; i++) {
        uint32_t s = hofsjurd_add(h, tables[i].name, strlen(tables[i].name), tables[i].bytes, tables[i].length);
        if (s) { fprintf(stderr, "%s: status %u\n", tables[i].name, s); worst = s; }
    }
    return worst;
}

static double now(void)
{
    struct timespec t;
    clock_gettime(CLOCK_PROCESS_CPUTIME_ID, &t);
    return (double)t.tv_sec + 1e-9 * (double)t.tv_nsec;
}

static char **fens;
static position *positions;
static size_t count;

static void read_fens(void)
{
    char line[512];
    while (fgets(line, sizeof line, stdin)) {
        if (line[0] == '#') continue;
        line[strcspn(line, "\t\r\n")] = 0;
        fens = realloc(fens, (count + 1) * sizeof *fens);
        positions = realloc(positions, (count + 1) * sizeof *positions);
        if (!read_fen(line, &positions[count])) { fprintf(stderr, "bad FEN: %s\n", line); exit(1); }
        fens[count++] = strdup(line);
    }
}

static hofsjurd_board board_of(const position *p)
{
    const uint64_t *c = p->c, *t = p->t;
    uint8_t side = p->white ? 0 : 1, passed = p->ep ? (uint8_t)p->ep : 64;
    hofsjurd_board b = {c[0], c[1], t[6], t[5], t[4], t[3], t[2], t[1], 0, 1, side, 0, passed};
    return b;
}

/* Of one position: each root move against the board after it, in a room that is just large enough; and what is refused. */
static int check_root(hofsjurd *h, size_t i)
{
    hofsjurd_board board = board_of(&positions[i]), after, kept;
    hofsjurd_move listed[HOFSJURD_MOST_MOVES];
    hofsjurd_root_move moves[HOFSJURD_MOST_MOVES], of_text[HOFSJURD_MOST_MOVES];
    memset(moves, 0x5a, sizeof moves);
    memset(of_text, 0x5a, sizeof of_text);
    hofsjurd_reply all = hofsjurd_board_moves(&board, listed, HOFSJURD_MOST_MOVES);
    size_t n = (size_t)all.value;
    hofsjurd_reply root = hofsjurd_board_root(h, &board, moves, n), text = hofsjurd_root(h, fens[i], strlen(fens[i]), of_text, n);
    int wrong = root.status || text.status || root.value != all.value || memcmp(moves, of_text, sizeof moves);
    wrong += ((const unsigned char *)&moves[n])[0] != 0x5a;
    if (n) wrong += hofsjurd_board_root(h, &board, of_text, n - 1).status != HOFSJURD_NO_ROOM || memcmp(moves, of_text, sizeof moves);
    hofsjurd_reply whole = hofsjurd_board_wdl(h, &board);
    if (n && moves[0].wdl.value != whole.value) wrong++;
    for (size_t k = 0; k < n; k++) {
        wrong += hofsjurd_board_after(&board, &moves[k].move, &after) != HOFSJURD_OK;
        hofsjurd_reply wdl = hofsjurd_board_wdl(h, &after), dtz = hofsjurd_board_dtz(h, &after), state = hofsjurd_board_state(&after);
        int zeroes = moves[k].effect != HOFSJURD_QUIET, mates = state.value == HOFSJURD_CHECKMATED;
        wrong += wdl.status || state.status || state.value != moves[k].state || moves[k].wdl.value != -wdl.value || (after.side != 0) == (board.side != 0);
        if (!zeroes && !mates) wrong += moves[k].dtz.value != -dtz.value + (dtz.value < 0) - (dtz.value > 0);
        if (mates) wrong += moves[k].dtz.value != 1;
        if (k && (moves[k].wdl.value > moves[k - 1].wdl.value || (moves[k].wdl.value == moves[k - 1].wdl.value && moves[k].dtz.value < moves[k - 1].dtz.value))) wrong++;
    }
    hofsjurd_reply value = hofsjurd_board_determined_wdl(h, &board), distance = hofsjurd_determined_dtz(h, fens[i], strlen(fens[i]));
    wrong += value.status != whole.status || value.value != whole.value || distance.value != hofsjurd_board_dtz(h, &board).value;
    wrong += hofsjurd_board_determined_root(h, &board, of_text, n).value != root.value || memcmp(moves, of_text, sizeof moves);
    kept = after = board;
    hofsjurd_move none = {64, 0, 0}, stays = {0, 0, 0};
    wrong += hofsjurd_board_after(&board, &none, &after) != HOFSJURD_BAD_MOVE || memcmp(&after, &kept, sizeof after);
    wrong += hofsjurd_board_after(&board, &stays, &after) != HOFSJURD_ILLEGAL_MOVE || memcmp(&after, &kept, sizeof after);
    if (wrong) printf("root of %s: %d wrong\n", fens[i], wrong);
    return wrong;
}

/* Of one position: the text of each legal move is read as that move, in a room that is just large enough; and what is refused. */
static int check_san(size_t i)
{
    hofsjurd_move listed[HOFSJURD_MOST_MOVES], read, none = {64, 0, 0}, stays = {0, 0, 0};
    size_t length = strlen(fens[i]), n = (size_t)hofsjurd_moves(fens[i], length, listed, HOFSJURD_MOST_MOVES).value;
    char text[16];
    int wrong = 0;
    for (size_t k = 0; k < n; k++) {
        memset(text, 0x5a, sizeof text);
        memset(&read, 0x5a, sizeof read);
        hofsjurd_reply told = hofsjurd_move_san(fens[i], length, &listed[k], text, sizeof text);
        size_t size = (size_t)told.value;
        wrong += told.status || size > 8 || strlen(text) != size;
        wrong += hofsjurd_read_san(fens[i], length, text, size, &read) != HOFSJURD_OK || memcmp(&read, &listed[k], sizeof read);
        memset(text, 0x5a, sizeof text);
        hofsjurd_reply shut = hofsjurd_move_san(fens[i], length, &listed[k], text, size);
        wrong += shut.status != HOFSJURD_NO_ROOM || shut.value != told.value + 1 || text[0] != 0x5a;
        wrong += hofsjurd_move_san(fens[i], length, &listed[k], text, size + 1).status || text[size] != 0 || text[size + 1] != 0x5a;
    }
    memset(text, 0x5a, sizeof text);
    wrong += hofsjurd_move_san(fens[i], length, &none, text, sizeof text).status != HOFSJURD_BAD_MOVE || text[0] != 0x5a;
    wrong += hofsjurd_move_san(fens[i], length, &stays, text, sizeof text).status != HOFSJURD_ILLEGAL_MOVE || text[0] != 0x5a;
    read = none;
    wrong += hofsjurd_read_san(fens[i], length, "Kx", 2, &read) != HOFSJURD_BAD_MOVE || memcmp(&read, &none, sizeof read);
    if (wrong) printf("moves as text of %s: %d wrong\n", fens[i], wrong);
    return wrong;
}

/* A set without tables misses that of each position. */
static int check_missing(size_t i)
{
    hofsjurd none = HOFSJURD_CLOSED;
    char name[HOFSJURD_TEXT_ROOM] = "";
    hofsjurd_board board = board_of(&positions[i]);
    int wrong = hofsjurd_board_missing(&none, &board, name, sizeof name) != 0 || hofsjurd_open(&none, 1);
    bool misses = hofsjurd_board_wdl(&none, &board).status == HOFSJURD_NOT_COVERED;
    size_t length = hofsjurd_board_missing(&none, &board, name, sizeof name);
    wrong += length != strlen(name) || misses != (length >= 4) || (misses && name[0] != 'K');
    hofsjurd_close(&none);
    return wrong;
}

/* The tables that the set has, beside Fathom's largest number of men, and what no table is. */
static int check_held(hofsjurd *h)
{
    hofsjurd none = HOFSJURD_CLOSED;
    int wrong = hofsjurd_has(&none, "KQvK", 4, 0).status != HOFSJURD_HANDLE_CLOSED || hofsjurd_largest(&none).status != HOFSJURD_HANDLE_CLOSED;
    wrong += hofsjurd_open(&none, 1) || hofsjurd_largest(&none).value || hofsjurd_has(&none, "KQvK", 4, 0).value || hofsjurd_has(&none, "KQvK", 4, 1).value;
    wrong += hofsjurd_has(&none, "KvK", 3, 0).status != HOFSJURD_FILE_BAD_NAME || hofsjurd_has(&none, "KQvK.rtbw", 9, 0).status != HOFSJURD_FILE_BAD_NAME;
    hofsjurd_close(&none);
    hofsjurd_reply most = hofsjurd_largest(h);
    wrong += most.status || most.value != (int)TB_LARGEST || hofsjurd_has(h, "KQvK", 4, 0).value != 1;
    if (wrong) printf("tables held: %d wrong\n", wrong);
    return wrong;
}

/* A second handle with the tables of the first answers as it does, also once a third is closed, and with a cache of one block. */
static int check_shared(hofsjurd *h)
{
    hofsjurd closed = HOFSJURD_CLOSED, other = HOFSJURD_CLOSED, third = HOFSJURD_CLOSED;
    int wrong = hofsjurd_share(&closed, &other, 64) != HOFSJURD_HANDLE_CLOSED || hofsjurd_share(h, &other, 0) != HOFSJURD_BAD_CACHE;
    wrong += hofsjurd_share(h, &other, 4097) != HOFSJURD_BAD_CACHE || other.is_open;
    wrong += hofsjurd_share(h, &third, 1) || hofsjurd_share(&third, &other, 1) || hofsjurd_share(h, &other, 1);
    hofsjurd_close(&third);
    wrong += hofsjurd_largest(&other).value != hofsjurd_largest(h).value || hofsjurd_has(&other, "KQvK", 4, 0).value != 1;
    for (size_t i = 0; i < count; i++) {
        hofsjurd_reply a[] = {hofsjurd_wdl(h, fens[i], strlen(fens[i])), hofsjurd_dtz(h, fens[i], strlen(fens[i]))};
        hofsjurd_reply b[] = {hofsjurd_wdl(&other, fens[i], strlen(fens[i])), hofsjurd_dtz(&other, fens[i], strlen(fens[i]))};
        wrong += !!memcmp(a, b, sizeof a);
    }
    hofsjurd_close(&other);
    printf("a shared handle: %d wrong\n", wrong);
    return wrong;
}

static int compare(hofsjurd *h)
{
    int root_wrong = check_held(h) + check_shared(h);
    for (size_t i = 0; i < count; i++) root_wrong += check_root(h, i) + check_san(i) + check_missing(i);
    printf("%zu positions: %d root moves, boards after them, their texts, states or missing tables are wrong\n", count, root_wrong);
    size_t wdl_differ = 0, dtz_differ = 0, board_differ = 0, decided = 0, skipped = 0;
    for (size_t i = 0; i < count; i++) {
        const char *s = fens[i];
        size_t n = strlen(fens[i]);
        hofsjurd_reply w = hofsjurd_wdl(h, s, n), d = hofsjurd_dtz(h, s, n), j = hofsjurd_judge(h, s, n);
        if (w.status >= HOFSJURD_FEN_FIELD_COUNT && w.status <= HOFSJURD_BAD_COUNTER) { skipped++; continue; }
        unsigned fw = fathom_wdl(&positions[i]), fr = fathom_root(&positions[i]);
        bool same = fw == TB_RESULT_FAILED ? w.status != 0 : w.status == 0 && w.value == (int)fw - 2;
        if (!same) { wdl_differ++; printf("wdl %s: %u %d, %u\n", fens[i], w.status, w.value, fw); }
        int fd = fr == TB_RESULT_CHECKMATE ? -1 : fr == TB_RESULT_STALEMATE ? 0 : (int)TB_GET_DTZ(fr);
        if (TB_GET_WDL(fr) < TB_DRAW && fr != TB_RESULT_CHECKMATE) fd = -fd;
        same = fr == TB_RESULT_FAILED ? d.status != 0 : d.status == 0 && d.value == fd;
        if (!same) { dtz_differ++; printf("dtz %s: %u %d, %d\n", fens[i], d.status, d.value, fd); }
        if (j.status == 0 && j.value) decided++;
        hofsjurd_board b = board_of(&positions[i]);
        hofsjurd_reply bw = hofsjurd_board_wdl(h, &b), bd = hofsjurd_board_dtz(h, &b), bj = hofsjurd_board_judge(h, &b);
        if (memcmp(&bw, &w, sizeof w) || memcmp(&bd, &d, sizeof d) || memcmp(&bj, &j, sizeof j)) board_differ++;
    }
    hofsjurd_board *boards = malloc((count + 1) * sizeof *boards);
    hofsjurd_reply *replies = malloc((count + 1) * sizeof *replies);
    size_t many_differ = 0;
    for (size_t i = 0; i < count; i++) boards[i] = board_of(&positions[i]);
    if (hofsjurd_boards_judge(h, boards, count, replies, count + 1) != HOFSJURD_LENGTHS_DIFFER) many_differ++;
    if (hofsjurd_boards_dtz(h, boards, count, replies, count)) many_differ++;
    for (size_t i = 0; i < count; i++) {
        hofsjurd_reply d = hofsjurd_dtz(h, fens[i], strlen(fens[i]));
        if (memcmp(&d, &replies[i], sizeof d)) many_differ++;
    }
    free(boards);
    free(replies);
    board_differ += many_differ;
    printf("%zu texts, %zu of them no position: %zu WDL values differ, %zu DTZ values differ, ", count, skipped, wdl_differ, dtz_differ);
    printf("%zu board answers differ from the text's; %zu have a verdict\n", board_differ, decided);
    return root_wrong || wdl_differ + dtz_differ + board_differ != 0;
}

/* every text cut short, in a block of its own length, and with one byte changed; bad files; closed handles */
static int bytes(hofsjurd *h)
{
    size_t calls = 0, answers = 0;
    for (size_t i = 0; i < count && i < 40; i++) {
        size_t n = strlen(fens[i]);
        for (size_t k = 0; k <= n; k++) {
            char *s = malloc(k ? k : 1);
            memcpy(s, fens[i], k);
            answers += hofsjurd_wdl(h, s, k).status == 0;
            answers += hofsjurd_judge(h, s, k).status == 0;
            calls += 2;
            for (int b = 0; k && b < 256; b += 17) {
                s[k - 1] = (char)b;
                answers += hofsjurd_dtz(h, s, k).status == 0;
                calls++;
            }
            free(s);
        }
    }
    hofsjurd other = HOFSJURD_CLOSED;
    size_t refused = 0;
    if (hofsjurd_wdl(&other, "x", 1).status != HOFSJURD_HANDLE_CLOSED) return 1;
    if (hofsjurd_open(&other, 0) != HOFSJURD_BAD_CACHE || hofsjurd_open(&other, 4097) != HOFSJURD_BAD_CACHE) return 1;
    if (hofsjurd_open(&other, 1) || hofsjurd_open(&other, 4096)) return 1;
    if (hofsjurd_wdl(&other, fens[0], strlen(fens[0])).status != HOFSJURD_NOT_COVERED) return 1;
    for (size_t i = 0; i < table_count; i++) {
        size_t n = tables[i].length;
        for (size_t k = 0; k < 12; k++) {
            size_t part = n * k / 12;
            uint8_t *cut = malloc(part ? part : 1);
            memcpy(cut, tables[i].bytes, part);
            uint32_t s = hofsjurd_add(&other, tables[i].name, strlen(tables[i].name), cut, part);
            refused += s != 0;
            calls++;
            if (s) free(cut);
        }
        if (hofsjurd_add(&other, tables[i].name, strlen(tables[i].name), tables[i].bytes, n)) return 1;
        if (hofsjurd_add(&other, tables[i].name, strlen(tables[i].name), tables[i].bytes, n) != HOFSJURD_FILE_DUPLICATE) return 1;
    }
    hofsjurd_close(&other);
    hofsjurd_close(&other);
    if (hofsjurd_judge(&other, fens[0], strlen(fens[0])).status != HOFSJURD_HANDLE_CLOSED) return 1;
    printf("%zu calls with other bytes, %zu answers, %zu cut files refused\n", calls, answers, refused);
    return 0;
}

static bool says(size_t length, const char *room, const char *text)
{
    return length == strlen(text) && !strcmp(room, text);
}

/* names: each is written where it fits with its 0, and nothing where it doesn't */
static int names(void)
{
    char room[HOFSJURD_TEXT_ROOM], none[HOFSJURD_TEXT_ROOM];
    size_t known = 0;
    for (uint32_t status = 0; status < 200; status++) {
        memset(room, '?', sizeof room);
        memset(none, '?', sizeof none);
        size_t n = hofsjurd_status_name(status, room, sizeof room);
        known += n != 0;
        if (n != strlen(room) || room[n + 1] != '?') return 1;
        if (hofsjurd_status_name(status, none, n) != n || none[0] != '?') return 1;
        if (hofsjurd_status_name(status, none, n + 1) != n || strcmp(none, room)) return 1;
    }
    if (!says(hofsjurd_status_name(HOFSJURD_FEN_BAD_SIDE, room, sizeof room), room, "BadSide")) return 1;
    if (!says(hofsjurd_status_name(UINT32_MAX, room, sizeof room), room, "")) return 1;
    if (!says(hofsjurd_verdict_name(HOFSJURD_TABLE_WHITE, room, sizeof room), room, "TableWhite")) return 1;
    if (!says(hofsjurd_verdict_name(8, room, sizeof room), room, "")) return 1;
    printf("%zu statuses have a name; ", known);
    return hofsjurd_version(room, sizeof room) == strlen(room) ? 0 : 1;
}

static bool is_same_move(hofsjurd_move a, hofsjurd_move b)
{
    return a.from == b.from && a.to == b.to && a.promotion == b.promotion;
}

/* the verdict of a game by what each of its plies is judged alone: a mate or a stalemate, or one that has stood for so many plies */
static int wanted(const int *judged, size_t ply, unsigned delay)
{
    if (judged[ply] >= HOFSJURD_WHITE_MATES && judged[ply] <= HOFSJURD_STALEMATE) return judged[ply];
    for (size_t back = 0; back <= delay; back++)
        if (back > ply || judged[ply - back] != judged[ply]) return HOFSJURD_GAME_GOES_ON;
    return judged[ply];
}

/* a game of some legal moves with a delay, its verdict beside that */
static int play(hofsjurd *h, size_t i, size_t *plies, size_t *ended)
{
    hofsjurd_game game = HOFSJURD_CLOSED;
    hofsjurd_move moves[HOFSJURD_MOST_MOVES];
    char fen[HOFSJURD_TEXT_ROOM];
    int judged[40];
    unsigned delay = i % 9;
    hofsjurd_reply told = hofsjurd_game_begin(&game, h, fens[i], strlen(fens[i]), (uint8_t)delay);
    for (size_t ply = 0; ply < 40; ply++) {
        size_t n = hofsjurd_game_fen(&game, fen, sizeof fen);
        hofsjurd_reply alone = hofsjurd_judge(h, fen, n), kept = hofsjurd_game_verdict(&game);
        hofsjurd_reply count = hofsjurd_moves(fen, n, moves, HOFSJURD_MOST_MOVES);
        if (told.status || alone.status || kept.status || count.status) return 1;
        judged[ply] = alone.value;
        if (told.value != wanted(judged, ply, delay) || kept.value != told.value) return 1;
        if (told.value) {
            hofsjurd_move any = {12, 28, 0};
            if (hofsjurd_game_move(&game, h, count.value ? moves : &any).status != HOFSJURD_GAME_OVER) return 1;
            ++*ended;
            break;
        }
        hofsjurd_move m = moves[(i + 7 * ply) % (size_t)count.value];
        char text[8];
        int from[2] = {'a' + m.from % 8, '1' + m.from / 8}, to[2] = {'a' + m.to % 8, '1' + m.to / 8};
        snprintf(text, sizeof text, "%c%c%c%c%c", from[0], from[1], to[0], to[1], " qrbn"[m.promotion]);
        told = ply % 2 ? hofsjurd_game_move(&game, h, &m) : hofsjurd_game_move_text(&game, h, text, m.promotion ? 5 : 4);
        ++*plies;
    }
    hofsjurd_game_end(&game);
    hofsjurd_game_end(&game);
    return hofsjurd_game_verdict(&game).status != HOFSJURD_GAME_CLOSED;
}

/* of all moves by numbers a game takes those that are listed, and no other */
static int takes_legal_alone(hofsjurd *h, size_t i)
{
    hofsjurd_move moves[HOFSJURD_MOST_MOVES], all[HOFSJURD_MOST_MOVES];
    hofsjurd_board board = board_of(&positions[i]);
    hofsjurd_reply count = hofsjurd_board_moves(&board, moves, HOFSJURD_MOST_MOVES);
    hofsjurd_reply short_by_one = hofsjurd_board_moves(&board, all, count.value ? (size_t)count.value - 1 : 0);
    size_t next = 0;
    if (count.status || (count.value && (short_by_one.status != HOFSJURD_NO_ROOM || short_by_one.value != count.value))) return 1;
    for (unsigned n = 0; n < 66 * 66 * 6; n++) {
        hofsjurd_move m = {(uint8_t)(n / 6 / 66), (uint8_t)(n / 6 % 66), (uint8_t)(n % 6)};
        hofsjurd_game game = HOFSJURD_CLOSED;
        bool is_listed = next < (size_t)count.value && is_same_move(moves[next], m);
        next += is_listed;
        if (hofsjurd_game_begin(&game, h, fens[i], strlen(fens[i]), 8).status) return 1;
        bool is_over = hofsjurd_game_verdict(&game).value != 0, is_move = m.from < 64 && m.to < 64 && m.promotion < 5;
        uint32_t status = hofsjurd_game_move(&game, h, &m).status;
        hofsjurd_game_end(&game);
        uint32_t wanted = is_listed ? HOFSJURD_OK : HOFSJURD_ILLEGAL_MOVE;
        if (is_over) wanted = HOFSJURD_GAME_OVER;
        if (!is_move) wanted = HOFSJURD_BAD_MOVE;
        if (status != wanted) return 1;
    }
    return next != (size_t)count.value;
}

static int games(hofsjurd *h)
{
    size_t plies = 0, ended = 0;
    hofsjurd_game game = HOFSJURD_CLOSED;
    hofsjurd closed = HOFSJURD_CLOSED;
    if (names()) { puts("a name is wrong"); return 1; }
    if (hofsjurd_game_begin(&game, h, fens[0], strlen(fens[0]), 9).status != HOFSJURD_BAD_DELAY) return 1;
    if (hofsjurd_game_begin(&game, h, fens[0], 5, 0).status != HOFSJURD_FEN_FIELD_COUNT) return 1;
    if (hofsjurd_game_begin(&game, &closed, fens[0], strlen(fens[0]), 0).status != HOFSJURD_HANDLE_CLOSED) return 1;
    if (hofsjurd_game_move_text(&game, h, "e2e4", 4).status != HOFSJURD_GAME_CLOSED) return 1;
    if (hofsjurd_game_begin(&game, h, fens[0], strlen(fens[0]), 8).status) return 1;
    if (hofsjurd_game_move_text(&game, &closed, "e2e4", 4).status != HOFSJURD_HANDLE_CLOSED) return 1;
    if (hofsjurd_game_move_text(&game, h, "e2e9", 4).status != HOFSJURD_BAD_MOVE) return 1;
    if (hofsjurd_game_begin(&game, h, fens[0], strlen(fens[0]), 8).status) return 1;
    hofsjurd_game_end(&game);
    for (size_t i = 0; i < count; i++)
        if (play(h, i, &plies, &ended)) { printf("game: %s\n", fens[i]); return 1; }
    for (size_t i = 0; i < count && i < 8; i++)
        if (takes_legal_alone(h, i)) { printf("moves: %s\n", fens[i]); return 1; }
    printf("%zu games of %zu plies, %zu with a verdict, each by the delay of its plies; games take the listed moves alone\n",
        count, plies, ended);
    return 0;
}

int main(int argc, char **argv)
{
    if (argc < 3) return 2;
    bool ours = argc < 5 || !strcmp(argv[2], "ours"), theirs = argc < 5 ? !strcmp(argv[2], "compare") : !ours;
    read_tables(argv[1]);
    read_fens();
    hofsjurd h = HOFSJURD_CLOSED;
    double t = now();
    if (ours && (hofsjurd_open(&h, 64) || add_all(&h))) return 1;
    if (ours) fprintf(stderr, "%zu tables opened in %.4f s\n", table_count, now() - t);
    if (theirs && !tb_init(argv[1])) return 1;
    int status = 0;
    if (!strcmp(argv[2], "compare")) status = compare(&h);
    else if (!strcmp(argv[2], "bytes")) status = bytes(&h);
    else if (!strcmp(argv[2], "games")) status = games(&h);
    else {
        int rounds = atoi(argv[4]);
        char what = argv[3][0];
        unsigned long sum = 0;
        hofsjurd_board *boards = malloc((count + 1) * sizeof *boards);
        hofsjurd_reply *replies = malloc((count + 1) * sizeof *replies);
        for (size_t i = 0; i < count; i++) boards[i] = board_of(&positions[i]);
        t = now();
        for (int r = 0; r < rounds; r++) {
            if (what == 'm') {
                if (hofsjurd_boards_wdl(&h, boards, count, replies, count)) return 1;
                sum += (unsigned)replies[0].value;
                continue;
            }
            for (size_t i = 0; i < count; i++) {
                const char *s = fens[i];
                size_t n = strlen(fens[i]);
                if (!ours) sum += what == 'd' ? fathom_root(&positions[i]) : fathom_wdl(&positions[i]);
                else if (what == 'w') sum += (unsigned)hofsjurd_wdl(&h, s, n).value;
                else if (what == 'd') sum += (unsigned)hofsjurd_dtz(&h, s, n).value;
                else if (what == 'j') sum += (unsigned)hofsjurd_judge(&h, s, n).value;
                else sum += (unsigned)hofsjurd_board_wdl(&h, &boards[i]).value;
            }
        }
        free(boards);
        free(replies);
        t = now() - t;
        double each = rounds ? (double)count * rounds / t : 0;
        printf("%s %s: %zu positions, %d rounds, %.3f s, %.0f a second (%lu)\n", argv[2], argv[3], count, rounds, t, each, sum);
    }
    hofsjurd_close(&h);
    /* no tb_free: this libfathom's prints an error for each file, and the process ends here */
    for (size_t i = 0; i < table_count; i++) { free(tables[i].name); free(tables[i].bytes); }
    for (size_t i = 0; i < count; i++) free(fens[i]);
    free(tables); free(fens); free(positions);
    return status;
}
