/* Fathom's interface over libhofsjurd_c. Every WDL value, every distance and every legal move is the library's. What is here is the
 * order, the ranks and the scores in which Fathom tells them, the value of a root move by its distance and the clock (value_by_clock),
 * the sets of squares of the helpers (tb_*_attacks), and who holds the files, which are opened when a probe asks for them. */
#define _POSIX_C_SOURCE 200809L
#ifdef TB_IS_LIBRARY
#define TB_API extern __attribute__((visibility("default")))
#endif
#include "tbprobe.h"
#include "hofsjurd_folder.h"
#include <pthread.h>
#include <stdio.h>
#include <stdlib.h>
#include <string.h>

#ifdef __cplusplus
extern "C" {
#endif
TB_API int TB_MaxCardinality, TB_MaxCardinalityDTM;
unsigned TB_LARGEST = 0;
int TB_MaxCardinality = 0, TB_MaxCardinalityDTM = 0;
#ifdef __cplusplus
}
#endif

/* ------------------------------------------------------------------------------------------------------------- tables */

/* The files of a tb_init, and who holds them: this module while they are the present ones, and each thread's prober. */
typedef struct {
    hofsjurd_listing *files;
    unsigned long holders;
} listed_tables;

/* a thread's own prober over them */
typedef struct {
    hofsjurd_prober *prober;
    listed_tables *over;
    unsigned long era; /* of the tb_init or tb_free that it was opened after; 0 for none */
} own_prober;

static pthread_mutex_t guard = PTHREAD_MUTEX_INITIALIZER; /* for `present` and all `holders` */
static listed_tables *present;
static unsigned long era = 1; /* grows with each tb_init and tb_free */

static pthread_once_t once = PTHREAD_ONCE_INIT;
static pthread_key_t key;
static bool has_key; /* none where the process has too many of them: then each probe fails */
static __thread own_prober *mine;

static void let_go(listed_tables *tables)
{
    if (!tables) return;
    pthread_mutex_lock(&guard);
    bool is_last = --tables->holders == 0;
    pthread_mutex_unlock(&guard);
    if (!is_last) return;
    hofsjurd_listing_free(tables->files);
    free(tables);
}

static void close_prober(own_prober *own)
{
    hofsjurd_prober_close(own->prober);
    let_go(own->over);
    own->prober = NULL;
    own->over = NULL;
    own->era = 0;
}

/* when a thread ends */
static void drop_prober(void *own)
{
    close_prober((own_prober *)own);
    free(own);
    mine = NULL;
}

static void make_key(void)
{
    has_key = !pthread_key_create(&key, drop_prober);
}

static own_prober *make_own(void)
{
    pthread_once(&once, make_key);
    own_prober *own = has_key ? (own_prober *)calloc(1, sizeof *own) : NULL;
    if (own && pthread_setspecific(key, own)) {
        free(own);
        own = NULL;
    }
    return mine = own;
}

/* this thread's prober over the present tables; NULL where memory is refused */
static hofsjurd_prober *prober_here(void)
{
    own_prober *own = mine;
    if (own && own->era == __atomic_load_n(&era, __ATOMIC_ACQUIRE)) return own->prober;
    if (!own && !(own = make_own())) return NULL;
    close_prober(own);
    pthread_mutex_lock(&guard);
    own->over = present;
    own->era = era;
    if (present) present->holders++;
    pthread_mutex_unlock(&guard);
    if (!hofsjurd_prober_open(&own->prober, own->over ? own->over->files : NULL, 64)) return own->prober;
    close_prober(own);
    return NULL;
}

static void replace(listed_tables *tables)
{
    pthread_mutex_lock(&guard);
    listed_tables *old = present;
    present = tables;
    __atomic_add_fetch(&era, 1, __ATOMIC_RELEASE);
    TB_LARGEST = tables && tables->files ? hofsjurd_listing_largest(tables->files) : 0; /* here, so that of two calls at once the later one's stays */
    TB_MaxCardinality = (int)TB_LARGEST;
    pthread_mutex_unlock(&guard);
    if (mine) close_prober(mine);
    let_go(old);
}

static void print_refused(const char *path, const char *name, uint32_t status, int error)
{
    char why[HOFSJURD_TEXT_ROOM] = "";
    if (error) snprintf(why, sizeof why, "%s", strerror(error));
    else if (status == HOFSJURD_FOLDER_CHANGED) strcpy(why, "changed since tb_init");
    else hofsjurd_status_name(status, why, sizeof why);
    fprintf(stderr, "tbprobe: %s%s%s: %s\n", path, name ? "/" : "", name ? name : "", why);
}

/* A folder that isn't there is passed over, as by Fathom; anything else that isn't taken is told. */
static bool tell_skipped(void *is_strict, const char *path, const char *name, uint32_t status, int error)
{
    if (status != HOFSJURD_FOLDER_ABSENT || *(bool *)is_strict) print_refused(path, name, status, error);
    return !*(bool *)is_strict;
}

/* A file that a probe asked for, and that is as one that isn't there. */
static bool report_refused(void *with, const char *path, const char *name, uint32_t status, int error)
{
    (void)with;
    print_refused(path, name, status, error);
    return true;
}

/* the folders of a path, in its order */
static bool list_path(listed_tables *tables, char *path, bool is_strict)
{
    char *rest = path;
    for (char *at = strtok_r(path, ":", &rest); at; at = strtok_r(NULL, ":", &rest))
        if (hofsjurd_listing_add(&tables->files, at, tell_skipped, &is_strict)) return false;
    if (!tables->files) return true;
    if (is_strict && hofsjurd_listing_open_all(tables->files, tell_skipped, &is_strict)) return false;
    hofsjurd_listing_report(tables->files, report_refused, NULL);
    return true;
}

bool tb_init(const char *_path)
{
    const char *strict = getenv("HOFSJURD_STRICT");
    if (!_path || !*_path || !strcmp(_path, "<empty>")) {
        replace(NULL);
        return true;
    }
    listed_tables *tables = (listed_tables *)calloc(1, sizeof *tables);
    char *path = strdup(_path);
    bool is_good = tables && path && list_path(tables, path, strict && *strict);
    free(path);
    if (!is_good && tables) {
        hofsjurd_listing_free(tables->files);
        free(tables);
    }
    if (is_good) tables->holders = 1;
    replace(is_good ? tables : NULL);
    return is_good;
}

bool tb_init_impl(const char *_path)
{
    return tb_init(_path);
}

void tb_free(void)
{
    replace(NULL);
}

/* ---------------------------------------------------------------------------------------------------------- positions */

static hofsjurd_board board_of(uint64_t white, uint64_t black, uint64_t kings, uint64_t queens, uint64_t rooks, uint64_t bishops,
    uint64_t knights, uint64_t pawns, unsigned ep, bool turn)
{
    hofsjurd_board board = {white, black, kings, queens, rooks, bishops, knights, pawns, 0, 1, 0, 0, 64};
    board.side = turn ? 0 : 1;
    if (ep && ep < 64) board.passed = (uint8_t)ep;
    return board;
}

typedef hofsjurd_reply question(hofsjurd_prober *, const hofsjurd_board *);

/* An en passant square that no pawn passed counts as none. */
static hofsjurd_reply ask(question *asked, hofsjurd_prober *prober, hofsjurd_board *board)
{
    hofsjurd_reply reply = asked(prober, board);
    if (reply.status != HOFSJURD_BAD_EN_PASSANT) return reply;
    board->passed = 64;
    return asked(prober, board);
}

/* ------------------------------------------------------------------------------------------------------- moves in order */

typedef struct {
    hofsjurd_root_move of[HOFSJURD_MOST_MOVES];
    int count;
} move_list;

/* by kind (king, queen, rook, bishop, knight, pawn), from, en passant first, to, what a pawn becomes (queen, knight, rook, bishop) */
static uint32_t order_of(const hofsjurd_board *board, const hofsjurd_root_move *m)
{
    static const uint32_t promoted[] = {0, 0, 2, 3, 1};
    uint64_t man = 1ULL << m->move.from;
    uint32_t kind = board->kings & man ? 0 : board->queens & man ? 1 : board->rooks & man ? 2 : board->bishops & man ? 3 : board->knights & man ? 4 : 5;
    uint32_t is_later = m->effect != HOFSJURD_EN_PASSANT;
    return kind << 24 | (uint32_t)m->move.from << 16 | is_later << 15 | (uint32_t)m->move.to << 4 | promoted[m->move.promotion];
}

/* There are few moves: each is put in its place. */
static void put_in_order(const hofsjurd_board *board, move_list *moves)
{
    for (int i = 1; i < moves->count; i++) {
        hofsjurd_root_move moved = moves->of[i];
        uint32_t order = order_of(board, &moved);
        int at = i;
        for (; at > 0 && order < order_of(board, &moves->of[at - 1]); at--) moves->of[at] = moves->of[at - 1];
        moves->of[at] = moved;
    }
}

static uint32_t list_moves(hofsjurd_prober *prober, hofsjurd_board *board, move_list *moves)
{
    hofsjurd_reply reply = hofsjurd_prober_determined_root(prober, board, moves->of, HOFSJURD_MOST_MOVES);
    if (reply.status == HOFSJURD_BAD_EN_PASSANT) {
        board->passed = 64;
        reply = hofsjurd_prober_determined_root(prober, board, moves->of, HOFSJURD_MOST_MOVES);
    }
    moves->count = reply.status ? 0 : reply.value;
    if (moves->count >= TB_MAX_MOVES) return HOFSJURD_NO_ROOM;
    put_in_order(board, moves);
    return reply.status;
}

/* ------------------------------------------------------------------------------------------------------------- probes */

/* The value as soon as it is known, as Fathom tells it at a capture that wins. Otherwise what is the same whatever missing tables hold. */
static hofsjurd_reply ask_value(hofsjurd_prober *prober, hofsjurd_board *board)
{
    hofsjurd_reply reply = ask(hofsjurd_prober_known_wdl, prober, board);
    bool is_left_open = reply.status == HOFSJURD_NOT_COVERED || reply.status >= HOFSJURD_FILE_BAD_NAME;
    return is_left_open ? ask(hofsjurd_prober_determined_wdl, prober, board) : reply;
}

unsigned tb_probe_wdl_impl(uint64_t _white, uint64_t _black, uint64_t _kings, uint64_t _queens, uint64_t _rooks,
    uint64_t _bishops, uint64_t _knights, uint64_t _pawns, unsigned _ep, bool _turn)
{
    hofsjurd_prober *prober = prober_here();
    if (!prober) return TB_RESULT_FAILED;
    hofsjurd_board board = board_of(_white, _black, _kings, _queens, _rooks, _bishops, _knights, _pawns, _ep, _turn);
    hofsjurd_reply reply = ask_value(prober, &board);
    return reply.status ? TB_RESULT_FAILED : (unsigned)(reply.value + 2);
}

/* the value that a distance is, by the rule of fifty moves */
static unsigned value_by_clock(int dtz, int clock)
{
    if (dtz > 0) return dtz + clock <= 100 ? TB_WIN : TB_CURSED_WIN;
    if (dtz < 0) return clock - dtz <= 100 ? TB_LOSS : TB_BLESSED_LOSS;
    return TB_DRAW;
}

static unsigned result_of(const hofsjurd_root_move *m, int dtz, int clock)
{
    unsigned res = TB_SET_WDL(0u, value_by_clock(dtz, clock));
    res = TB_SET_FROM(res, (unsigned)m->move.from);
    res = TB_SET_TO(res, (unsigned)m->move.to);
    res = TB_SET_PROMOTES(res, (unsigned)m->move.promotion);
    res = TB_SET_EP(res, m->effect == HOFSJURD_EN_PASSANT ? 1u : 0u);
    return TB_SET_DTZ(res, (unsigned)(dtz < 0 ? -dtz : dtz));
}

/* A number by which Fathom picks one of several drawing moves: a sum over the men, with a number for each kind and side. */
static uint64_t material_number(const hofsjurd_board *board)
{
    static const uint64_t mover[] = {11811845319353239651ull, 10979190538029446137ull, 12311744257139811149ull,
        15202887380319082783ull, 17008651141875982339ull};
    static const uint64_t other[] = {15484752644942473553ull, 18264461213049635989ull, 15394650811035483107ull,
        13469005675588064321ull, 11695583624105689831ull};
    const uint64_t kinds[] = {board->queens, board->rooks, board->bishops, board->knights, board->pawns};
    uint64_t ours = board->side ? board->black : board->white, theirs = board->side ? board->white : board->black, sum = 0;
    for (int i = 0; i < 5; i++)
        sum += (unsigned)__builtin_popcountll(ours & kinds[i]) * mover[i] + (unsigned)__builtin_popcountll(theirs & kinds[i]) * other[i];
    return sum;
}

/* The place of the suggested move: the nearest win, the farthest loss, or one of the draws; -1 for none. */
static int suggested(const hofsjurd_board *board, const move_list *moves, int sign)
{
    int best = -1, draws = 0;
    for (int i = 0; i < moves->count; i++) {
        int dtz = moves->of[i].dtz.value;
        draws += dtz == 0;
        if (sign * dtz > 0 && (best < 0 || dtz < moves->of[best].dtz.value)) best = i;
    }
    if (sign || !draws) return best;
    uint64_t which = material_number(board) % (uint64_t)draws;
    for (int i = 0; i < moves->count; i++)
        if (moves->of[i].dtz.value == 0 && which-- == 0) return i;
    return -1;
}

static unsigned answer_root(hofsjurd_prober *prober, hofsjurd_board *board, unsigned rule50, unsigned *results)
{
    move_list moves;
    hofsjurd_reply root = ask(hofsjurd_prober_determined_dtz, prober, board);
    if (root.status || list_moves(prober, board, &moves)) return TB_RESULT_FAILED;
    for (int i = 0; i < moves.count; i++)
        if (moves.of[i].dtz.status) return TB_RESULT_FAILED;
    for (int i = 0; results && i < moves.count; i++) results[i] = result_of(&moves.of[i], moves.of[i].dtz.value, (uint8_t)rule50);
    if (results) results[moves.count] = TB_RESULT_FAILED;
    int best = suggested(board, &moves, (root.value > 0) - (root.value < 0));
    if (best >= 0) return result_of(&moves.of[best], root.value, (int)rule50);
    /* no move, or tables that contradict each other: what Fathom says then */
    return root.value < 0 ? TB_RESULT_CHECKMATE : root.value == 0 ? TB_RESULT_STALEMATE : TB_RESULT_FAILED;
}

unsigned tb_probe_root_impl(uint64_t _white, uint64_t _black, uint64_t _kings, uint64_t _queens, uint64_t _rooks,
    uint64_t _bishops, uint64_t _knights, uint64_t _pawns, unsigned _rule50, unsigned _ep, bool _turn, unsigned *_results)
{
    hofsjurd_prober *prober = prober_here();
    if (!prober) return TB_RESULT_FAILED;
    hofsjurd_board board = board_of(_white, _black, _kings, _queens, _rooks, _bishops, _knights, _pawns, _ep, _turn);
    return answer_root(prober, &board, _rule50, _results);
}

/* ------------------------------------------------------------------------------------------------------- ranks and scores */

static int rank_by_distance(int dtz, int clock, bool has_repeated)
{
    if (dtz > 0) return dtz + clock <= 99 && !has_repeated ? 1000 : 1000 - (dtz + clock);
    if (dtz < 0) return clock - 2 * dtz < 100 ? -1000 : -1000 + (clock - dtz);
    return 0;
}

/* Fathom's max and min have no parentheses, so that `max(3, r - 800) * PAWN / 200` is `3 > r - 800 ? 3 : r - 800 * PAWN / 200`. The
 * scores are to be the same. */
static int score_by_rank(int rank, int bound)
{
    if (rank >= bound) return TB_VALUE_MATE - TB_MAX_MATE_PLY - 1;
    if (rank > 0) return 3 > rank - 800 ? 3 : rank - 800 * TB_VALUE_PAWN / 200;
    if (rank == 0) return TB_VALUE_DRAW;
    if (rank > -bound) return -3 < rank + 800 ? -3 : rank + 800 * TB_VALUE_PAWN / 200;
    return -TB_VALUE_MATE + TB_MAX_MATE_PLY + 1;
}

static void put_ranked(struct TbRootMove *to, const hofsjurd_root_move *m, int rank, int score)
{
    to->move = (TbMove)((m->move.promotion & 7) << 12 | m->move.from << 6 | m->move.to);
    to->tbRank = rank;
    to->tbScore = score;
}

int tb_probe_root_dtz(uint64_t _white, uint64_t _black, uint64_t _kings, uint64_t _queens, uint64_t _rooks,
    uint64_t _bishops, uint64_t _knights, uint64_t _pawns, unsigned _rule50, unsigned _castling, unsigned _ep, bool _turn,
    bool hasRepeated, bool useRule50, struct TbRootMoves *_results)
{
    move_list moves;
    hofsjurd_prober *prober = _castling ? NULL : prober_here();
    hofsjurd_board board = board_of(_white, _black, _kings, _queens, _rooks, _bishops, _knights, _pawns, _ep, _turn);
    if (!prober || list_moves(prober, &board, &moves)) return 0;
    _results->size = (unsigned)moves.count;
    for (int i = 0; i < moves.count; i++) {
        if (moves.of[i].dtz.status) return 0;
        int rank = rank_by_distance(moves.of[i].dtz.value, (uint8_t)_rule50, hasRepeated);
        put_ranked(&_results->moves[i], &moves.of[i], rank, score_by_rank(rank, useRule50 ? 900 : 1));
    }
    return 1;
}

int tb_probe_root_wdl(uint64_t _white, uint64_t _black, uint64_t _kings, uint64_t _queens, uint64_t _rooks,
    uint64_t _bishops, uint64_t _knights, uint64_t _pawns, unsigned _rule50, unsigned _castling, unsigned _ep, bool _turn,
    bool useRule50, struct TbRootMoves *_results)
{
    static const int ranks[] = {-1000, -899, 0, 899, 1000};
    static const int scores[] = {-TB_VALUE_MATE + TB_MAX_MATE_PLY + 1, TB_VALUE_DRAW - 2, TB_VALUE_DRAW, TB_VALUE_DRAW + 2,
        TB_VALUE_MATE - TB_MAX_MATE_PLY - 1};
    move_list moves;
    (void)_rule50;
    hofsjurd_prober *prober = _castling ? NULL : prober_here();
    hofsjurd_board board = board_of(_white, _black, _kings, _queens, _rooks, _bishops, _knights, _pawns, _ep, _turn);
    if (!prober || list_moves(prober, &board, &moves)) return 0;
    _results->size = (unsigned)moves.count;
    for (int i = 0; i < moves.count; i++) {
        if (moves.of[i].wdl.status) return 0;
        int value = moves.of[i].wdl.value;
        if (!useRule50) value = value > 0 ? HOFSJURD_WIN : value < 0 ? HOFSJURD_LOSS : HOFSJURD_DRAW;
        put_ranked(&_results->moves[i], &moves.of[i], ranks[value + 2], scores[value + 2]);
    }
    return 1;
}

/* ------------------------------------------------------------------------------------------------------------ helpers */

#ifndef TB_NO_HELPER_API

static const int around[8][2] = {{1, 0}, {0, 1}, {-1, 0}, {0, -1}, {1, 1}, {-1, 1}, {-1, -1}, {1, -1}};
static const int leaps[8][2] = {{1, 2}, {2, 1}, {-1, 2}, {-2, 1}, {1, -2}, {2, -1}, {-1, -2}, {-2, -1}};
static const int forward[2][2] = {{-1, 1}, {1, 1}}, backward[2][2] = {{-1, -1}, {1, -1}};

/* the squares that some ways lead to, each over empty squares and at most so many steps long */
static uint64_t reached(unsigned square, uint64_t occupied, const int (*ways)[2], int count, int most)
{
    uint64_t all = 0;
    for (int way = 0; way < count; way++) {
        int file = (int)(square & 7), rank = (int)(square >> 3 & 7);
        for (int step = 0; step < most; step++) {
            file += ways[way][0];
            rank += ways[way][1];
            if (file < 0 || file > 7 || rank < 0 || rank > 7) break;
            uint64_t here = 1ULL << (rank * 8 + file);
            all |= here;
            if (occupied & here) break;
        }
    }
    return all;
}

unsigned tb_pop_count(uint64_t _bb) { return (unsigned)__builtin_popcountll(_bb); }
unsigned tb_lsb(uint64_t _bb) { return (unsigned)__builtin_ffsll((long long)_bb) - 1; }
uint64_t tb_pop_lsb(uint64_t _bb) { return _bb & (_bb - 1); }
uint64_t tb_king_attacks(unsigned _square) { return reached(_square, 0, around, 8, 1); }
uint64_t tb_knight_attacks(unsigned _square) { return reached(_square, 0, leaps, 8, 1); }
uint64_t tb_rook_attacks(unsigned _square, uint64_t _occ) { return reached(_square, _occ, around, 4, 7); }
uint64_t tb_bishop_attacks(unsigned _square, uint64_t _occ) { return reached(_square, _occ, around + 4, 4, 7); }
uint64_t tb_queen_attacks(unsigned _square, uint64_t _occ) { return reached(_square, _occ, around, 8, 7); }
uint64_t tb_pawn_attacks(unsigned _square, bool _color) { return reached(_square, 0, _color ? forward : backward, 2, 1); }

#endif
