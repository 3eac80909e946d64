/* tbprobe.h: the interface of Fathom, a prober of Syzygy tables, over libhofsjurd_c.
 *
 * It stands in the place of Fathom's header of this name, and tbprobe.c in that of Fathom's code: names, numbers and types are
 * Fathom's, written anew from its interface. A program is compiled with tbprobe.c and hofsjurd_folder.c, and linked with
 * libhofsjurd_c and the threads of the system. libfathom.so.1 of tools/build_c has all of it, for programs that are built
 * already. docs/C_LIBRARY.md, "In place of Fathom", says where the answers differ. */
#ifndef TBPROBE_H
#define TBPROBE_H

#include <stdint.h>
#ifndef TB_NO_STDBOOL
#include <stdbool.h>
#elif !defined(__cplusplus)
typedef uint8_t bool;
#define true 1
#define false 0
#endif

#ifdef __cplusplus
extern "C" {
#endif

/* What a shared library is to export says so here. */
#ifndef TB_API
#define TB_API extern
#endif

/* ----------------------------------------------------------------------------------------------------------- numbers */

#define TB_MAX_MOVES (192 + 1)
#define TB_MAX_CAPTURES 64
#define TB_MAX_PLY 256

/* the scores of root moves */
#ifndef TB_VALUE_PAWN
#define TB_VALUE_PAWN 100
#define TB_VALUE_MATE 32000
#define TB_VALUE_INFINITE 32767
#define TB_VALUE_DRAW 0
#define TB_MAX_MATE_PLY 255
#endif

/* rights to castle; with any of them each probe fails */
#define TB_CASTLING_K 0x1
#define TB_CASTLING_Q 0x2
#define TB_CASTLING_k 0x4
#define TB_CASTLING_q 0x8

/* what a position is worth to the side to move */
#define TB_LOSS 0
#define TB_BLESSED_LOSS 1
#define TB_DRAW 2
#define TB_CURSED_WIN 3
#define TB_WIN 4

/* what a pawn becomes */
#define TB_PROMOTES_NONE 0
#define TB_PROMOTES_QUEEN 1
#define TB_PROMOTES_ROOK 2
#define TB_PROMOTES_BISHOP 3
#define TB_PROMOTES_KNIGHT 4

/* A result of tb_probe_root is one number: a value, the squares of a move, what its pawn becomes, whether it takes en passant, and
 * the distance in plies, without its sign. */
#define TB_RESULT_WDL_MASK 0x0000000F
#define TB_RESULT_TO_MASK 0x000003F0
#define TB_RESULT_FROM_MASK 0x0000FC00
#define TB_RESULT_PROMOTES_MASK 0x00070000
#define TB_RESULT_EP_MASK 0x00080000
#define TB_RESULT_DTZ_MASK 0xFFF00000
#define TB_RESULT_WDL_SHIFT 0
#define TB_RESULT_TO_SHIFT 4
#define TB_RESULT_FROM_SHIFT 10
#define TB_RESULT_PROMOTES_SHIFT 16
#define TB_RESULT_EP_SHIFT 19
#define TB_RESULT_DTZ_SHIFT 20

#define TB_GET_WDL(_res) (((_res) & TB_RESULT_WDL_MASK) >> TB_RESULT_WDL_SHIFT)
#define TB_GET_TO(_res) (((_res) & TB_RESULT_TO_MASK) >> TB_RESULT_TO_SHIFT)
#define TB_GET_FROM(_res) (((_res) & TB_RESULT_FROM_MASK) >> TB_RESULT_FROM_SHIFT)
#define TB_GET_PROMOTES(_res) (((_res) & TB_RESULT_PROMOTES_MASK) >> TB_RESULT_PROMOTES_SHIFT)
#define TB_GET_EP(_res) (((_res) & TB_RESULT_EP_MASK) >> TB_RESULT_EP_SHIFT)
#define TB_GET_DTZ(_res) (((_res) & TB_RESULT_DTZ_MASK) >> TB_RESULT_DTZ_SHIFT)

#define TB_SET_WDL(_res, _wdl) (((_res) & ~TB_RESULT_WDL_MASK) | (((_wdl) << TB_RESULT_WDL_SHIFT) & TB_RESULT_WDL_MASK))
#define TB_SET_TO(_res, _to) (((_res) & ~TB_RESULT_TO_MASK) | (((_to) << TB_RESULT_TO_SHIFT) & TB_RESULT_TO_MASK))
#define TB_SET_FROM(_res, _from) (((_res) & ~TB_RESULT_FROM_MASK) | (((_from) << TB_RESULT_FROM_SHIFT) & TB_RESULT_FROM_MASK))
#define TB_SET_PROMOTES(_res, _promotes) \
    (((_res) & ~TB_RESULT_PROMOTES_MASK) | (((_promotes) << TB_RESULT_PROMOTES_SHIFT) & TB_RESULT_PROMOTES_MASK))
#define TB_SET_EP(_res, _ep) (((_res) & ~TB_RESULT_EP_MASK) | (((_ep) << TB_RESULT_EP_SHIFT) & TB_RESULT_EP_MASK))
#define TB_SET_DTZ(_res, _dtz) (((_res) & ~TB_RESULT_DTZ_MASK) | (((_dtz) << TB_RESULT_DTZ_SHIFT) & TB_RESULT_DTZ_MASK))

#define TB_RESULT_CHECKMATE TB_SET_WDL(0, TB_WIN)
#define TB_RESULT_STALEMATE TB_SET_WDL(0, TB_DRAW)
#define TB_RESULT_FAILED 0xFFFFFFFF

/* a move of tb_probe_root_dtz and tb_probe_root_wdl */
typedef uint16_t TbMove;
#define TB_MOVE_FROM(move) (((move) >> 6) & 0x3F)
#define TB_MOVE_TO(move) ((move) & 0x3F)
#define TB_MOVE_PROMOTES(move) (((move) >> 12) & 0x7)

struct TbRootMove {
    TbMove move;
    TbMove pv[TB_MAX_PLY];
    unsigned pvSize;
    int32_t tbScore, tbRank;
};

struct TbRootMoves {
    unsigned size;
    struct TbRootMove moves[TB_MAX_MOVES];
};

/* ------------------------------------------------------------------------------------------------------------- tables */

/* the greatest number of men of a WDL table by the names that were found: 0, or 3 to 5 */
TB_API unsigned TB_LARGEST;

/* Lists the tables of the folders of a path, with ':' between. Each is mapped, and looked at once, when a probe needs it. NULL, "" and
 * "<empty>" have none. A file that can't be read, isn't taken, or was exchanged since is told on standard error, by this call or then, and
 * is as one that isn't there. Where the environment has HOFSJURD_STRICT, and not empty, this call looks at all, and any such file
 * makes it fail, with no tables. It fails also where memory is refused. Other threads may probe meanwhile: each keeps the tables that
 * it has until its next probe. */
TB_API bool tb_init(const char *_path);
TB_API bool tb_init_impl(const char *_path);

/* Lets the tables go. They stay mapped for threads that have probed and haven't since probed again or ended. */
TB_API void tb_free(void);

/* ------------------------------------------------------------------------------------------------------------- probes */

/* Squares are 0 for a1 to 63 for h8, `_ep` is 0 for none, `_turn` is true for white. Any thread may call any of these. Each answers
 * TB_RESULT_FAILED, or 0 those that rank moves, where a table that is needed is missing or damaged, where there is a right to castle
 * or more than five men, where the position breaks a rule, and where memory is refused. */

TB_API unsigned tb_probe_wdl_impl(uint64_t _white, uint64_t _black, uint64_t _kings, uint64_t _queens, uint64_t _rooks,
    uint64_t _bishops, uint64_t _knights, uint64_t _pawns, unsigned _ep, bool _turn);
TB_API unsigned tb_probe_root_impl(uint64_t _white, uint64_t _black, uint64_t _kings, uint64_t _queens, uint64_t _rooks,
    uint64_t _bishops, uint64_t _knights, uint64_t _pawns, unsigned _rule50, unsigned _ep, bool _turn, unsigned *_results);

/* The WDL value, TB_LOSS to TB_WIN, with a halfmove clock of 0; it fails with another one. */
static inline unsigned tb_probe_wdl(uint64_t _white, uint64_t _black, uint64_t _kings, uint64_t _queens, uint64_t _rooks,
    uint64_t _bishops, uint64_t _knights, uint64_t _pawns, unsigned _rule50, unsigned _castling, unsigned _ep, bool _turn)
{
    if (_castling || _rule50) return TB_RESULT_FAILED;
    return tb_probe_wdl_impl(_white, _black, _kings, _queens, _rooks, _bishops, _knights, _pawns, _ep, _turn);
}

/* A move that keeps the value, with value and distance; or TB_RESULT_CHECKMATE, TB_RESULT_STALEMATE. Where `_results` isn't NULL, it
 * has room for TB_MAX_MOVES numbers, and gets all legal moves with TB_RESULT_FAILED behind them. */
static inline unsigned tb_probe_root(uint64_t _white, uint64_t _black, uint64_t _kings, uint64_t _queens, uint64_t _rooks,
    uint64_t _bishops, uint64_t _knights, uint64_t _pawns, unsigned _rule50, unsigned _castling, unsigned _ep, bool _turn,
    unsigned *_results)
{
    if (_castling) return TB_RESULT_FAILED;
    return tb_probe_root_impl(
        _white, _black, _kings, _queens, _rooks, _bishops, _knights, _pawns, _rule50, _ep, _turn, _results);
}

/* All legal moves, each with a rank and a score, by distances and by values. `pv` and `pvSize` aren't written. */
TB_API int tb_probe_root_dtz(uint64_t _white, uint64_t _black, uint64_t _kings, uint64_t _queens, uint64_t _rooks,
    uint64_t _bishops, uint64_t _knights, uint64_t _pawns, unsigned _rule50, unsigned _castling, unsigned _ep, bool _turn,
    bool hasRepeated, bool useRule50, struct TbRootMoves *_results);
TB_API int tb_probe_root_wdl(uint64_t _white, uint64_t _black, uint64_t _kings, uint64_t _queens, uint64_t _rooks,
    uint64_t _bishops, uint64_t _knights, uint64_t _pawns, unsigned _rule50, unsigned _castling, unsigned _ep, bool _turn,
    bool useRule50, struct TbRootMoves *_results);

/* ------------------------------------------------------------------------------------------------------------ helpers */

#ifndef TB_NO_HELPER_API
TB_API unsigned tb_pop_count(uint64_t _bb);
TB_API unsigned tb_lsb(uint64_t _bb);
TB_API uint64_t tb_pop_lsb(uint64_t _bb);
TB_API uint64_t tb_king_attacks(unsigned _square);
TB_API uint64_t tb_queen_attacks(unsigned _square, uint64_t _occ);
TB_API uint64_t tb_rook_attacks(unsigned _square, uint64_t _occ);
TB_API uint64_t tb_bishop_attacks(unsigned _square, uint64_t _occ);
TB_API uint64_t tb_knight_attacks(unsigned _square);
TB_API uint64_t tb_pawn_attacks(unsigned _square, bool _color);
#endif

#ifdef __cplusplus
}
#endif

#endif
