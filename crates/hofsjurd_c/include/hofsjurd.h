/* hofsjurd.h: Syzygy endgame tables of three to five men, for programs in C (C99 and later) and C++.
 *
 * A static library: tools/build_c of the repository makes libhofsjurd_c.a, which needs malloc, realloc, free and the memory
 * functions of the C library and nothing else. It has no state of its own, opens no file, starts no thread, needs no
 * initialisation and never ends the process. docs/C_LIBRARY.md is the guide; contrib/hofsjurd_folder.h lists the files of folders
 * and maps each when a position asks for it.
 *
 * WHAT THE CALLER OWES, and what nothing checks. docs/C_LIBRARY.md says what is proved beside that, for any bytes and any numbers.
 *
 *   1. A pointer with a length points to so many readable bytes (or items) that nobody writes during the call. It isn't NULL,
 *      even where the length is 0, and the length is below 2^63 bytes. What a call writes to overlaps nothing else that it gets.
 *   2. The bytes given to hofsjurd_add stay readable and unchanged until no handle has the table any more: until hofsjurd_close,
 *      the next hofsjurd_open or a hofsjurd_share into it has returned for this handle and for all that it was shared with.
 *      Tables are read in place. Their name may go after the call.
 *   3. A handle (`hofsjurd`, `hofsjurd_game`) was set to all bytes zero before its first use (HOFSJURD_CLOSED), and only this
 *      library has written it since. It isn't copied: of two copies one would hold freed memory after the other is closed.
 *      It may be moved by memcpy, if only the new place is used from then on.
 *   4. A handle serves one call at a time. It may pass from thread to thread, where a lock, or a thread's start or end, stands
 *      between the calls. Each thread wants one of its own: hofsjurd_share makes it from a first, without the files.
 *   5. malloc, realloc and free are those of one allocator, and align as malloc does. No call comes from a signal handler, nor
 *      in the forked child of a process with threads. */
#ifndef HOFSJURD_H
#define HOFSJURD_H

#include <stdbool.h>
#include <stddef.h>
#include <stdint.h>

/* The version of this header: that of the library that came with it, which hofsjurd_version tells. tools/build_c compares them. */
#define HOFSJURD_VERSION_MAJOR 1
#define HOFSJURD_VERSION_MINOR 0
#define HOFSJURD_VERSION_PATCH 0
#define HOFSJURD_VERSION "hofsjurd 1.0.0"

#ifdef __cplusplus
extern "C" {
#endif

/* ------------------------------------------------------------------------------------------------------------ answers */

/* What most calls return, in a register: a status, and the answer where the status is HOFSJURD_OK. With another status the
 * value is 0, but for HOFSJURD_NO_ROOM. */
typedef struct {
    uint32_t status;
    int32_t value;
} hofsjurd_reply;

enum {
    HOFSJURD_OK = 0,
    HOFSJURD_HANDLE_CLOSED = 1, /* the handle of the tables isn't open */
    HOFSJURD_OUT_OF_SCOPE = 2,  /* a right to castle, or more than five men */
    HOFSJURD_NOT_COVERED = 3,   /* a table that is needed was not added */
    HOFSJURD_DAMAGED = 4,       /* a table has no value where one is needed, or contradicts itself */
    HOFSJURD_OUT_OF_MEMORY = 5, /* malloc or realloc returned NULL; nothing is left changed but what the call says */
    HOFSJURD_GAME_CLOSED = 6,   /* the handle of the game holds none */

    /* a FEN text, its first fault in this order */
    HOFSJURD_FEN_FIELD_COUNT = 16,       /* not six fields with one space between */
    HOFSJURD_FEN_BAD_PLACEMENT = 17,     /* the men */
    HOFSJURD_FEN_BAD_SIDE = 18,          /* neither w nor b */
    HOFSJURD_FEN_BAD_CASTLING_TEXT = 19, /* neither - nor a part of KQkq in this order */
    HOFSJURD_FEN_BAD_SQUARE = 20,        /* the en passant square: neither - nor a square */
    HOFSJURD_FEN_BAD_NUMBER = 21,        /* a counter: not 0 to 9999, or needless zeros */

    /* a position, its first fault in this order */
    HOFSJURD_BAD_KINGS = 32,         /* a side hasn't exactly one king */
    HOFSJURD_TOO_MANY_MEN = 33,      /* a side has more than 16 men */
    HOFSJURD_PAWN_ON_EDGE = 34,      /* a pawn on the first or the last rank */
    HOFSJURD_BAD_CASTLING = 35,      /* a right to castle whose king or rook isn't at home */
    HOFSJURD_BAD_EN_PASSANT = 36,    /* an en passant square that no pawn passed just now */
    HOFSJURD_OPPONENT_IN_CHECK = 37, /* the side that isn't to move is in check */
    HOFSJURD_BAD_COUNTER = 38,       /* a counter above 9999 */

    /* a table file, its first fault in this order */
    HOFSJURD_FILE_BAD_NAME = 64,     /* none of the 290 names, as KQvK.rtbw */
    HOFSJURD_FILE_BAD_SIZE = 65,     /* below 80 bytes, or not 16 more than a multiple of 64 */
    HOFSJURD_FILE_BAD_MAGIC = 66,    /* the first four bytes aren't those of this kind of table */
    HOFSJURD_FILE_BAD_FLAGS = 67,    /* the flags disagree with the name */
    HOFSJURD_FILE_BAD_PIECES = 68,   /* the pieces disagree with the name */
    HOFSJURD_FILE_BAD_ORDER = 69,    /* the orders of the pieces */
    HOFSJURD_FILE_TRUNCATED = 70,    /* a part passes the end */
    HOFSJURD_FILE_BAD_EXPONENT = 71, /* the size of a block or of a span */
    HOFSJURD_FILE_BAD_CODE = 72,     /* the lengths or the lowest symbols of a code */
    HOFSJURD_FILE_BAD_SYMBOL = 73,   /* a symbol stands for itself, for none, or for too many values */
    HOFSJURD_FILE_BAD_SPARSE = 74,   /* an entry of the sparse index */

    /* what a set of tables, a caller's array or a game refuses */
    HOFSJURD_FILE_DUPLICATE = 80,  /* there is a table of this kind for these men already */
    HOFSJURD_BAD_CACHE = 81,       /* a cache of no block, or of more than 4096 */
    HOFSJURD_LENGTHS_DIFFER = 82,  /* as many replies as boards are wanted */
    HOFSJURD_NO_ROOM = 83,         /* the caller's array is too short; the value is the length that is needed */
    HOFSJURD_GAME_OVER = 84,       /* the game has its verdict and takes no move */
    HOFSJURD_BAD_MOVE = 85,        /* the text or the numbers are no move at all */
    HOFSJURD_ILLEGAL_MOVE = 86,    /* the move isn't legal in the position */
    HOFSJURD_BAD_DELAY = 87,       /* a delay above 8 plies */
    HOFSJURD_AMBIGUOUS_MOVE = 88   /* what the text tells is so of two legal moves */
};

/* WDL values, for the side to move */
enum {
    HOFSJURD_LOSS = -2,
    HOFSJURD_BLESSED_LOSS = -1, /* a loss, but for the rule of fifty moves */
    HOFSJURD_DRAW = 0,
    HOFSJURD_CURSED_WIN = 1,    /* a win, but for the rule of fifty moves */
    HOFSJURD_WIN = 2
};

/* verdicts, by their numbers in messages and records */
enum {
    HOFSJURD_GAME_GOES_ON = 0,
    HOFSJURD_WHITE_MATES = 1, /* black is checkmated */
    HOFSJURD_BLACK_MATES = 2,
    HOFSJURD_STALEMATE = 3,
    HOFSJURD_TABLE_DRAW = 4,  /* by the tables */
    HOFSJURD_TABLE_WHITE = 5, /* white wins by the tables, within the rule of fifty moves */
    HOFSJURD_TABLE_BLACK = 6,
    HOFSJURD_STOPPED = 7      /* a table that is needed is damaged */
};

/* -------------------------------------------------------------------------------------------------------------- tables */

/* An open set of tables, or none. Neither field is to be read or written. */
typedef struct {
    bool is_open;
    struct {
        void *at;
    } seat;
} hofsjurd;

#define HOFSJURD_CLOSED {false, {NULL}}

/* Makes the handle hold a set without tables that keeps at most `cache` decoded blocks, 1 to 4096; 64 suits most. What it
 * held is freed first. Any other status than HOFSJURD_OK (HOFSJURD_BAD_CACHE, HOFSJURD_OUT_OF_MEMORY) leaves the handle
 * closed. */
uint32_t hofsjurd_open(hofsjurd *handle, size_t cache);

/* Adds the table that a file is: its name without a folder ("KQvK.rtbw"), and its bytes, read or mapped; see 2 above. All
 * that the format asks is looked at once. A file that is refused leaves the set as it was, and its bytes aren't kept. */
uint32_t hofsjurd_add(hofsjurd *handle, const char *name, size_t name_length, const void *bytes, size_t length);

/* Makes `to` hold the tables that `from` has now, with a cache of its own of `cache` decoded blocks, 1 to 4096: for another thread.
 * No file is looked at again, and no dictionary is made again; both handles count as holders of each table, which is freed with
 * the last of them. Each answers as the other does. A table that is added to one of them later isn't one of the other. `from` and
 * `to` are two handles; a call with `from` is a call on it like any other (4 above). What `to` held is freed first. Any other
 * status than HOFSJURD_OK (HOFSJURD_HANDLE_CLOSED of `from`, HOFSJURD_BAD_CACHE, HOFSJURD_OUT_OF_MEMORY) leaves it closed; `from`
 * stays as it was. */
uint32_t hofsjurd_share(hofsjurd *from, hofsjurd *to, size_t cache);

/* Frees what the handle holds. A closed one stays closed. */
void hofsjurd_close(hofsjurd *handle);

/* Whether the set has the table for a material ("KQvK"), 1 or 0: its WDL table (.rtbw) where `kind` is 0, and its DTZ table
 * (.rtbz) where it is any other number. HOFSJURD_FILE_BAD_NAME for a text that names none of the 145 materials. */
hofsjurd_reply hofsjurd_has(hofsjurd *handle, const char *material, size_t length, uint8_t kind);

/* The largest number of men of a table in the set, kings included; 0 without a table. */
hofsjurd_reply hofsjurd_largest(hofsjurd *handle);

/* ----------------------------------------------------------------------------------------------------------- positions */

/* Of the position that a FEN text spells. The text has six fields and no byte more, and needs no 0 at its end:
 *
 * the WDL value, HOFSJURD_LOSS to HOFSJURD_WIN, as with a halfmove clock of 0. It never tells HOFSJURD_OUT_OF_MEMORY. */
hofsjurd_reply hofsjurd_wdl(hofsjurd *handle, const char *fen, size_t length);

/* the DTZ value in plies to the next capture or pawn move: above 0 where the side to move wins, below 0 where it loses (101
 * and more, or -101 and less, for a cursed win or a blessed loss), 0 for a draw, -1 for a position that is mate; */
hofsjurd_reply hofsjurd_dtz(hofsjurd *handle, const char *fen, size_t length);

/* the verdict, HOFSJURD_GAME_GOES_ON to HOFSJURD_STOPPED: checkmate and stalemate first; then a draw by the tables, or a
 * win that comes before the rule of fifty moves, counted with the halfmove clock. Where the tables can't tell (out of
 * scope, not covered) the game goes on, with HOFSJURD_OK. */
hofsjurd_reply hofsjurd_judge(hofsjurd *handle, const char *fen, size_t length);

/* A position as sets of squares: a1 is bit 0, b1 bit 1, up to h8, bit 63. Any numbers are allowed. On each square stands a
 * man of the first side (white, black) and the first kind (king, pawn, rook, queen, bishop, knight) whose sets have it, and
 * nothing where no side or no kind has it. */
typedef struct {
    uint64_t white, black, kings, queens, rooks, bishops, knights, pawns;
    uint16_t halfmove; /* plies since the last capture or pawn move; only verdicts and games ask for it */
    uint16_t fullmove; /* the number of the move */
    uint8_t side;      /* 0 white to move, any other number black */
    uint8_t rights;    /* to castle: 1 white with the rook of h1, 2 with that of a1, 4 black with that of h8, 8 with that of a8 */
    uint8_t passed;    /* the square that a pawn passed by a double step just now, 0 to 63; 64 and above: none */
} hofsjurd_board;

/* The same of a board. */
hofsjurd_reply hofsjurd_board_wdl(hofsjurd *handle, const hofsjurd_board *board);
hofsjurd_reply hofsjurd_board_dtz(hofsjurd *handle, const hofsjurd_board *board);
hofsjurd_reply hofsjurd_board_judge(hofsjurd *handle, const hofsjurd_board *board);

/* Writes the board of the position that a FEN text spells, each man in the set of his side and of his kind alone. Any other status than
 * HOFSJURD_OK, the first fault of the text, writes nothing. No tables are needed. */
uint32_t hofsjurd_read_fen(const char *fen, size_t length, hofsjurd_board *board);

/* The same of many boards, each reply in its board's place. `room` is the number of replies, and is to be that of the
 * boards: otherwise the status is HOFSJURD_LENGTHS_DIFFER. With any status but HOFSJURD_OK no reply is written. */
uint32_t hofsjurd_boards_wdl(hofsjurd *handle, const hofsjurd_board *boards, size_t length, hofsjurd_reply *replies, size_t room);
uint32_t hofsjurd_boards_dtz(hofsjurd *handle, const hofsjurd_board *boards, size_t length, hofsjurd_reply *replies, size_t room);
uint32_t hofsjurd_boards_judge(hofsjurd *handle, const hofsjurd_board *boards, size_t length, hofsjurd_reply *replies, size_t room);

/* A move: the squares, 0 to 63, from which and to which a man goes (castling is the king's move of two squares), and what a
 * pawn becomes on its last rank: 0 nothing, 1 a queen, 2 a rook, 3 a bishop, 4 a knight. */
typedef struct {
    uint8_t from, to, promotion;
} hofsjurd_move;

/* Room for the legal moves of any position of chess: none is known that has more than 218. */
#define HOFSJURD_MOST_MOVES 256

/* Writes the legal moves of a position at the front of the caller's array, in rising order of from, to and promotion, and
 * tells how many there are. Where `room` is less than that, the status is HOFSJURD_NO_ROOM with their number as the value;
 * and then, as with any other status, nothing is written. No tables are needed. */
hofsjurd_reply hofsjurd_moves(const char *fen, size_t length, hofsjurd_move *moves, size_t room);
hofsjurd_reply hofsjurd_board_moves(const hofsjurd_board *board, hofsjurd_move *moves, size_t room);

/* what a move does to the men */
enum {
    HOFSJURD_QUIET = 0,      /* it neither takes a man nor moves a pawn; each of the others sets the halfmove clock to 0 */
    HOFSJURD_PAWN_MOVE = 1,  /* a pawn moves and takes nothing */
    HOFSJURD_CAPTURE = 2,    /* it takes what stands on its square */
    HOFSJURD_EN_PASSANT = 3
};

/* how a position stands for its side to move */
enum {
    HOFSJURD_STANDS_OPEN = 0, /* there is a legal move, and no check */
    HOFSJURD_IN_CHECK = 1,    /* there is a check, and a legal move */
    HOFSJURD_CHECKMATED = 2,
    HOFSJURD_STALEMATED = 3
};

/* A legal move with what it does and what it is worth to the side that makes it. Each value has a status of its own. */
typedef struct {
    hofsjurd_move move;
    uint8_t effect;     /* HOFSJURD_QUIET to HOFSJURD_EN_PASSANT */
    uint8_t state;      /* of the position after it, for the other side: HOFSJURD_STANDS_OPEN to HOFSJURD_STALEMATED */
    hofsjurd_reply wdl; /* HOFSJURD_LOSS to HOFSJURD_WIN, with a halfmove clock of 0; a mating move wins */
    hofsjurd_reply dtz; /* from before the move, in plies: 1 for a mating move; 1, 101, 0, -101 or -1 for any other capture or pawn
                         * move, by its value; else from n after it: -n - 1 where n is above 0, -n + 1 where it is below, 0 at a draw */
} hofsjurd_root_move;

/* Writes the legal moves of a position at the front of the caller's array, the best first, and tells how many there are. A
 * better value comes first; of one value the nearer win and the farther loss; moves that are equal in this are in the order of
 * hofsjurd_moves. A move whose table is missing or damaged has the status of that: without a value it comes
 * last, without a distance after those of its value. It changes no other move.
 * Where `room` is less than the number of moves, the status is HOFSJURD_NO_ROOM with their number as the value; and then, as
 * with any other status, nothing is written. */
hofsjurd_reply hofsjurd_root(hofsjurd *handle, const char *fen, size_t length, hofsjurd_root_move *moves, size_t room);
hofsjurd_reply hofsjurd_board_root(hofsjurd *handle, const hofsjurd_board *board, hofsjurd_root_move *moves, size_t room);

/* The WDL value as soon as it is known. A capture that leads to a position which the opponent has lost, by the same rule, wins at once,
 * with HOFSJURD_OK and whatever table is missing or damaged elsewhere. Where no capture wins, the value and the status are those of
 * hofsjurd_wdl, by the values that are known after the captures. Where hofsjurd_wdl has a value, it is this one. */
hofsjurd_reply hofsjurd_known_wdl(hofsjurd *handle, const char *fen, size_t length);
hofsjurd_reply hofsjurd_board_known_wdl(hofsjurd *handle, const hofsjurd_board *board);
uint32_t hofsjurd_boards_known_wdl(hofsjurd *handle, const hofsjurd_board *boards, size_t length, hofsjurd_reply *replies, size_t room);

/* The same three questions, answered also where a table that is needed is missing, if the answer is the same whatever that table
 * holds: a capture that wins already, say. Each table that is there is read, and one that is damaged stays so. Where the calls above
 * have an answer, it is this one, unless memory is refused.
 *
 * The WDL value is told exactly where it is determined. A distance is told at least where the determined value is a draw, comes by a
 * capture, or is a win by a pawn move, and where the tables leave it to the quiet moves and each leads to a distance of the set or to
 * such a value. Otherwise the status is that of the calls above. No verdict is told so: it needs the tables themselves. */
hofsjurd_reply hofsjurd_determined_wdl(hofsjurd *handle, const char *fen, size_t length);
hofsjurd_reply hofsjurd_determined_dtz(hofsjurd *handle, const char *fen, size_t length);
hofsjurd_reply hofsjurd_determined_root(hofsjurd *handle, const char *fen, size_t length, hofsjurd_root_move *moves, size_t room);
hofsjurd_reply hofsjurd_board_determined_wdl(hofsjurd *handle, const hofsjurd_board *board);
hofsjurd_reply hofsjurd_board_determined_dtz(hofsjurd *handle, const hofsjurd_board *board);
hofsjurd_reply hofsjurd_board_determined_root(hofsjurd *handle, const hofsjurd_board *board, hofsjurd_root_move *moves, size_t room);

/* Writes the board after a move, each man in the set of his side and of his kind alone. Any other status than HOFSJURD_OK
 * writes nothing: the first fault of what the board shows, HOFSJURD_BAD_MOVE, HOFSJURD_ILLEGAL_MOVE, in this order. No tables
 * are needed. */
uint32_t hofsjurd_board_after(const hofsjurd_board *board, const hofsjurd_move *move, hofsjurd_board *after);

/* How the position stands for its side to move, HOFSJURD_STANDS_OPEN to HOFSJURD_STALEMATED. No tables are needed. */
hofsjurd_reply hofsjurd_board_state(const hofsjurd_board *board);

/* Writes a move of the position of a FEN text in standard algebraic notation ("Nf3", "exd8=Q+", "O-O-O"), and a 0 after it, at the
 * front of the caller's room, and tells the length of the text, at most 8. Where `room_length` isn't above that, the status is
 * HOFSJURD_NO_ROOM with the room that is needed as the value. The other statuses are the first fault of the FEN text,
 * HOFSJURD_BAD_MOVE, HOFSJURD_ILLEGAL_MOVE, in this order; with each nothing is written. No tables are needed. */
hofsjurd_reply hofsjurd_move_san(const char *fen, size_t length, const hofsjurd_move *move, char *room, size_t room_length);

/* Reads a move in standard algebraic notation, in the position of a FEN text, and writes it. More of the square that a man leaves may
 * be told than is needed, castling may be written by zeros, a promotion without "=", and signs of check and glyphs ("+", "#", "!?") are
 * passed over. Any other status than HOFSJURD_OK writes nothing: the first fault of the FEN text; HOFSJURD_BAD_MOVE, the text is none
 * of a move; HOFSJURD_ILLEGAL_MOVE, no legal move is as it tells; HOFSJURD_AMBIGUOUS_MOVE, two are. No tables are needed. */
uint32_t hofsjurd_read_san(const char *fen, size_t length, const char *san, size_t san_length, hofsjurd_move *move);

/* --------------------------------------------------------------------------------------------------------------- games */

/* A game that is told move by move, or none. Neither field is to be read or written. */
typedef struct {
    bool is_open;
    struct {
        void *at;
    } seat;
} hofsjurd_game;

/* Begins a game at the position of a FEN text. The value is its verdict there, HOFSJURD_GAME_GOES_ON for none. Checkmate
 * and stalemate end a game at once; a verdict by the tables must have held for `delay` further plies, 0 to 8. What the
 * game's handle held is freed first, and any other status than HOFSJURD_OK leaves it closed.
 *
 * A game is judged by the tables that the handle has at each call: add all of them first. */
hofsjurd_reply hofsjurd_game_begin(hofsjurd_game *game, hofsjurd *handle, const char *fen, size_t length, uint8_t delay);

/* Tells the game its next move, as text in coordinates ("e2e4", "e7e8q") or as numbers. The value is the game's first
 * verdict so far, HOFSJURD_GAME_GOES_ON for none. HOFSJURD_BAD_MOVE, HOFSJURD_GAME_OVER, HOFSJURD_ILLEGAL_MOVE and
 * HOFSJURD_OUT_OF_MEMORY, in this order, leave the game as it was; with the last of them the same move may be told again. */
hofsjurd_reply hofsjurd_game_move_text(hofsjurd_game *game, hofsjurd *handle, const char *move, size_t length);
hofsjurd_reply hofsjurd_game_move(hofsjurd_game *game, hofsjurd *handle, const hofsjurd_move *move);

/* The game's first verdict so far, HOFSJURD_GAME_GOES_ON for none. */
hofsjurd_reply hofsjurd_game_verdict(hofsjurd_game *game);

/* Ends the game and frees what its handle holds. A closed one stays closed. */
void hofsjurd_game_end(hofsjurd_game *game);

/* --------------------------------------------------------------------------------------------------------------- texts */

/* Each of these writes a text and a 0 after it at the front of the caller's room, and returns the length of the text
 * without the 0. Where that isn't less than `length`, nothing is written. HOFSJURD_TEXT_ROOM is room for each of these
 * texts. */
#define HOFSJURD_TEXT_ROOM 96

/* the name of a status ("FieldCount", "NotCovered"), the same that the program `adjudicate` prints where it has one; empty where
 * no status has this number */
size_t hofsjurd_status_name(uint32_t status, char *room, size_t length);

/* the name of a verdict by its number ("TableWhite"), `open` for 0; empty for any other number */
size_t hofsjurd_verdict_name(uint32_t verdict, char *room, size_t length);

/* the name of the first table that the WDL probe of a board needs and the set lacks ("KQvK"), where that tells
 * HOFSJURD_NOT_COVERED; empty otherwise, and nothing written where the handle is closed */
size_t hofsjurd_board_missing(hofsjurd *handle, const hofsjurd_board *board, char *room, size_t length);

/* the same of hofsjurd_board_known_wdl: empty too where a capture wins */
size_t hofsjurd_board_known_missing(hofsjurd *handle, const hofsjurd_board *board, char *room, size_t length);

/* the name of the first material of which the DTZ probe of a board needs a table that the set lacks, its WDL table or its DTZ table,
 * where that tells HOFSJURD_NOT_COVERED; empty otherwise, and where memory is refused, and nothing written where the handle is closed */
size_t hofsjurd_board_dtz_missing(hofsjurd *handle, const hofsjurd_board *board, char *room, size_t length);

/* the FEN text of the position that a game has reached; empty, and nothing written, where there is no game */
size_t hofsjurd_game_fen(hofsjurd_game *game, char *room, size_t length);

/* the library's name and version: "hofsjurd 1.0.0" */
size_t hofsjurd_version(char *room, size_t length);

#ifdef __cplusplus
}
#endif

#endif
