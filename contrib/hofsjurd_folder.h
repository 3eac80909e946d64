/* hofsjurd_folder.h: the tables of folders, mapped into memory (POSIX): all at once (hofsjurd_folder_map), or each when a position asks
 * for it (hofsjurd_listing). A piece of C (C99 and later, or C++) over hofsjurd.h to compile with the program; it wants the threads of
 * the system (-lpthread). */
#ifndef HOFSJURD_FOLDER_H
#define HOFSJURD_FOLDER_H

#include "hofsjurd.h"

#ifdef __cplusplus
extern "C" {
#endif

/* The files that are mapped: all of the names of tables, 145 of each kind, have a place. All bytes zero is none. */
typedef struct {
    size_t count;
    struct {
        char name[12];
        void *bytes;
        size_t length;
    } files[290];
} hofsjurd_folder;

/* statuses beside those of the library */
enum {
    HOFSJURD_FOLDER_ABSENT = 1000,     /* there is no such folder */
    HOFSJURD_FOLDER_UNREADABLE = 1001, /* the folder, or a file in it, can't be read, or is no regular file */
    HOFSJURD_FOLDER_CHANGED = 1002     /* a file isn't the one that was listed: it was written, moved or exchanged since */
};

/* What is told of a folder, or of a file in it, that isn't taken: the folder's path, the file's name (NULL for the folder itself),
 * a status (of hofsjurd_add, or one of those above), and errno, 0 where the status isn't one of those above. It says whether to go
 * on with the other files. */
typedef bool hofsjurd_folder_teller(void *with, const char *path, const char *name, uint32_t status, int error);

/* Maps the files of a folder that have the name of a table of three to five men, and has the library look at each. Other names
 * are passed over. Further folders may follow: of one name the first file that is taken counts. Nothing is waited for: what is no
 * regular file (a pipe, a device, a folder) isn't read.
 *
 * The first thing that isn't taken ends the call with its status, and with errno. Those that were mapped before it still are.
 * hofsjurd_folder_map_telling goes on instead, where `tell`, which is told of it with `with`, says so; HOFSJURD_OUT_OF_MEMORY ends
 * that call too. */
uint32_t hofsjurd_folder_map(hofsjurd_folder *folder, const char *path);
uint32_t hofsjurd_folder_map_telling(hofsjurd_folder *folder, const char *path, hofsjurd_folder_teller *tell, void *with);

/* Opens a handle, as hofsjurd_open does, and adds all mapped files to it. The first file that is refused gives the status,
 * its place goes to `refused` where that isn't NULL, and the handle stays closed. Several handles, one for each thread, may
 * be opened over one folder. */
uint32_t hofsjurd_folder_open(const hofsjurd_folder *folder, hofsjurd *handle, size_t cache, size_t *refused);

/* The greatest number of men of a mapped WDL table; 0 without any. */
unsigned hofsjurd_folder_largest(const hofsjurd_folder *folder);

/* Unmaps all files. Every handle that was opened over them has to be closed before. */
void hofsjurd_folder_unmap(hofsjurd_folder *folder);

/* ---------------------------------------------------------------------------- tables that are opened when a position asks for them */

/* The files of folders that have the name of a table of three to five men. None of them is read before a position asks for it. Then it
 * is mapped, and the library looks at it, once; from then on it is there for all probers. A lock of its own guards it, so that a
 * prober on each thread may ask at any time. No descriptor is held open. */
typedef struct hofsjurd_listing hofsjurd_listing;

/* Lists the files of a folder by their names; of each its size and its times are noted. `*listing` is NULL at first. Further folders may
 * follow, before a prober asks or while none does: of one name the first file that isn't refused counts. What is no regular file, or
 * isn't there, is told to `tell`, as by hofsjurd_folder_map_telling, and isn't listed. With any status but HOFSJURD_OK what was listed before
 * stays listed. */
uint32_t hofsjurd_listing_add(hofsjurd_listing **listing, const char *path, hofsjurd_folder_teller *tell, void *with);

/* From now on a file that is refused to a prober is reported to `report` too, once for each status; what it returns counts for nothing.
 * It is called under the lock, so it may not call anything of this listing. NULL ends it. */
void hofsjurd_listing_report(hofsjurd_listing *listing, hofsjurd_folder_teller *report, void *with);

/* The greatest number of men of a listed WDL table, and whether a file is listed ("KQvK.rtbw"). */
unsigned hofsjurd_listing_largest(const hofsjurd_listing *listing);
bool hofsjurd_listing_has(const hofsjurd_listing *listing, const char *name);

/* How many tables are listed, and how many of them are open. */
size_t hofsjurd_listing_count(const hofsjurd_listing *listing);
size_t hofsjurd_listing_open_count(hofsjurd_listing *listing);

/* Opens all files that are listed, for who wants to know of each at once. The first one that is refused ends the call with its status,
 * and with errno, but where `tell` says to go on. */
uint32_t hofsjurd_listing_open_all(hofsjurd_listing *listing, hofsjurd_folder_teller *tell, void *with);

/* Unmaps all files. Every prober over them has to be closed before. */
void hofsjurd_listing_free(hofsjurd_listing *listing);

/* Who asks: a set of tables of its own, with the tables that it has asked for so far, shared with the listing's other probers, and a
 * cache of `cache` decoded blocks, 1 to 4096. It serves one call at a time: one for each thread. A listing that is NULL has no file. */
typedef struct hofsjurd_prober hofsjurd_prober;

uint32_t hofsjurd_prober_open(hofsjurd_prober **prober, hofsjurd_listing *listing, size_t cache);
void hofsjurd_prober_close(hofsjurd_prober *prober);

/* Each answers as the library's call of this name over all tables that the listing's files are, and opens those that this takes.
 *
 * A table that is needed may be refused: its file can't be opened or mapped (HOFSJURD_FOLDER_UNREADABLE), isn't the one that was listed
 * any more (HOFSJURD_FOLDER_CHANGED), is no good table (HOFSJURD_FILE_BAD_SIZE and the like), or memory is (HOFSJURD_OUT_OF_MEMORY).
 * That is the status then where the call would tell HOFSJURD_NOT_COVERED: of the answer, or of the root move. hofsjurd_prober_refusal
 * names the file, the first one of its name. The next call tries again; but a file that is no table is not read twice. */
hofsjurd_reply hofsjurd_prober_wdl(hofsjurd_prober *prober, const hofsjurd_board *board);
hofsjurd_reply hofsjurd_prober_known_wdl(hofsjurd_prober *prober, const hofsjurd_board *board); /* a capture that wins opens no other table */
hofsjurd_reply hofsjurd_prober_dtz(hofsjurd_prober *prober, const hofsjurd_board *board);
hofsjurd_reply hofsjurd_prober_judge(hofsjurd_prober *prober, const hofsjurd_board *board);
hofsjurd_reply hofsjurd_prober_root(hofsjurd_prober *prober, const hofsjurd_board *board, hofsjurd_root_move *moves, size_t room);
hofsjurd_reply hofsjurd_prober_determined_wdl(hofsjurd_prober *prober, const hofsjurd_board *board);
hofsjurd_reply hofsjurd_prober_determined_dtz(hofsjurd_prober *prober, const hofsjurd_board *board);
hofsjurd_reply hofsjurd_prober_determined_root(
    hofsjurd_prober *prober, const hofsjurd_board *board, hofsjurd_root_move *moves, size_t room);

/* The file that was refused to the prober last; its name is empty where none was. It stays so until the next one. */
typedef struct {
    uint32_t status;
    int error;        /* errno; 0 where the status is one of hofsjurd_add */
    const char *path; /* of its folder */
    char name[12];
} hofsjurd_refusal;

const hofsjurd_refusal *hofsjurd_prober_refusal(const hofsjurd_prober *prober);

/* The prober's own set, for other calls of the library, with the tables that are open so far: a game (hofsjurd_game_begin) or many
 * boards at once, say. hofsjurd_prober_judge of a game's position opens what the game's verdict there takes. It is not to be closed, and
 * no table is to be added to it. */
hofsjurd *hofsjurd_prober_set(hofsjurd_prober *prober);

#ifdef __cplusplus
}
#endif

#endif
