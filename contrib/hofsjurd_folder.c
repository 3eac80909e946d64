#define _XOPEN_SOURCE 700
#include "hofsjurd_folder.h"
#include <dirent.h>
#include <errno.h>
#include <fcntl.h>
#include <pthread.h>
#include <stdio.h>
#include <stdlib.h>
#include <string.h>
#include <sys/mman.h>
#include <sys/stat.h>
#include <unistd.h>

/* Whether a name is one of a table, and none of a mapped one. The library knows the names: it looks at the name before the bytes. */
static bool is_wanted(const hofsjurd_folder *folder, hofsjurd *trial, const char *name)
{
    size_t n = strlen(name);
    if (n >= sizeof folder->files[0].name || hofsjurd_add(trial, name, n, "", 0) == HOFSJURD_FILE_BAD_NAME) return false;
    for (size_t i = 0; i < folder->count; i++)
        if (!strcmp(folder->files[i].name, name)) return false;
    return true;
}

/* Maps a regular file. Otherwise errno tells why. */
static uint32_t map_file(int folder, const char *name, void **bytes, size_t *length)
{
    struct stat about;
    int error = 0, file = openat(folder, name, O_RDONLY | O_CLOEXEC | O_NONBLOCK | O_NOCTTY);
    if (file < 0) return HOFSJURD_FOLDER_UNREADABLE;
    *bytes = MAP_FAILED;
    *length = 0;
    if (fstat(file, &about)) error = errno;
    else if (!S_ISREG(about.st_mode)) error = S_ISDIR(about.st_mode) ? EISDIR : EINVAL;
    else if (about.st_size) {
        *length = (size_t)about.st_size;
        *bytes = mmap(NULL, *length, PROT_READ, MAP_PRIVATE, file, 0);
        error = *bytes == MAP_FAILED ? errno : 0;
    }
    close(file); /* what is mapped stays mapped */
    errno = error;
    if (error) return HOFSJURD_FOLDER_UNREADABLE;
    return HOFSJURD_OK;
}

/* Takes a file in, where the library takes it. */
static uint32_t take_file(hofsjurd_folder *folder, hofsjurd *trial, int at, const char *name)
{
    void *bytes;
    size_t length;
    uint32_t status = map_file(at, name, &bytes, &length);
    if (status) return status;
    bool is_empty = bytes == MAP_FAILED;
    status = hofsjurd_add(trial, name, strlen(name), is_empty ? "" : bytes, length);
    if (status) {
        if (!is_empty) munmap(bytes, length);
        errno = 0;
        return status;
    }
    strcpy(folder->files[folder->count].name, name);
    folder->files[folder->count].bytes = bytes;
    folder->files[folder->count++].length = length;
    return HOFSJURD_OK;
}

/* Whether to go on after what isn't taken. */
static bool goes_on(hofsjurd_folder_teller *tell, void *with, const char *path, const char *name, uint32_t status)
{
    int error = errno;
    bool goes = status != HOFSJURD_OUT_OF_MEMORY && tell && tell(with, path, name, status, status < HOFSJURD_FOLDER_ABSENT ? 0 : error);
    errno = error;
    return goes;
}

static uint32_t take_all(hofsjurd_folder *folder, hofsjurd *trial, DIR *all, const char *path, hofsjurd_folder_teller *tell, void *with)
{
    for (;;) {
        errno = 0;
        struct dirent *it = readdir(all);
        if (!it && !errno) return HOFSJURD_OK;
        if (it && !is_wanted(folder, trial, it->d_name)) continue;
        uint32_t status = it ? take_file(folder, trial, dirfd(all), it->d_name) : (uint32_t)HOFSJURD_FOLDER_UNREADABLE;
        if (status && !goes_on(tell, with, path, it ? it->d_name : NULL, status)) return status;
        if (!it) return HOFSJURD_OK;
    }
}

/* Handles over these files may be open while more are mapped, so what is looked at is looked at through a set of its own. */
uint32_t hofsjurd_folder_map_telling(hofsjurd_folder *folder, const char *path, hofsjurd_folder_teller *tell, void *with)
{
    hofsjurd trial = HOFSJURD_CLOSED;
    DIR *all = opendir(path);
    if (!all) {
        uint32_t absent = errno == ENOENT || errno == ENOTDIR ? HOFSJURD_FOLDER_ABSENT : HOFSJURD_FOLDER_UNREADABLE;
        return goes_on(tell, with, path, NULL, absent) ? (uint32_t)HOFSJURD_OK : absent;
    }
    uint32_t status = hofsjurd_open(&trial, 1);
    if (!status) status = take_all(folder, &trial, all, path, tell, with);
    int error = errno;
    hofsjurd_close(&trial);
    closedir(all);
    errno = error;
    return status;
}

uint32_t hofsjurd_folder_map(hofsjurd_folder *folder, const char *path)
{
    return hofsjurd_folder_map_telling(folder, path, NULL, NULL);
}

uint32_t hofsjurd_folder_open(const hofsjurd_folder *folder, hofsjurd *handle, size_t cache, size_t *refused)
{
    uint32_t status = hofsjurd_open(handle, cache);
    for (size_t i = 0; i < folder->count && !status; i++) {
        const char *name = folder->files[i].name;
        status = hofsjurd_add(handle, name, strlen(name), folder->files[i].bytes, folder->files[i].length);
        if (status && refused) *refused = i;
    }
    if (status) hofsjurd_close(handle);
    return status;
}

unsigned hofsjurd_folder_largest(const hofsjurd_folder *folder)
{
    unsigned largest = 0;
    for (size_t i = 0; i < folder->count; i++) {
        size_t n = strlen(folder->files[i].name); /* a letter a man, v and five more */
        if (folder->files[i].name[n - 1] == 'w' && n - 6 > largest) largest = (unsigned)(n - 6);
    }
    return largest;
}

void hofsjurd_folder_unmap(hofsjurd_folder *folder)
{
    for (size_t i = 0; i < folder->count; i++) munmap(folder->files[i].bytes, folder->files[i].length);
    folder->count = 0;
}

/* ---------------------------------------------------------------------------- tables that are opened when a position asks for them */

enum { KINDS = 5 /* of men but kings */, MOST_FILES = 290, MOST_FOLDERS = 290, REMEMBERED = 512 };

/* no file is listed under the name, or the prober has the table already */
enum { NOTHING_TO_OPEN = HOFSJURD_FOLDER_ABSENT };

typedef struct listed_file {
    char name[12];
    uint8_t men[2][KINDS]; /* of each side of the name */
    bool is_open;          /* the table of this name: by this file, or by one that stands in for it */
    const char *path;
    struct stat listed;
    void *bytes; /* where it is mapped; NULL for none */
    size_t length;
    uint32_t fault;             /* of a file that is no table */
    uint32_t reported;          /* the last status that was */
    struct listed_file *second; /* the file of this name in the next folder that has one, which counts where this one is refused */
} listed_file;

struct hofsjurd_listing {
    pthread_mutex_t lock; /* for all but names, men, paths and times */
    hofsjurd opened;      /* with all tables that are open */
    unsigned long opened_count;
    size_t count, folder_count; /* a folder more may have files for materials that had all */
    listed_file files[MOST_FILES]; /* the first of each name, by name */
    char *folders[MOST_FOLDERS];
    hofsjurd_folder_teller *report;
    void *with;
};

struct hofsjurd_prober {
    hofsjurd set;
    hofsjurd_listing *listing;
    size_t cache;
    unsigned long seen; /* how many tables were open when the set was shared */
    hofsjurd_refusal refusal;
    uint64_t whole[REMEMBERED]; /* some materials of which the set has all listed tables in reach, by their numbers; 0 for none */
    size_t whole_of;            /* of so many folders; 0 where none is remembered */
};

/* The men of each side of a name, as KQvK. */
static void count_men(const char *name, uint8_t men[2][KINDS])
{
    static const char kinds[] = "QRBNP";
    memset(men, 0, 2 * KINDS);
    for (int side = 0; *name && *name != '.'; name++) {
        const char *kind = strchr(kinds, *name);
        if (*name == 'v') side = 1;
        if (kind) men[side][kind - kinds]++;
    }
}

static int by_name(const void *one, const void *other)
{
    return strcmp(((const listed_file *)one)->name, ((const listed_file *)other)->name);
}

/* The place of a name among the first `count`, which are in order; `count` for none. */
static size_t place_of(const hofsjurd_listing *listing, size_t count, const char *name)
{
    listed_file sought;
    if (strlen(name) >= sizeof sought.name) return count;
    strcpy(sought.name, name);
    const listed_file *found = (const listed_file *)bsearch(&sought, listing->files, count, sizeof sought, by_name);
    return found ? (size_t)(found - listing->files) : count;
}

static hofsjurd_listing *make_listing(void)
{
    hofsjurd_listing *made = (hofsjurd_listing *)calloc(1, sizeof *made);
    if (!made) return NULL;
    if (hofsjurd_open(&made->opened, 1)) {
        free(made);
        return NULL;
    }
    if (!pthread_mutex_init(&made->lock, NULL)) return made;
    hofsjurd_close(&made->opened);
    free(made);
    return NULL;
}

/* Whether a name is one of a table. The library knows the names: it looks at the name before the bytes. */
static bool is_table_name(hofsjurd *set, const char *name)
{
    size_t n = strlen(name);
    return n < sizeof ((listed_file *)0)->name && *name == 'K' && hofsjurd_add(set, name, n, "", 0) != HOFSJURD_FILE_BAD_NAME;
}

/* Notes a file, where it is a regular one. Otherwise errno tells why. */
static uint32_t note_file(listed_file *file, int folder, const char *path, const char *name)
{
    memset(file, 0, sizeof *file);
    if (fstatat(folder, name, &file->listed, 0)) return HOFSJURD_FOLDER_UNREADABLE;
    errno = S_ISREG(file->listed.st_mode) ? 0 : S_ISDIR(file->listed.st_mode) ? EISDIR : EINVAL;
    if (errno) return HOFSJURD_FOLDER_UNREADABLE;
    strcpy(file->name, name);
    count_men(name, file->men);
    file->path = path;
    return HOFSJURD_OK;
}

/* Lists a file: in its place among the first `before`, behind the one of its name, or after all. */
static uint32_t list_file(hofsjurd_listing *listing, size_t before, int folder, const char *path, const char *name)
{
    size_t place = place_of(listing, before, name);
    listed_file *file = &listing->files[listing->count], **last = &file;
    if (place < before) {
        for (last = &listing->files[place].second; *last;) last = &(*last)->second;
        file = (listed_file *)malloc(sizeof *file);
        if (!file) return HOFSJURD_OUT_OF_MEMORY;
    }
    uint32_t status = note_file(file, folder, path, name);
    if (!status && place < before) *last = file;
    else if (!status) listing->count++;
    else if (place < before) {
        int error = errno;
        free(file);
        errno = error;
    }
    return status;
}

static uint32_t list_all(hofsjurd_listing *listing, DIR *all, const char *path, hofsjurd_folder_teller *tell, void *with)
{
    size_t before = listing->count;
    for (;;) {
        errno = 0;
        struct dirent *it = readdir(all);
        if (!it && !errno) return HOFSJURD_OK;
        if (it && !is_table_name(&listing->opened, it->d_name)) continue;
        uint32_t status = it ? list_file(listing, before, dirfd(all), path, it->d_name) : (uint32_t)HOFSJURD_FOLDER_UNREADABLE;
        if (status && !goes_on(tell, with, path, it ? it->d_name : NULL, status)) return status;
        if (!it) return HOFSJURD_OK;
    }
}

/* Opens a folder, and notes its path, which is to be right after a change of the working folder too. */
static uint32_t open_folder(hofsjurd_listing *listing, const char *path, DIR **all)
{
    if (listing->folder_count == MOST_FOLDERS) {
        errno = EMLINK;
        return HOFSJURD_FOLDER_UNREADABLE;
    }
    char *whole = realpath(path, NULL);
    *all = whole ? opendir(whole) : NULL;
    if (*all) {
        listing->folders[listing->folder_count++] = whole;
        return HOFSJURD_OK;
    }
    int error = errno;
    free(whole);
    errno = error;
    return error == ENOENT || error == ENOTDIR ? HOFSJURD_FOLDER_ABSENT : HOFSJURD_FOLDER_UNREADABLE;
}

uint32_t hofsjurd_listing_add(hofsjurd_listing **listing, const char *path, hofsjurd_folder_teller *tell, void *with)
{
    DIR *all = NULL;
    if (!*listing && !(*listing = make_listing())) return HOFSJURD_OUT_OF_MEMORY;
    uint32_t status = open_folder(*listing, path, &all);
    if (status) return goes_on(tell, with, path, NULL, status) ? (uint32_t)HOFSJURD_OK : status;
    status = list_all(*listing, all, (*listing)->folders[(*listing)->folder_count - 1], tell, with);
    int error = errno;
    closedir(all);
    qsort((*listing)->files, (*listing)->count, sizeof *(*listing)->files, by_name);
    errno = error;
    return status;
}

void hofsjurd_listing_report(hofsjurd_listing *listing, hofsjurd_folder_teller *report, void *with)
{
    pthread_mutex_lock(&listing->lock);
    listing->report = report;
    listing->with = with;
    pthread_mutex_unlock(&listing->lock);
}

unsigned hofsjurd_listing_largest(const hofsjurd_listing *listing)
{
    unsigned largest = 0;
    for (size_t i = 0; i < listing->count; i++) {
        size_t n = strlen(listing->files[i].name); /* a letter a man, v and five more */
        if (listing->files[i].name[n - 1] == 'w' && n - 6 > largest) largest = (unsigned)(n - 6);
    }
    return largest;
}

bool hofsjurd_listing_has(const hofsjurd_listing *listing, const char *name)
{
    return place_of(listing, listing->count, name) < listing->count;
}

size_t hofsjurd_listing_count(const hofsjurd_listing *listing)
{
    return listing->count;
}

size_t hofsjurd_listing_open_count(hofsjurd_listing *listing)
{
    pthread_mutex_lock(&listing->lock);
    size_t count = listing->opened_count;
    pthread_mutex_unlock(&listing->lock);
    return count;
}

/* Unmaps a file and those behind it. */
static void free_files(listed_file *first)
{
    for (listed_file *file = first, *next; file; file = next) {
        next = file->second;
        if (file->bytes) munmap(file->bytes, file->length);
        if (file != first) free(file);
    }
}

void hofsjurd_listing_free(hofsjurd_listing *listing)
{
    if (!listing) return;
    hofsjurd_close(&listing->opened);
    for (size_t i = 0; i < listing->count; i++) free_files(&listing->files[i]);
    for (size_t i = 0; i < listing->folder_count; i++) free(listing->folders[i]);
    pthread_mutex_destroy(&listing->lock);
    free(listing);
}

/* ---- opening, under the lock */

static bool is_same_time(const struct timespec *one, const struct timespec *other)
{
    return one->tv_sec == other->tv_sec && one->tv_nsec == other->tv_nsec;
}

/* By size and times: each way to write, rename or link a file sets the second time. Numbers of files and devices may change by themselves,
 * where a folder is mounted anew or lies on another machine. */
static bool is_same_file(const struct stat *one, const struct stat *other)
{
    return one->st_size == other->st_size && is_same_time(&one->st_mtim, &other->st_mtim) && is_same_time(&one->st_ctim, &other->st_ctim);
}

/* Maps a file that is the one that was listed. The library reads its front, and probes read a few places behind it: the front is
 * fetched at once, and of the rest the kernel reads no more than is asked for. */
static uint32_t map_listed(listed_file *file, int at, void **bytes)
{
    struct stat about;
    if (fstat(at, &about)) return HOFSJURD_FOLDER_UNREADABLE;
    if (!is_same_file(&about, &file->listed)) {
        errno = 0;
        return HOFSJURD_FOLDER_CHANGED;
    }
    file->length = (size_t)about.st_size;
    if (!file->length) return HOFSJURD_OK;
    *bytes = mmap(NULL, file->length, PROT_READ, MAP_PRIVATE, at, 0);
    if (*bytes == MAP_FAILED) return HOFSJURD_FOLDER_UNREADABLE;
    size_t front = file->length / 16 + 65536;
    posix_madvise(*bytes, file->length, POSIX_MADV_RANDOM);
    posix_madvise(*bytes, front < file->length ? front : file->length, POSIX_MADV_WILLNEED);
    return HOFSJURD_OK;
}

static uint32_t map_by_path(listed_file *file, void **bytes)
{
    size_t length = strlen(file->path);
    char *whole = (char *)malloc(length + sizeof file->name + 1);
    if (!whole) return HOFSJURD_OUT_OF_MEMORY;
    memcpy(whole, file->path, length);
    whole[length] = '/';
    strcpy(whole + length + 1, file->name);
    int at = open(whole, O_RDONLY | O_CLOEXEC | O_NONBLOCK | O_NOCTTY);
    uint32_t status = at < 0 ? (uint32_t)HOFSJURD_FOLDER_UNREADABLE : map_listed(file, at, bytes);
    int error = errno;
    if (at >= 0) close(at); /* what is mapped stays mapped */
    free(whole);
    errno = error;
    return status;
}

/* Opens a file, where it isn't open. One that was no table is still none. */
static uint32_t open_file(hofsjurd_listing *listing, listed_file *file)
{
    void *bytes = MAP_FAILED;
    errno = 0;
    if (file->bytes || file->fault) return file->fault;
    uint32_t status = map_by_path(file, &bytes);
    if (status) return status;
    bool is_empty = bytes == MAP_FAILED;
    errno = 0;
    status = hofsjurd_add(&listing->opened, file->name, strlen(file->name), is_empty ? "" : bytes, file->length);
    if (status && !is_empty) munmap(bytes, file->length);
    errno = 0;
    if (status) {
        file->fault = status == HOFSJURD_OUT_OF_MEMORY ? 0 : status;
        return status;
    }
    file->bytes = bytes;
    listing->opened_count++;
    return HOFSJURD_OK;
}

static void report(hofsjurd_listing *listing, listed_file *file, uint32_t status)
{
    int error = errno;
    if (listing->report && file->reported != status)
        listing->report(listing->with, file->path, file->name, status, status == HOFSJURD_FOLDER_UNREADABLE ? error : 0);
    file->reported = status;
    errno = error;
}

/* Opens the first file of a name that isn't refused. Otherwise the status, and errno, are those of the first one. */
static uint32_t open_first(hofsjurd_listing *listing, listed_file *first)
{
    uint32_t status = HOFSJURD_OK;
    int error = 0;
    for (listed_file *file = first; file && !first->is_open; file = file->second) {
        uint32_t refused = open_file(listing, file);
        first->is_open = !refused;
        if (refused) report(listing, file, refused);
        if (file == first) error = errno;
        if (file == first) status = refused;
    }
    errno = error;
    return first->is_open ? (uint32_t)HOFSJURD_OK : status;
}

uint32_t hofsjurd_listing_open_all(hofsjurd_listing *listing, hofsjurd_folder_teller *tell, void *with)
{
    uint32_t status = HOFSJURD_OK;
    pthread_mutex_lock(&listing->lock);
    for (size_t i = 0; i < listing->count && !status; i++) {
        listed_file *first = &listing->files[i];
        for (listed_file *file = first; file && !first->is_open && !status; file = file->second) {
            status = open_file(listing, file);
            first->is_open = !status;
            if (status && goes_on(tell, with, file->path, file->name, status)) status = HOFSJURD_OK;
        }
    }
    int error = errno;
    pthread_mutex_unlock(&listing->lock);
    errno = error;
    return status;
}

/* ---- probers */

uint32_t hofsjurd_prober_open(hofsjurd_prober **prober, hofsjurd_listing *listing, size_t cache)
{
    hofsjurd_prober *made = *prober = (hofsjurd_prober *)calloc(1, sizeof *made);
    if (!made) return HOFSJURD_OUT_OF_MEMORY;
    made->listing = listing;
    made->cache = cache;
    if (listing) pthread_mutex_lock(&listing->lock);
    uint32_t status = listing ? hofsjurd_share(&listing->opened, &made->set, cache) : hofsjurd_open(&made->set, cache);
    if (listing) made->seen = listing->opened_count;
    if (listing) pthread_mutex_unlock(&listing->lock);
    if (!status) return HOFSJURD_OK;
    hofsjurd_prober_close(made);
    *prober = NULL;
    return status;
}

void hofsjurd_prober_close(hofsjurd_prober *prober)
{
    if (prober) hofsjurd_close(&prober->set);
    free(prober);
}

const hofsjurd_refusal *hofsjurd_prober_refusal(const hofsjurd_prober *prober)
{
    return &prober->refusal;
}

hofsjurd *hofsjurd_prober_set(hofsjurd_prober *prober)
{
    return &prober->set;
}

/* Notes the file that is refused, under the lock. */
static void refuse(hofsjurd_prober *prober, const listed_file *file, uint32_t status)
{
    hofsjurd_refusal *refusal = &prober->refusal;
    refusal->status = status;
    refusal->error = status == HOFSJURD_FOLDER_UNREADABLE ? errno : 0;
    refusal->path = file->path;
    strcpy(refusal->name, file->name);
}

/* Has the prober see all tables that are open, under the lock. Where memory is refused it keeps those that it has. */
static uint32_t see_all(hofsjurd_prober *prober)
{
    hofsjurd fresh = HOFSJURD_CLOSED;
    if (prober->seen == prober->listing->opened_count) return NOTHING_TO_OPEN;
    uint32_t status = hofsjurd_share(&prober->listing->opened, &fresh, prober->cache);
    if (status) return status;
    hofsjurd_close(&prober->set);
    prober->set = fresh;
    prober->seen = prober->listing->opened_count;
    return HOFSJURD_OK;
}

/* Opens the table of a material, as KQvK, of the kind w or z. HOFSJURD_OK: the prober has tables that it lacked before. */
static uint32_t open_table(hofsjurd_prober *prober, const char *material, char kind)
{
    hofsjurd_listing *listing = prober->listing;
    char name[HOFSJURD_TEXT_ROOM];
    snprintf(name, sizeof name, "%s.rtb%c", material, kind);
    size_t place = listing ? place_of(listing, listing->count, name) : 0;
    if (!listing || place == listing->count) return NOTHING_TO_OPEN;
    pthread_mutex_lock(&listing->lock);
    uint32_t status = open_first(listing, &listing->files[place]);
    if (!status) status = see_all(prober);
    if (status && status != NOTHING_TO_OPEN) refuse(prober, &listing->files[place], status);
    pthread_mutex_unlock(&listing->lock);
    return status;
}

/* ---- asking */

typedef hofsjurd_reply board_call(hofsjurd *, const hofsjurd_board *);
typedef hofsjurd_reply root_call(hofsjurd *, const hofsjurd_board *, hofsjurd_root_move *, size_t);

static hofsjurd_reply reply_of(uint32_t status)
{
    hofsjurd_reply reply = {status, 0};
    return reply;
}

/* There are few men. */
static uint8_t count_of(uint64_t men)
{
    uint8_t count = 0;
    for (; men; men &= men - 1) count++;
    return count;
}

/* The men of each side of a board, each of the first kind whose set has his square, as the library counts them. */
static void count_men_of_board(const hofsjurd_board *board, uint8_t men[2][KINDS])
{
    const uint64_t sets[] = {board->pawns, board->rooks, board->queens, board->bishops, board->knights};
    static const int kinds[] = {4, 1, 0, 2, 3};
    uint64_t counted = board->kings;
    for (int i = 0; i < KINDS; i++) {
        men[0][kinds[i]] = count_of(sets[i] & board->white & ~counted);
        men[1][kinds[i]] = count_of(sets[i] & board->black & ~board->white & ~counted);
        counted |= sets[i];
    }
}

/* Whether a side can come to have just these men, by losses and promotions. */
static bool comes_to(const uint8_t has[KINDS], const uint8_t sought[KINDS])
{
    int pawns = sought[KINDS - 1];
    for (int kind = 0; kind < KINDS - 1; kind++) pawns += sought[kind] > has[kind] ? sought[kind] - has[kind] : 0;
    return pawns <= has[KINDS - 1];
}

static bool is_in_reach(const uint8_t men[2][KINDS], const listed_file *file)
{
    return (comes_to(men[0], file->men[0]) && comes_to(men[1], file->men[1])) || (comes_to(men[0], file->men[1]) && comes_to(men[1], file->men[0]));
}

static uint64_t number_of(const uint8_t men[2][KINDS])
{
    uint64_t number = 1;
    for (int kind = 0; kind < KINDS; kind++) number = number << 10 | (uint64_t)men[0][kind] << 5 | men[1][kind];
    return number;
}

static uint64_t *place_in_whole(hofsjurd_prober *prober, uint64_t number)
{
    return &prober->whole[number * 0x9e3779b97f4a7c15ULL >> 55];
}

/* Whether it is remembered that the set has all listed tables that a board can come to: then no answer opens another one. */
static bool has_whole(hofsjurd_prober *prober, const hofsjurd_board *board)
{
    uint8_t men[2][KINDS];
    if (!prober->whole_of || prober->whole_of != prober->listing->folder_count) return false;
    count_men_of_board(board, men);
    uint64_t number = number_of((const uint8_t(*)[KINDS])men);
    return *place_in_whole(prober, number) == number;
}

static void remember_whole(hofsjurd_prober *prober, const uint8_t men[2][KINDS])
{
    uint64_t number = number_of(men);
    if (prober->whole_of != prober->listing->folder_count) memset(prober->whole, 0, sizeof prober->whole);
    prober->whole_of = prober->listing->folder_count;
    *place_in_whole(prober, number) = number;
}

/* Opens the table that the WDL probe of a board misses. No name: memory was refused. */
static uint32_t open_missed(hofsjurd_prober *prober, const hofsjurd_board *board)
{
    char name[HOFSJURD_TEXT_ROOM] = "";
    if (!hofsjurd_board_missing(&prober->set, board, name, sizeof name)) return HOFSJURD_OUT_OF_MEMORY;
    return open_table(prober, name, 'w');
}

/* Opens the table that the value of a board misses as soon as it is known. */
static uint32_t open_missed_for_known(hofsjurd_prober *prober, const hofsjurd_board *board)
{
    char name[HOFSJURD_TEXT_ROOM] = "";
    if (!hofsjurd_board_known_missing(&prober->set, board, name, sizeof name)) return HOFSJURD_OUT_OF_MEMORY;
    return open_table(prober, name, 'w');
}

/* Opens a table that the DTZ probe of a board misses: the WDL table of the material that it names, or else its DTZ table. */
static uint32_t open_missed_for_distance(hofsjurd_prober *prober, const hofsjurd_board *board)
{
    char name[HOFSJURD_TEXT_ROOM] = "";
    if (!hofsjurd_board_dtz_missing(&prober->set, board, name, sizeof name)) return HOFSJURD_OUT_OF_MEMORY;
    uint32_t first = open_table(prober, name, 'w');
    if (!first) return HOFSJURD_OK;
    uint32_t second = open_table(prober, name, 'z');
    return second == NOTHING_TO_OPEN ? first : second;
}

/* A set that has more tables answers the same, but where it missed one: so an answer that misses none stays. Each turn opens a table. */
static hofsjurd_reply ask(hofsjurd_prober *prober, board_call *call, uint32_t open_next(hofsjurd_prober *, const hofsjurd_board *),
    const hofsjurd_board *board)
{
    for (;;) {
        hofsjurd_reply reply = call(&prober->set, board);
        if (reply.status != HOFSJURD_NOT_COVERED || has_whole(prober, board)) return reply;
        uint32_t status = open_next(prober, board);
        if (status == NOTHING_TO_OPEN) return reply;
        if (status) return reply_of(status);
    }
}

hofsjurd_reply hofsjurd_prober_wdl(hofsjurd_prober *prober, const hofsjurd_board *board)
{
    return ask(prober, hofsjurd_board_wdl, open_missed, board);
}

hofsjurd_reply hofsjurd_prober_dtz(hofsjurd_prober *prober, const hofsjurd_board *board)
{
    return ask(prober, hofsjurd_board_dtz, open_missed_for_distance, board);
}

/* A verdict doesn't say what it misses. Where the game goes on, it is final once the value is, and for a win or a loss the distance. */
hofsjurd_reply hofsjurd_prober_judge(hofsjurd_prober *prober, const hofsjurd_board *board)
{
    hofsjurd_reply verdict = hofsjurd_board_judge(&prober->set, board);
    if (verdict.status || verdict.value != HOFSJURD_GAME_GOES_ON) return verdict;
    unsigned long seen = prober->seen;
    hofsjurd_reply asked = hofsjurd_prober_wdl(prober, board);
    if (!asked.status && (asked.value == HOFSJURD_WIN || asked.value == HOFSJURD_LOSS)) asked = hofsjurd_prober_dtz(prober, board);
    if (asked.status >= HOFSJURD_OUT_OF_MEMORY) return reply_of(asked.status);
    return prober->seen == seen ? verdict : hofsjurd_board_judge(&prober->set, board);
}

/* Opens a table that a root move misses; where it is refused, that is the move's status. */
static void open_for_move(hofsjurd_prober *prober, const hofsjurd_board *board, hofsjurd_root_move *m)
{
    hofsjurd_board after;
    bool has_no_value = m->wdl.status == HOFSJURD_NOT_COVERED;
    if (!has_no_value && m->dtz.status != HOFSJURD_NOT_COVERED) return;
    if (hofsjurd_board_after(board, &m->move, &after)) return;
    uint32_t status = has_no_value ? open_missed(prober, &after) : open_missed_for_distance(prober, &after);
    if (!status || status == NOTHING_TO_OPEN) return;
    if (has_no_value) m->wdl.status = status;
    if (m->dtz.status == HOFSJURD_NOT_COVERED) m->dtz.status = status;
}

static hofsjurd_reply ask_root(hofsjurd_prober *prober, root_call *call, const hofsjurd_board *board, hofsjurd_root_move *moves, size_t room)
{
    for (;;) {
        unsigned long seen = prober->seen;
        hofsjurd_reply reply = call(&prober->set, board, moves, room);
        if (has_whole(prober, board)) return reply;
        for (int i = 0; !reply.status && i < reply.value; i++) open_for_move(prober, board, &moves[i]);
        if (prober->seen == seen) return reply;
    }
}

hofsjurd_reply hofsjurd_prober_root(hofsjurd_prober *prober, const hofsjurd_board *board, hofsjurd_root_move *moves, size_t room)
{
    return ask_root(prober, hofsjurd_board_root, board, moves, room);
}

/* ---- asking whatever the missing tables hold */

/* Opens all tables of the materials that a game can reach from the board. Those that are refused are as missing ones. */
static uint32_t open_in_reach(hofsjurd_prober *prober, const hofsjurd_board *board)
{
    hofsjurd_listing *listing = prober->listing;
    uint8_t men[2][KINDS];
    bool is_whole = true;
    if (!listing) return NOTHING_TO_OPEN;
    count_men_of_board(board, men);
    pthread_mutex_lock(&listing->lock);
    for (size_t i = 0; i < listing->count; i++) {
        listed_file *file = &listing->files[i];
        if (file->is_open || !is_in_reach((const uint8_t(*)[KINDS])men, file)) continue;
        uint32_t status = open_first(listing, file);
        if (!status) continue;
        refuse(prober, file, status);
        is_whole = false;
    }
    uint32_t status = see_all(prober);
    pthread_mutex_unlock(&listing->lock);
    if (is_whole && (!status || status == NOTHING_TO_OPEN)) remember_whole(prober, (const uint8_t(*)[KINDS])men);
    return status;
}

/* Whether a table is missing or refused: another one that is there may then count. (Of a missing and a damaged table the missing one is
 * told; so where it is the damaged one, none is missed, and what is missing determines nothing.) */
static bool is_left_open(uint32_t status)
{
    return status == HOFSJURD_NOT_COVERED || status >= HOFSJURD_FILE_BAD_NAME;
}

/* What the tables answer, and otherwise what all in reach determine. */
static hofsjurd_reply ask_determined(hofsjurd_prober *prober, board_call *strict_call, board_call *call,
    uint32_t open_next(hofsjurd_prober *, const hofsjurd_board *), const hofsjurd_board *board)
{
    if (has_whole(prober, board)) return call(&prober->set, board);
    hofsjurd_reply strict = ask(prober, strict_call, open_next, board);
    if (!is_left_open(strict.status)) return strict;
    if (open_in_reach(prober, board) == HOFSJURD_OUT_OF_MEMORY) return reply_of(HOFSJURD_OUT_OF_MEMORY);
    hofsjurd_reply reply = call(&prober->set, board);
    return reply.status == HOFSJURD_NOT_COVERED ? strict : reply;
}

/* A capture that wins needs no other table. Where the first that is missed isn't listed, another one may be that lets a capture win. */
hofsjurd_reply hofsjurd_prober_known_wdl(hofsjurd_prober *prober, const hofsjurd_board *board)
{
    return ask_determined(prober, hofsjurd_board_known_wdl, hofsjurd_board_known_wdl, open_missed_for_known, board);
}

hofsjurd_reply hofsjurd_prober_determined_wdl(hofsjurd_prober *prober, const hofsjurd_board *board)
{
    return ask_determined(prober, hofsjurd_board_wdl, hofsjurd_board_determined_wdl, open_missed, board);
}

hofsjurd_reply hofsjurd_prober_determined_dtz(hofsjurd_prober *prober, const hofsjurd_board *board)
{
    return ask_determined(prober, hofsjurd_board_dtz, hofsjurd_board_determined_dtz, open_missed_for_distance, board);
}

static bool has_open_move(const hofsjurd_root_move *moves, int count)
{
    for (int i = 0; i < count; i++)
        if (is_left_open(moves[i].wdl.status) || is_left_open(moves[i].dtz.status)) return true;
    return false;
}

hofsjurd_reply hofsjurd_prober_determined_root(
    hofsjurd_prober *prober, const hofsjurd_board *board, hofsjurd_root_move *moves, size_t room)
{
    if (has_whole(prober, board)) return hofsjurd_board_determined_root(&prober->set, board, moves, room);
    hofsjurd_reply strict = hofsjurd_prober_root(prober, board, moves, room);
    if (strict.status || !has_open_move(moves, strict.value)) return strict;
    if (open_in_reach(prober, board) == HOFSJURD_OUT_OF_MEMORY) return reply_of(HOFSJURD_OUT_OF_MEMORY);
    return ask_root(prober, hofsjurd_board_determined_root, board, moves, room);
}
