/* SPDX-License-Identifier: Apache-2.0 */
/* Films read in place, with up to two disks gone: the reading core of the command cuzhaveli for servers in C. Every byte that
 * is handed out has been compared with its checksum; what is lost or bad is mended from the rest and compared. Link
 * libcuzhaveli_play.a, which rust/play builds. Coding is done by the proved library within it; the rest is not proved.
 *
 * Calls answer 0, or the number of an error: ENOENT (no such film), EINVAL (no such bytes, or an argument is missing), EIO (the
 * rest). Any thread may make any call, also several at once with one film or tree; one that is closed is not used again. */
#ifndef CUZHAVELI_PLAY_H
#define CUZHAVELI_PLAY_H

#include <stddef.h>
#include <stdint.h>

#ifdef __cplusplus
extern "C" {
#endif

/* Why the last call of this thread failed, until its next one. */
const char *cuzhaveli_play_why(void);

/* Before all others: the bytes of film that are kept in memory at most, of all films together; 32 MiB if it is not called. Two
 * units of the largest are kept in any case (k + 2 times p times 32 KiB each, usually). Answers the limit that holds. */
uint64_t cuzhaveli_play_limit(uint64_t bytes);

/* Before all others: the milliseconds that a drive is waited for where the other disks have what is needed; 200 if it is not
 * called. What does not come in time is computed from them, and the drive is asked in the background alone until it answers in
 * time. Where too few drives answer, the late ones are waited for, a minute at most. Answers the milliseconds that hold. */
uint64_t cuzhaveli_play_patience(uint64_t milliseconds);

/* Hands what is reported while films are served to a function, from any thread: a drive that is slow, once, and a store that
 * can no longer be opened. It goes to standard error if this is not called. */
void cuzhaveli_play_reports(void (*take)(const char *text));

/* One film. */
struct cuzhaveli_play;

/* Opens the film of a folder of images (package and file NULL), or a file of a package of a store, as its catalogue says now.
 * The film stays readable until it is closed, also if it is removed meanwhile; images that come back or are rebuilt are taken
 * within a second. Waits for every disk, and starts no thread: threads that ask the drives are started by the first read. */
int cuzhaveli_play_open(const char *folder, const char *package, const char *file, struct cuzhaveli_play **film);

/* The bytes of the film. */
uint64_t cuzhaveli_play_length(const struct cuzhaveli_play *film);

/* Reads `len` bytes from byte `at` on, all of them within the film. EIO where one of them cannot be made right: a read of
 * others works. What stands in `to` after an error is undefined. */
int cuzhaveli_play_read(const struct cuzhaveli_play *film, void *to, size_t len, uint64_t at);

void cuzhaveli_play_close(struct cuzhaveli_play *film);

/* A store as folders and files: packages, and the files of each; the film of a folder of images as the one file `film`. What is
 * there is what the catalogue says now, or said less than a second ago; while the store cannot be opened, what it said before. */
struct cuzhaveli_play_tree;

/* What has a number: 1 is the folder of all. A number never comes to stand for anything else: a file that is replaced has
 * another one from then on. */
struct cuzhaveli_play_about {
    uint64_t number;
    uint64_t length;
    int is_folder;
};

/* Waits for every disk, and starts no thread; no other call below waits for a single drive longer than the patience. */
int cuzhaveli_play_tree(const char *folder, struct cuzhaveli_play_tree **tree);

/* What has that name in a folder. */
int cuzhaveli_play_find(const struct cuzhaveli_play_tree *tree, uint64_t folder, const char *name, struct cuzhaveli_play_about *about);

/* What a number stands for, also if it is removed. */
int cuzhaveli_play_about(const struct cuzhaveli_play_tree *tree, uint64_t number, struct cuzhaveli_play_about *about);

/* Hands each name of a folder to a function, until that answers another number than 0. */
int cuzhaveli_play_names(const struct cuzhaveli_play_tree *tree, uint64_t folder,
                         int (*each)(void *context, const char *name, const struct cuzhaveli_play_about *about), void *context);

/* Opens the film of a number. */
int cuzhaveli_play_film(const struct cuzhaveli_play_tree *tree, uint64_t number, struct cuzhaveli_play **film);

void cuzhaveli_play_end(struct cuzhaveli_play_tree *tree);

#ifdef __cplusplus
}
#endif

#endif
