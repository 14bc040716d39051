/* SPDX-License-Identifier: Apache-2.0 */
/* A store as a file system, read-only: what `cuzhaveli mount` starts.
 *
 *   cuzhaveli-fuse STORE POINT [-f] [-o OPTIONS]      options of mount.fuse3(8), cache=BYTES, patience=MS
 *
 * This file moves names and bytes between the kernel and cuzhaveli_play.h, which verifies and mends. An inode is the number of a
 * file there: it never comes to stand for another film, so what the kernel keeps of it stays right. */
#define FUSE_USE_VERSION 312
#include <fuse_lowlevel.h>

#include "cuzhaveli_play.h"

#include <errno.h>
#include <fcntl.h>
#include <inttypes.h>
#include <stdbool.h>
#include <stdio.h>
#include <stdlib.h>
#include <string.h>
#include <sys/resource.h>
#include <syslog.h>
#include <time.h>
#include <unistd.h>

/* Names are asked for again after this many seconds: so long a change may go unnoticed. */
#define NAMES_STAND 1.0
/* What a number stands for never changes. */
#define FOR_GOOD 86400.0
/* The kernel reads so far ahead, where it is let. */
#define AHEAD (1 << 20)
/* So many threads wait for the next request, and so many requests are answered at the same time: names are, while reads wait for
 * drives. libfuse before 3.12 has no limit. */
#define IDLE 10
#define THREADS 256
/* So many reads ahead the kernel may have under way. */
#define BACKGROUND 64
#define UNSET (~0ull)

static struct cuzhaveli_play_tree *tree;
static time_t mounted;

static void complain(const char *what, uint64_t number, uint64_t at)
{
    fprintf(stderr, "cuzhaveli-fuse: %s %" PRIu64 ", byte %" PRIu64 ": %s\n", what, number, at, cuzhaveli_play_why());
}

/* In the background nobody has the standard error. */
static void report(const char *text)
{
    fprintf(stderr, "cuzhaveli-fuse: %s\n", text);
    syslog(LOG_DAEMON | LOG_WARNING, "%s", text);
}

static struct stat attributes(const struct cuzhaveli_play_about *about)
{
    struct stat data = {0};
    data.st_ino = about->number;
    data.st_mode = about->is_folder ? S_IFDIR | 0555 : S_IFREG | 0444;
    data.st_nlink = about->is_folder ? 2 : 1;
    data.st_size = (off_t)about->length;
    data.st_blocks = (blkcnt_t)((about->length + 511) / 512);
    data.st_blksize = 4096;
    data.st_atime = data.st_mtime = data.st_ctime = mounted;
    return data;
}

static void begin(void *context, struct fuse_conn_info *connection)
{
    (void)context;
    if (connection->max_readahead > AHEAD)
        connection->max_readahead = AHEAD;
    connection->max_background = BACKGROUND;
}

static void lookup(fuse_req_t request, fuse_ino_t parent, const char *name)
{
    struct cuzhaveli_play_about about;
    struct fuse_entry_param entry = {0};
    int error = cuzhaveli_play_find(tree, parent, name, &about);
    if (error && error != ENOENT)
        complain("folder", parent, 0);
    if (error) {
        fuse_reply_err(request, error);
        return;
    }
    entry.ino = about.number;
    entry.attr = attributes(&about);
    entry.attr_timeout = FOR_GOOD;
    entry.entry_timeout = NAMES_STAND;
    fuse_reply_entry(request, &entry);
}

static void getattr(fuse_req_t request, fuse_ino_t number, struct fuse_file_info *file)
{
    struct cuzhaveli_play_about about;
    int error = cuzhaveli_play_about(tree, number, &about);
    (void)file;
    if (error) {
        fuse_reply_err(request, error);
        return;
    }
    struct stat data = attributes(&about);
    fuse_reply_attr(request, &data, FOR_GOOD);
}

/* A folder that is open: its names as they were then. */
struct listing {
    fuse_req_t request;
    char *bytes;
    size_t length;
    bool full;
};

static int add(void *context, const char *name, const struct cuzhaveli_play_about *about)
{
    struct listing *listing = context;
    size_t more = fuse_add_direntry(listing->request, NULL, 0, name, NULL, 0);
    char *bytes = realloc(listing->bytes, listing->length + more);
    if (!bytes) {
        listing->full = true;
        return 1;
    }
    struct stat data = attributes(about);
    listing->bytes = bytes;
    listing->length += more;
    fuse_add_direntry(listing->request, bytes + listing->length - more, more, name, &data, (off_t)listing->length);
    return 0;
}

static void forget(struct listing *listing)
{
    free(listing->bytes);
    free(listing);
}

static void opendir(fuse_req_t request, fuse_ino_t number, struct fuse_file_info *file)
{
    struct cuzhaveli_play_about self = {number, 0, 1};
    struct listing *listing = calloc(1, sizeof *listing);
    if (!listing) {
        fuse_reply_err(request, ENOMEM);
        return;
    }
    listing->request = request;
    listing->full = add(listing, ".", &self) || add(listing, "..", &self);
    int error = listing->full ? ENOMEM : cuzhaveli_play_names(tree, number, add, listing);
    if (error == EIO)
        complain("folder", number, 0);
    if (!error && listing->full)
        error = ENOMEM;
    file->fh = (uintptr_t)listing;
    if (error)
        fuse_reply_err(request, error);
    if (error || fuse_reply_open(request, file) != 0)
        forget(listing);
}

static void readdir(fuse_req_t request, fuse_ino_t number, size_t size, off_t at, struct fuse_file_info *file)
{
    const struct listing *listing = (struct listing *)(uintptr_t)file->fh;
    size_t begin = (size_t)at < listing->length ? (size_t)at : listing->length, left = listing->length - begin;
    (void)number;
    fuse_reply_buf(request, listing->bytes + begin, left < size ? left : size);
}

static void releasedir(fuse_req_t request, fuse_ino_t number, struct fuse_file_info *file)
{
    (void)number;
    forget((struct listing *)(uintptr_t)file->fh);
    fuse_reply_err(request, 0);
}

static void open_film(fuse_req_t request, fuse_ino_t number, struct fuse_file_info *file)
{
    struct cuzhaveli_play *film = NULL;
    if ((file->flags & O_ACCMODE) != O_RDONLY) {
        fuse_reply_err(request, EROFS);
        return;
    }
    int error = cuzhaveli_play_film(tree, number, &film);
    if (error) {
        complain("file", number, 0);
        /* the name was just there: the kernel is to look for it again */
        fuse_reply_err(request, error == ENOENT ? ESTALE : error);
        return;
    }
    file->fh = (uintptr_t)film;
    file->keep_cache = 1;
    if (fuse_reply_open(request, file) != 0)
        cuzhaveli_play_close(film);
}

static void read_film(fuse_req_t request, fuse_ino_t number, size_t size, off_t at, struct fuse_file_info *file)
{
    const struct cuzhaveli_play *film = (struct cuzhaveli_play *)(uintptr_t)file->fh;
    uint64_t length = cuzhaveli_play_length(film), begin = (uint64_t)at < length ? (uint64_t)at : length;
    size_t len = size < length - begin ? size : (size_t)(length - begin);
    char *bytes = malloc(len ? len : 1);
    int error = bytes ? cuzhaveli_play_read(film, bytes, len, begin) : ENOMEM;
    if (error)
        complain("file", number, begin);
    /* All or nothing: what a reply lacks within the file the kernel takes for zeros. */
    if (error)
        fuse_reply_err(request, error);
    else
        fuse_reply_buf(request, bytes, len);
    free(bytes);
}

static void release(fuse_req_t request, fuse_ino_t number, struct fuse_file_info *file)
{
    (void)number;
    cuzhaveli_play_close((struct cuzhaveli_play *)(uintptr_t)file->fh);
    fuse_reply_err(request, 0);
}

static const struct fuse_lowlevel_ops calls = {
    .init = begin,
    .lookup = lookup,
    .getattr = getattr,
    .opendir = opendir,
    .readdir = readdir,
    .releasedir = releasedir,
    .open = open_film,
    .read = read_film,
    .release = release,
};

/* What is given beside the options of FUSE. */
struct given {
    char *store;
    unsigned long long cache;
    unsigned long long patience;
};

static const struct fuse_opt options[] = {
    {"cache=%llu", offsetof(struct given, cache), 0},
    {"patience=%llu", offsetof(struct given, patience), 0},
    FUSE_OPT_END,
};

/* The first word that is no option is the store; the point comes after it. */
static int take(void *data, const char *word, int key, struct fuse_args *words)
{
    struct given *given = data;
    (void)words;
    if (key != FUSE_OPT_KEY_NONOPT || given->store)
        return 1;
    given->store = realpath(word, NULL);
    if (!given->store)
        fprintf(stderr, "cuzhaveli-fuse: %s: %s\n", word, strerror(errno));
    return given->store ? 0 : -1;
}

static int usage(void)
{
    fprintf(stderr, "usage: cuzhaveli-fuse STORE POINT [-f] [-o OPTIONS]\n"
                    "  -f                stay in the foreground\n"
                    "  -o allow_other    other users may read\n"
                    "  -o cache=BYTES    units in memory, 32 MiB if it is not given\n"
                    "  -o patience=MS    milliseconds that a drive is waited for, 200 if they are not given\n");
    return 2;
}

/* Answers requests until it is unmounted. */
static int loop(struct fuse_session *session, const struct fuse_cmdline_opts *opts)
{
#if FUSE_VERSION >= FUSE_MAKE_VERSION(3, 12)
    struct fuse_loop_config *config = fuse_loop_cfg_create();
    if (!config)
        return -1;
    fuse_loop_cfg_set_clone_fd(config, (unsigned)opts->clone_fd);
    fuse_loop_cfg_set_idle_threads(config, IDLE);
    fuse_loop_cfg_set_max_threads(config, THREADS);
    int done = fuse_session_loop_mt(session, config);
    fuse_loop_cfg_destroy(config);
    return done;
#else
    struct fuse_loop_config config = {.clone_fd = opts->clone_fd, .max_idle_threads = IDLE};
    return fuse_session_loop_mt(session, &config);
#endif
}

/* Serves until it is unmounted, or a signal comes, which unmounts. The tree is opened before the process goes to the background,
 * for its errors are to be seen; no thread of it runs then. */
static int serve(struct fuse_args *words, const struct fuse_cmdline_opts *opts)
{
    int status = 4;
    struct fuse_session *session = fuse_session_new(words, &calls, sizeof calls, NULL);
    if (!session)
        return 2;
    if (fuse_set_signal_handlers(session) == 0) {
        if (fuse_session_mount(session, opts->mountpoint) == 0) {
            fuse_daemonize(opts->foreground);
            status = loop(session, opts) < 0 ? 4 : 0;
            fuse_session_unmount(session);
        }
        fuse_remove_signal_handlers(session);
    }
    fuse_session_destroy(session);
    return status;
}

/* A film has a descriptor a disk open: as many as the system lets. */
static void more_files(void)
{
    struct rlimit files;
    if (getrlimit(RLIMIT_NOFILE, &files) == 0) {
        files.rlim_cur = files.rlim_max;
        setrlimit(RLIMIT_NOFILE, &files);
    }
}

int main(int count, char **texts)
{
    struct fuse_args words = FUSE_ARGS_INIT(count, texts);
    struct fuse_cmdline_opts opts = {0};
    struct given given = {NULL, UNSET, UNSET};
    int status = 2;
    if (fuse_opt_parse(&words, &given, options, take) != 0 || fuse_parse_cmdline(&words, &opts) != 0) {
        status = given.store ? usage() : 4;
    } else if (!given.store || !opts.mountpoint || opts.show_help) {
        status = usage();
    } else {
        mounted = time(NULL);
        more_files();
        if (given.cache != UNSET)
            cuzhaveli_play_limit(given.cache);
        if (given.patience != UNSET)
            cuzhaveli_play_patience(given.patience);
        openlog("cuzhaveli-fuse", LOG_PID, LOG_DAEMON);
        cuzhaveli_play_reports(report);
        if (cuzhaveli_play_tree(given.store, &tree) != 0) {
            fprintf(stderr, "cuzhaveli-fuse: %s\n", cuzhaveli_play_why());
            status = 5;
        } else if (fuse_opt_add_arg(&words, "-oro,nosuid,nodev,default_permissions,fsname=cuzhaveli,subtype=cuzhaveli-fuse") == 0) {
            status = serve(&words, &opts);
        }
    }
    cuzhaveli_play_end(tree);
    free(given.store);
    free(opts.mountpoint);
    fuse_opt_free_args(&words);
    return status;
}
