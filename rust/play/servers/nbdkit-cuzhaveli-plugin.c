/* SPDX-License-Identifier: Apache-2.0 */
/* One film as a block device, read-only, with up to two disks gone.
 *
 *   nbdkit cuzhaveli dir=DIR                                  the film of a folder of images
 *   nbdkit cuzhaveli store=STORE package=PACKAGE file=FILE    a file of a package of a store
 *   cache=SIZE                                                units in memory, 32M if it is not given
 *   patience=MS                                               milliseconds that a drive is waited for, 200 if not given
 *
 * This file moves bytes between nbdkit and cuzhaveli_play.h, which verifies and mends. */
#define NBDKIT_API_VERSION 2
#include <nbdkit-plugin.h>

#include "cuzhaveli_play.h"

#include <errno.h>
#include <inttypes.h>
#include <stdlib.h>
#include <string.h>

#define THREAD_MODEL NBDKIT_THREAD_MODEL_PARALLEL

static char *folder, *package, *file;
static int is_bare, is_store;
static struct cuzhaveli_play *film;

static int take(char **place, char *text)
{
    free(*place);
    *place = text;
    if (!text)
        nbdkit_error("no memory, or no such path");
    return text ? 0 : -1;
}

static int film_config(const char *key, const char *value)
{
    if (strcmp(key, "dir") == 0) {
        is_bare = 1;
        return take(&folder, nbdkit_realpath(value));
    }
    if (strcmp(key, "store") == 0) {
        is_store = 1;
        return take(&folder, nbdkit_realpath(value));
    }
    if (strcmp(key, "package") == 0)
        return take(&package, strdup(value));
    if (strcmp(key, "file") == 0)
        return take(&file, strdup(value));
    if (strcmp(key, "cache") == 0) {
        int64_t bytes = nbdkit_parse_size(value);
        if (bytes < 0)
            return -1;
        cuzhaveli_play_limit((uint64_t)bytes);
        return 0;
    }
    if (strcmp(key, "patience") == 0) {
        uint32_t milliseconds;
        if (nbdkit_parse_uint32_t("patience", value, &milliseconds) != 0)
            return -1;
        cuzhaveli_play_patience(milliseconds);
        return 0;
    }
    nbdkit_error("unknown parameter %s: dir, or store, package and file, cache and patience are known", key);
    return -1;
}

static int film_config_complete(void)
{
    if (is_bare + is_store != 1 || is_store != (package && file) || (is_bare && (package || file))) {
        nbdkit_error("give dir=DIR, or store=STORE package=PACKAGE file=FILE");
        return -1;
    }
    return 0;
}

/* Before nbdkit goes to the background, so that its errors are seen. */
static int film_get_ready(void)
{
    if (cuzhaveli_play_open(folder, package, file, &film) == 0)
        return 0;
    nbdkit_error("%s", cuzhaveli_play_why());
    return -1;
}

static void film_unload(void)
{
    cuzhaveli_play_close(film);
    free(folder);
    free(package);
    free(file);
}

static void *film_open(int readonly)
{
    (void)readonly;
    return NBDKIT_HANDLE_NOT_NEEDED;
}

static int64_t film_get_size(void *handle)
{
    (void)handle;
    return (int64_t)cuzhaveli_play_length(film);
}

/* The same bytes by every connection. */
static int film_can_multi_conn(void *handle)
{
    (void)handle;
    return 1;
}

/* What was read is kept by us, and the images by the kernel. */
static int film_can_cache(void *handle)
{
    (void)handle;
    return NBDKIT_CACHE_EMULATE;
}

static int film_pread(void *handle, void *bytes, uint32_t count, uint64_t at, uint32_t flags)
{
    (void)handle, (void)flags;
    int error = cuzhaveli_play_read(film, bytes, count, at);
    if (error == 0)
        return 0;
    nbdkit_error("byte %" PRIu64 ": %s", at, cuzhaveli_play_why());
    nbdkit_set_error(error);
    return -1;
}

static struct nbdkit_plugin plugin = {
    .name = "cuzhaveli",
    .longname = "Cuzhaveli film",
    .description = "One film of a set of images or a store, read-only, with up to two disks gone",
    .config = film_config,
    .config_complete = film_config_complete,
    .config_help = "dir=DIR                                 the film of a folder of images\n"
                   "store=STORE package=PACKAGE file=FILE   a file of a package of a store\n"
                   "cache=SIZE                              units in memory, 32M if it is not given\n"
                   "patience=MS                             milliseconds that a drive is waited for, 200 if not given",
    .get_ready = film_get_ready,
    .unload = film_unload,
    .open = film_open,
    .get_size = film_get_size,
    .can_multi_conn = film_can_multi_conn,
    .can_cache = film_can_cache,
    .pread = film_pread,
};

NBDKIT_REGISTER_PLUGIN(plugin)
