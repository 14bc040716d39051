/* Reads a film by the calls of cuzhaveli_play.h and compares it with the original, as tests/mount/run tells it.
 *
 *   player FILM LIMIT FOLDER [PACKAGE FILE]
 *
 * Each line of standard input is a task, and gets one line of an answer:
 *   all CHUNK                          the film in order         -> same BYTES eio BYTES wrong BYTES
 *   random SEED COUNT MOST THREADS     random reads              -> the same
 *   until SEED MOST THREADS            random reads until a line -> the same, then a line is read
 *   at OFFSET LENGTH                   one read                  -> its error, or 0, and whether the bytes are right
 *   memory                             the most that was taken   -> KiB
 *   taken                              bytes read by this process so far
 *   open FOLDER [PACKAGE FILE]         one more film             -> its error, or 0, and its length; it is closed again */
#include "cuzhaveli_play.h"

#include <errno.h>
#include <fcntl.h>
#include <inttypes.h>
#include <pthread.h>
#include <stdatomic.h>
#include <stdio.h>
#include <stdlib.h>
#include <string.h>
#include <sys/mman.h>
#include <sys/stat.h>
#include <unistd.h>

#define MOST_THREADS 64

static const uint8_t *original;
static uint64_t length;
static struct cuzhaveli_play *film;
static _Atomic uint64_t same, failed, wrong;
static _Atomic int ended;

struct task {
    uint64_t seed, count, most;
};

static uint64_t next(uint64_t *state)
{
    *state += 0x9E3779B97F4A7C15u;
    uint64_t mixed = (*state ^ *state >> 30) * 0xBF58476D1CE4E5B9u;
    mixed = (mixed ^ mixed >> 27) * 0x94D049BB133111EBu;
    return mixed ^ mixed >> 31;
}

static void compare(uint8_t *room, uint64_t at, size_t len)
{
    int error = cuzhaveli_play_read(film, room, len, at);
    if (error == EIO)
        failed += len;
    else if (error != 0 || memcmp(room, original + at, len) != 0)
        wrong += len;
    else
        same += len;
}

static void *reads(void *given)
{
    struct task task = *(struct task *)given;
    uint8_t *room = malloc(task.most);
    for (uint64_t n = 0; room && n < task.count && !ended; n++) {
        uint64_t at = next(&task.seed) % (length ? length : 1), len = 1 + next(&task.seed) % task.most;
        compare(room, at, (size_t)(len < length - at ? len : length - at));
    }
    free(room);
    return NULL;
}

static void at_random(uint64_t seed, uint64_t count, uint64_t most, unsigned threads, int until)
{
    pthread_t thread[MOST_THREADS];
    struct task task[MOST_THREADS];
    char line[8];
    ended = 0;
    threads = threads < MOST_THREADS ? threads : MOST_THREADS;
    for (unsigned n = 0; n < threads; n++) {
        task[n] = (struct task){seed * MOST_THREADS + n, count, most};
        pthread_create(&thread[n], NULL, reads, &task[n]);
    }
    if (until) {
        puts("begun");
        fflush(stdout);
        ended = fgets(line, sizeof line, stdin) != NULL || 1;
    }
    for (unsigned n = 0; n < threads; n++)
        pthread_join(thread[n], NULL);
}

static void in_order(size_t chunk)
{
    uint8_t *room = malloc(chunk);
    for (uint64_t at = 0; room && at < length; at += chunk)
        compare(room, at, chunk < length - at ? chunk : (size_t)(length - at));
    free(room);
}

static void one(uint64_t at, size_t len)
{
    uint8_t *room = calloc(1, len + 1);
    int error = room ? cuzhaveli_play_read(film, room, len, at) : ENOMEM;
    int right = error == 0 && memcmp(room, original + at, len) == 0;
    printf("%d %s\n", error, right ? "right" : error ? cuzhaveli_play_why() : "WRONG");
    free(room);
}

static void another(char *words)
{
    char *word[3] = {NULL, NULL, NULL};
    struct cuzhaveli_play *opened = NULL;
    for (int n = 0; n < 3; n++)
        word[n] = strtok(n ? NULL : words, " \n");
    int error = cuzhaveli_play_open(word[0], word[1], word[2], &opened);
    printf("%d %" PRIu64 " %s\n", error, cuzhaveli_play_length(opened), error ? cuzhaveli_play_why() : "");
    cuzhaveli_play_close(opened);
}

static uint64_t taken(void)
{
    uint64_t bytes = 0;
    FILE *file = fopen("/proc/self/io", "r");
    if (file && fscanf(file, "rchar: %" SCNu64, &bytes) != 1)
        bytes = 0;
    if (file)
        fclose(file);
    return bytes;
}

/* Not ru_maxrss, in which the parent's counts. */
static uint64_t memory(void)
{
    char line[256];
    uint64_t most = 0;
    FILE *file = fopen("/proc/self/status", "r");
    while (file && fgets(line, sizeof line, file) && sscanf(line, "VmHWM: %" SCNu64, &most) != 1)
        continue;
    if (file)
        fclose(file);
    return most;
}

static void answer(void)
{
    printf("same %" PRIu64 " eio %" PRIu64 " wrong %" PRIu64 "\n", (uint64_t)same, (uint64_t)failed, (uint64_t)wrong);
    same = failed = wrong = 0;
}

static void obey(char *line)
{
    uint64_t a = 0, b = 0, c = 0, d = 0;
    if (sscanf(line, "all %" SCNu64, &a) == 1) {
        in_order((size_t)a);
        answer();
    } else if (sscanf(line, "random %" SCNu64 " %" SCNu64 " %" SCNu64 " %" SCNu64, &a, &b, &c, &d) == 4) {
        at_random(a, b, c, (unsigned)d, 0);
        answer();
    } else if (sscanf(line, "until %" SCNu64 " %" SCNu64 " %" SCNu64, &a, &b, &c) == 3) {
        at_random(a, UINT64_MAX, b, (unsigned)c, 1);
        answer();
    } else if (sscanf(line, "at %" SCNu64 " %" SCNu64, &a, &b) == 2) {
        one(a, (size_t)b);
    } else if (strncmp(line, "open ", 5) == 0) {
        another(line + 5);
    } else if (strcmp(line, "taken\n") == 0) {
        printf("%" PRIu64 "\n", taken());
    } else if (strcmp(line, "memory\n") == 0) {
        printf("%" PRIu64 "\n", memory());
    } else {
        puts("no such task");
    }
}

int main(int count, char **words)
{
    char line[4096];
    struct stat data;
    if (count != 4 && count != 6)
        return 2;
    int file = open(words[1], O_RDONLY);
    if (file == -1 || fstat(file, &data) != 0)
        return 2;
    length = (uint64_t)data.st_size;
    original = length ? mmap(NULL, (size_t)length, PROT_READ, MAP_PRIVATE, file, 0) : NULL;
    cuzhaveli_play_limit(strtoull(words[2], NULL, 10));
    int error = cuzhaveli_play_open(words[3], count == 6 ? words[4] : NULL, count == 6 ? words[5] : NULL, &film);
    printf("%d %" PRIu64 " %s\n", error, cuzhaveli_play_length(film), error ? cuzhaveli_play_why() : "");
    fflush(stdout);
    if (error)
        return 1;
    while (fgets(line, sizeof line, stdin)) {
        obey(line);
        fflush(stdout);
    }
    cuzhaveli_play_close(film);
    return 0;
}
