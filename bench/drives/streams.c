/* Screens that play: streams that read from drives while something else does, each read with a deadline.
 *
 * Usage: streams MOUNT DISKS LOST STREAMS RATE CHUNK DEADLINE
 *   MOUNT has disk-NN.img: DISKS data disks and P after them; the disk LOST is not read, but all others
 *   and P in its place. Each of STREAMS plays RATE bytes a second: chunk after chunk of CHUNK bytes, disk
 *   after disk, from a place of its own; a chunk is asked for when it is due, and late if it is not there
 *   DEADLINE seconds after.
 * Ends on SIGTERM, when all reads on their way are done, and prints: reads, late ones, the longest wait
 * of one in seconds.
 */

#define _GNU_SOURCE
#include <errno.h>
#include <fcntl.h>
#include <linux/aio_abi.h>
#include <signal.h>
#include <stdbool.h>
#include <stdint.h>
#include <stdio.h>
#include <stdlib.h>
#include <string.h>
#include <sys/stat.h>
#include <sys/syscall.h>
#include <time.h>
#include <unistd.h>

enum { MOST_DISKS = 32, MOST_READS = 8192, AT_ONCE = 256, ALIGNED = 4096 };

/* Less than this is not slept. */
static const double TICK = 0.001;
/* At most this long until the signal is looked for. */
static const double LOOK = 0.05;

struct stream {
    double begun;
    long place; /* in the image, in chunks */
    long next;  /* chunks so far */
};

struct read {
    struct iocb block; /* first: the kernel gives its address */
    double due;
    struct read *after;
};

static int files[MOST_DISKS];
static long disks, lost, chunks;
static size_t chunk;
static aio_context_t context;
static struct read *spare;
static unsigned long long reads, late, underway;
static double deadline, longest;
static volatile sig_atomic_t ended;

static double now(void)
{
    struct timespec time;
    clock_gettime(CLOCK_MONOTONIC, &time);
    return (double)time.tv_sec + 1e-9 * (double)time.tv_nsec;
}

static void fail(const char *what)
{
    perror(what);
    exit(1);
}

static void end(int number)
{
    (void)number;
    ended = 1;
}

static struct read *take(void)
{
    struct read *read = spare;
    if (read != NULL) {
        spare = read->after;
        return read;
    }
    void *bytes = NULL;
    if ((read = calloc(1, sizeof *read)) == NULL || posix_memalign(&bytes, ALIGNED, chunk) != 0)
        fail("memory");
    read->block.aio_buf = (uintptr_t)bytes;
    return read;
}

static void ask(long disk, long place, double due)
{
    struct read *read = take();
    struct iocb *block = &read->block;
    uint64_t bytes = block->aio_buf;
    memset(block, 0, sizeof *block);
    block->aio_buf = bytes;
    block->aio_fildes = (uint32_t)files[disk];
    block->aio_lio_opcode = IOCB_CMD_PREAD;
    block->aio_nbytes = chunk;
    block->aio_offset = (int64_t)(place % chunks) * (int64_t)chunk;
    read->due = due;
    if (syscall(SYS_io_submit, context, 1, &block) != 1)
        fail("io_submit");
    underway++;
}

/* Asks for what is due of a stream; gives when the next chunk is. */
static double play(struct stream *stream, double time, double each)
{
    for (;; stream->next++) {
        double due = stream->begun + (double)stream->next * each;
        if (due > time)
            return due;
        long disk = stream->next % disks, place = stream->place + stream->next / disks;
        if (disk != lost) {
            ask(disk, place, due);
            continue;
        }
        for (long other = 0; other <= disks; other++)
            if (other != lost)
                ask(other, place, due);
    }
}

/* Takes what has come, and waits for it until then. */
static void wait_until(double until)
{
    struct io_event events[AT_ONCE];
    double wait = until - now();
    wait = wait < TICK ? TICK : wait;
    struct timespec time = {(time_t)wait, (long)((wait - (double)(time_t)wait) * 1e9)};
    if (underway == 0) {
        nanosleep(&time, NULL);
        return;
    }
    long got = syscall(SYS_io_getevents, context, 1, AT_ONCE, events, &time);
    for (long i = 0; i < got; i++) {
        struct read *read = (struct read *)(uintptr_t)events[i].obj;
        if (events[i].res != (int64_t)chunk) {
            fprintf(stderr, "streams: a read gave %lld\n", (long long)events[i].res);
            exit(1);
        }
        double waited = now() - read->due;
        longest = waited > longest ? waited : longest;
        late += waited > deadline;
        reads++;
        underway--;
        read->after = spare;
        spare = read;
    }
}

static void open_drives(const char *mount)
{
    char path[4096];
    struct stat stat;
    for (long disk = 0; disk <= disks; disk++) {
        if (disk == lost)
            continue;
        snprintf(path, sizeof path, "%s/disk-%02ld.img", mount, disk);
        if ((files[disk] = open(path, O_RDONLY | O_DIRECT)) < 0 || fstat(files[disk], &stat) != 0)
            fail(path);
    }
    chunks = stat.st_size / (long)chunk;
}

int main(int argc, char **argv)
{
    if (argc != 8) {
        fputs("usage: streams MOUNT DISKS LOST STREAMS RATE CHUNK DEADLINE\n", stderr);
        return 2;
    }
    disks = atol(argv[2]), lost = atol(argv[3]), chunk = (size_t)atol(argv[6]), deadline = atof(argv[7]);
    long count = atol(argv[4]);
    double each = (double)chunk / atof(argv[5]), begun = now();
    struct stream *streams = calloc((size_t)count, sizeof *streams);
    open_drives(argv[1]);
    if (streams == NULL || syscall(SYS_io_setup, MOST_READS, &context) != 0)
        fail("io_setup");
    signal(SIGTERM, end);
    srand48(count);
    for (long i = 0; i < count; i++) {
        streams[i] = (struct stream){begun + each * drand48(), (long)(drand48() * (double)chunks), 0};
        streams[i].next = (long)(drand48() * (double)disks); /* some begin at each disk */
        streams[i].begun -= (double)streams[i].next * each;
    }
    while (!ended || underway > 0) {
        double time = now(), next = time + LOOK;
        for (long i = 0; i < count && !ended; i++) {
            double due = play(&streams[i], time, each);
            next = due < next ? due : next;
        }
        wait_until(next);
    }
    printf("%llu %llu %.4f\n", reads, late, longest);
    return 0;
}
