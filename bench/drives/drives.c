/* Drives of limited speed: serves files of a folder, read only, each as a file system of its own that is that file alone.
 *
 * Usage: drives FOLDER MOUNTS RATE [NAME=RATE ..]
 *   Each file of MOUNTS is mounted over by the file of FOLDER that has its name. RATE: bytes a second that each gives, or
 *   the one NAME. A drive serves its reads in the order in which they come, one after the other; a read takes its bytes
 *   over the rate, and nothing else.
 * Prints a line when all are mounted. Ends on SIGTERM, unmounts, and prints a line for each: name, bytes, reads, seconds
 * it was busy.
 */

#define FUSE_USE_VERSION 31
#include <dirent.h>
#include <errno.h>
#include <fcntl.h>
#include <fuse_lowlevel.h>
#include <math.h>
#include <pthread.h>
#include <signal.h>
#include <stdbool.h>
#include <stdio.h>
#include <stdlib.h>
#include <string.h>
#include <sys/mman.h>
#include <sys/mount.h>
#include <sys/stat.h>
#include <time.h>
#include <unistd.h>

enum { MOST_DRIVES = 64, MOST_READS = 1 << 16 };

/* Nothing changes while it is served: the kernel may keep what it knows of a file. */
static const double KEPT = 1e6;

struct drive {
    char name[256], mount[4096];
    struct fuse_session *session;
    const char *bytes;
    size_t length;
    double rate;    /* bytes a second */
    double free_at; /* when all reads so far are done */
    double busy;    /* seconds */
    unsigned long long read, reads;
};

static struct drive drives[MOST_DRIVES];
static size_t count;

/* Reads on their way, as a heap by the time at which they are done. */
struct pending {
    double done;
    fuse_req_t request;
    const char *bytes;
    size_t length;
};

static struct pending heap[MOST_READS];
static size_t pending;
static pthread_mutex_t lock = PTHREAD_MUTEX_INITIALIZER;
static pthread_cond_t sooner;

static double now(void)
{
    struct timespec time;
    clock_gettime(CLOCK_MONOTONIC, &time);
    return (double)time.tv_sec + 1e-9 * (double)time.tv_nsec;
}

static void fail(const char *what)
{
    perror(what);
    exit(1);
}

static void push(struct pending read)
{
    size_t at = pending++;
    for (; at > 0 && heap[(at - 1) / 2].done > read.done; at = (at - 1) / 2)
        heap[at] = heap[(at - 1) / 2];
    heap[at] = read;
}

static struct pending pop(void)
{
    struct pending first = heap[0], last = heap[--pending];
    size_t at = 0;
    for (;;) {
        size_t child = 2 * at + 1;
        if (child >= pending)
            break;
        if (child + 1 < pending && heap[child + 1].done < heap[child].done)
            child++;
        if (heap[child].done >= last.done)
            break;
        heap[at] = heap[child];
        at = child;
    }
    heap[at] = last;
    return first;
}

/* Answers each read at its time. */
static void *answer(void *unused)
{
    pthread_mutex_lock(&lock);
    for (;;) {
        if (pending == 0) {
            pthread_cond_wait(&sooner, &lock);
            continue;
        }
        double done = heap[0].done;
        if (done > now()) {
            struct timespec until = {(time_t)done, (long)((done - floor(done)) * 1e9)};
            pthread_cond_timedwait(&sooner, &lock, &until);
            continue;
        }
        struct pending read = pop();
        pthread_mutex_unlock(&lock);
        fuse_reply_buf(read.request, read.bytes, read.length);
        pthread_mutex_lock(&lock);
    }
    return unused;
}

static void begin(void *unused, struct fuse_conn_info *connection)
{
    (void)unused;
    connection->max_background = connection->congestion_threshold = 60000;
    connection->want |= connection->capable & FUSE_CAP_ASYNC_DIO;
}

static void attributes(fuse_req_t request, fuse_ino_t number, struct fuse_file_info *file)
{
    (void)file;
    struct drive *drive = fuse_req_userdata(request);
    struct stat stat = {.st_ino = number, .st_nlink = 1, .st_mode = S_IFREG | 0444, .st_size = (off_t)drive->length};
    fuse_reply_attr(request, &stat, KEPT);
}

static void open_drive(fuse_req_t request, fuse_ino_t number, struct fuse_file_info *file)
{
    (void)number;
    file->keep_cache = 1; /* players and the rebuild have it open at once */
    fuse_reply_open(request, file);
}

static void read_drive(fuse_req_t request, fuse_ino_t number, size_t size, off_t offset,
                       struct fuse_file_info *file)
{
    (void)number, (void)file;
    struct drive *drive = fuse_req_userdata(request);
    size_t from = (size_t)offset < drive->length ? (size_t)offset : drive->length;
    size_t length = size < drive->length - from ? size : drive->length - from;
    double time = now(), takes = (double)length / drive->rate;
    drive->free_at = (drive->free_at > time ? drive->free_at : time) + takes;
    drive->busy += takes;
    drive->read += length;
    drive->reads++;
    pthread_mutex_lock(&lock);
    if (pending == MOST_READS) {
        pthread_mutex_unlock(&lock);
        fuse_reply_err(request, ENOMEM);
        return;
    }
    push((struct pending){drive->free_at, request, drive->bytes + from, length});
    bool first = heap[0].request == request;
    pthread_mutex_unlock(&lock);
    if (first)
        pthread_cond_signal(&sooner);
}

static const struct fuse_lowlevel_ops CALLS = {
    .init = begin, .getattr = attributes, .open = open_drive, .read = read_drive};

static void add(const char *folder, const char *mounts, const char *name, double rate)
{
    struct drive *drive = &drives[count++];
    char path[sizeof drive->mount], *words[] = {"drives", "-o", "ro,fsname=drives"};
    struct fuse_args args = FUSE_ARGS_INIT(3, words);
    struct stat stat;
    snprintf(path, sizeof path, "%s/%s", folder, name);
    snprintf(drive->name, sizeof drive->name, "%s", name);
    int file = open(path, O_RDONLY);
    if (file < 0 || fstat(file, &stat) != 0)
        fail(path);
    drive->length = (size_t)stat.st_size;
    drive->rate = rate;
    drive->bytes = mmap(NULL, drive->length, PROT_READ, MAP_SHARED, file, 0);
    if (drive->bytes == MAP_FAILED)
        fail(path);
    close(file);
    snprintf(drive->mount, sizeof drive->mount, "%s/%s", mounts, name);
    drive->session = fuse_session_new(&args, &CALLS, sizeof CALLS, drive);
    if (drive->session == NULL || fuse_session_mount(drive->session, drive->mount) != 0)
        fail(drive->mount);
}

static void add_all(const char *folder, const char *mounts, double rate)
{
    DIR *names = opendir(mounts);
    if (names == NULL)
        fail(mounts);
    for (struct dirent *entry; (entry = readdir(names)) != NULL && count < MOST_DRIVES;)
        if (entry->d_name[0] != '.')
            add(folder, mounts, entry->d_name, rate);
    closedir(names);
}

/* NAME=RATE. */
static bool set_rate(const char *word)
{
    const char *equals = strchr(word, '=');
    for (size_t i = 0; equals != NULL && i < count; i++)
        if (strncmp(drives[i].name, word, (size_t)(equals - word)) == 0 &&
            drives[i].name[equals - word] == 0) {
            drives[i].rate = atof(equals + 1);
            return drives[i].rate > 0;
        }
    return false;
}

/* At the end, whatever it is; the loops end with the program. */
static void unmount_all(void)
{
    for (size_t i = 0; i < count; i++)
        umount2(drives[i].mount, MNT_DETACH);
}

static void *loop(void *drive)
{
    fuse_session_loop(((struct drive *)drive)->session);
    return NULL;
}

/* Until the signal, which all threads leave to this one. */
static int serve(const sigset_t *end)
{
    pthread_condattr_t monotonic;
    pthread_t thread;
    int number;
    pthread_condattr_init(&monotonic);
    pthread_condattr_setclock(&monotonic, CLOCK_MONOTONIC);
    pthread_cond_init(&sooner, &monotonic);
    bool begun = pthread_create(&thread, NULL, answer, NULL) == 0;
    for (size_t i = 0; i < count && begun; i++)
        begun = pthread_create(&thread, NULL, loop, &drives[i]) == 0;
    if (begun) {
        puts("mounted");
        fflush(stdout);
        sigwait(end, &number);
    }
    for (size_t i = 0; i < count; i++)
        printf("%s %llu %llu %.6f\n", drives[i].name, drives[i].read, drives[i].reads, drives[i].busy);
    return begun ? 0 : 1;
}

int main(int argc, char **argv)
{
    if (argc < 4 || atof(argv[3]) <= 0) {
        fputs("usage: drives FOLDER MOUNTS RATE [NAME=RATE ..]\n", stderr);
        return 2;
    }
    sigset_t end;
    sigemptyset(&end);
    sigaddset(&end, SIGTERM);
    sigaddset(&end, SIGINT);
    pthread_sigmask(SIG_BLOCK, &end, NULL);
    atexit(unmount_all);
    add_all(argv[1], argv[2], atof(argv[3]));
    for (int i = 4; i < argc; i++)
        if (!set_rate(argv[i])) {
            fprintf(stderr, "drives: %s: no such drive, or no rate\n", argv[i]);
            return 2;
        }
    return serve(&end);
}
