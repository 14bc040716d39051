#include "servers.h"

#include "clock.h"
#include "cuzhaveli.h"
#include "results.h"

#include <stdio.h>
#include <string.h>

static const int WIDTHS[] = { 5, 31 };
static const size_t SERVERS[] = { 2, 4, 16 };

static const double SAMPLE_SECONDS = 1e-3;

static struct cuzhaveli_shape shape_of(const struct Shelf *shelf)
{
    return (struct cuzhaveli_shape){ shelf->array->p, shelf->array->k, shelf->s };
}

/* The shelf holds the stripes of all servers, the parity server's last. */
typedef void Work(const struct Shelf *shelf);

static void write_server(const struct Shelf *shelf)
{
    struct cuzhaveli_answer answer = cuzhaveli_write_server(
        shape_of(shelf), shelf->stripes - 1, shelf->bytes, shelf->stripes * shelf->stripe);
    demand(answer.refusal == 0, "the library refuses to write a server");
}

static void encode_servers(const struct Shelf *shelf)
{
    for (size_t server = 0; server + 1 < shelf->stripes; server++) {
        struct cuzhaveli_answer answer =
            cuzhaveli_encode_stripe(shape_of(shelf), stripe_at(shelf, server), shelf->stripe);
        demand(answer.refusal == 0, "the library refuses to encode");
    }
}

/* Byte by byte what is written must be the XOR of the others; and each server, lost with the first disk of the next
   one, must come back. */
static void compare_servers(const struct Shelf *shelf)
{
    size_t servers = shelf->stripes - 1, all = shelf->stripes * shelf->stripe;
    uint8_t losses[2 * (CUZHAVELI_MAX_SERVERS + 1)];
    encode_servers(shelf);
    write_server(shelf);
    for (size_t i = 0; i < shelf->stripe; i++) {
        uint8_t sum = 0;
        for (size_t server = 0; server < servers; server++) {
            sum ^= stripe_at(shelf, server)[i];
        }
        demand(sum == stripe_at(shelf, servers)[i], "the library doesn't write the XOR of the servers");
    }
    memcpy(shelf->copies, shelf->bytes, all);
    for (size_t lost = 0; lost <= servers; lost++) {
        size_t next = (lost + 1) % shelf->stripes;
        memset(losses, CUZHAVELI_NO_LOSS, sizeof losses);
        losses[2 * next] = 0;
        memset(stripe_at(shelf, lost), 0, shelf->stripe);
        memset(disk_at(shelf, next, 0), 0, shelf->column);
        cuzhaveli_rebuild_server(shape_of(shelf), servers, lost, shelf->bytes, all, losses,
                                 CUZHAVELI_LOSSES_BYTES(servers));
        demand(memcmp(shelf->bytes, shelf->copies, all) == 0, "the library doesn't bring a server back");
    }
}

/* Seconds a call, over so many calls. */
static double sample(const struct Shelf *shelf, Work *work, int calls)
{
    double start = now();
    for (int i = 0; i < calls; i++) {
        work(shelf);
    }
    return (now() - start) / calls;
}

static int calls_needed(const struct Shelf *shelf, Work *work)
{
    int calls = 1;
    while (sample(shelf, work, calls) * calls < SAMPLE_SECONDS) {
        calls *= 2;
    }
    return calls;
}

/* GB/s that are read: m stripes to write a server, the film of m stripes to encode them. */
static void print_row(const struct Shelf *shelf, int rounds)
{
    static double ratios[MOST_ROUNDS];
    double best_write = 1, best_encode = 1;
    size_t servers = shelf->stripes - 1;
    double stripes = (double)(servers * shelf->stripe);
    double film = (double)(servers * shelf->array->k * shelf->column);
    int writes = calls_needed(shelf, write_server), encodings = calls_needed(shelf, encode_servers);
    for (int round = 0; round < rounds; round++) {
        double writing = sample(shelf, write_server, writes);
        double encoding = sample(shelf, encode_servers, encodings);
        best_write = writing < best_write ? writing : best_write;
        best_encode = encoding < best_encode ? encoding : best_encode;
        ratios[round] = stripes / writing * encoding / film;
    }
    printf("| %zu | %d | %zu | %.2f | %.1f | %.1f | %.2f / %.2f |\n", servers, shelf->array->p, shelf->s,
           1e6 * best_write, 1e-9 * stripes / best_write, 1e-9 * film / best_encode,
           stripes / best_write * best_encode / film, median(ratios, rounds));
}

void print_servers(int rounds)
{
    printf("### warm: the stripe of a parity server written, and the stripes of m servers encoded, k = p\n\n");
    printf("| m | p | s | write, us | read, GB/s | encode, GB/s | write over encode, best / median |\n"
           "|---|---|---|---|---|---|---|\n");
    for (size_t i = 0; i < sizeof WIDTHS / sizeof *WIDTHS; i++) {
        static struct Array array;
        open_array(&array, WIDTHS[i], WIDTHS[i]);
        for (int size = 0; size < SIZES; size++) {
            for (size_t n = 0; n < sizeof SERVERS / sizeof *SERVERS; n++) {
                struct Shelf shelf;
                fprintf(stderr, "bench: %zu servers, p = %d, s = %zu\n", SERVERS[n], WIDTHS[i], CELL_SIZES[size]);
                open_shelf(&shelf, &array, CELL_SIZES[size], SERVERS[n] + 1);
                compare_servers(&shelf);
                print_row(&shelf, rounds);
                close_shelf(&shelf);
            }
        }
        close_array(&array);
    }
    printf("\n");
}
