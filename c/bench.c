/*
 * Measures the branch reply reader and the branch question writer of the static library against plain C, in one run. The
 * rounds of both take turns, and of each the quickest round counts, so that whatever else the machine does weighs little.
 */
#define _POSIX_C_SOURCE 199309L

#include "kimarulen.h"
#include "plain.h"

#include <inttypes.h>
#include <stdio.h>
#include <stdlib.h>
#include <string.h>
#include <time.h>

enum { ROUNDS = 60, CALLS = 200000, REPLIES = 256, REPLY_SIZE = 24, FRAME_SIZE = 38 };

static uint8_t replies[REPLIES][REPLY_SIZE];
static uint64_t keys[REPLIES];

/* What is answered goes here, so that no call can be left out. */
static volatile uint64_t sink;

static double now(void)
{
    struct timespec t;
    clock_gettime(CLOCK_MONOTONIC, &t);
    return (double)t.tv_sec + 1e-9 * (double)t.tv_nsec;
}

typedef int64_t (*reader)(const uint8_t *bytes, size_t size);
typedef int64_t (*writer)(uint8_t transaction, uint64_t lo, uint64_t hi, uint8_t *buf, size_t room);

static double time_reader(reader read)
{
    uint64_t all = 0;
    double begin = now();
    for (unsigned i = 0; i < CALLS; i++) {
        /* From none to seven bytes at the front are lost. */
        unsigned lost = i & 7;
        all += (uint64_t)read(replies[i % REPLIES] + lost, REPLY_SIZE - lost);
    }
    double end = now();
    sink = all;
    return end - begin;
}

static double time_writer(writer write)
{
    uint8_t buf[FRAME_SIZE];
    uint64_t all = 0;
    double begin = now();
    for (unsigned i = 0; i < CALLS; i++) {
        all += (uint64_t)write((uint8_t)i, keys[i % REPLIES] / 2, keys[i % REPLIES], buf, sizeof buf);
        all += buf[FRAME_SIZE - 1];
    }
    double end = now();
    sink = all;
    return end - begin;
}

static double lesser(double a, double b)
{
    return a < b ? a : b;
}

static void tell(const char *what, double proved, double plain)
{
    printf("%-22s proved %6.2f ns, plain C %6.2f ns, ratio %.2f\n", what, proved / CALLS * 1e9, plain / CALLS * 1e9,
           proved / plain);
}

int main(void)
{
    uint64_t state = 88172645463325252u;
    for (unsigned i = 0; i < REPLIES; i++) {
        state ^= state << 13;
        state ^= state >> 7;
        state ^= state << 17;
        keys[i] = state % KIMARULEN_TO_ALL;
        if (rdm_write_branch_reply(keys[i], replies[i], REPLY_SIZE) != REPLY_SIZE
            || plain_read_branch_reply(replies[i], REPLY_SIZE) != (int64_t)keys[i])
            return 1;
        uint8_t a[FRAME_SIZE], b[FRAME_SIZE];
        rdm_write_branch((uint8_t)i, 0, keys[i], a, sizeof a);
        plain_write_branch((uint8_t)i, 0, keys[i], b, sizeof b);
        if (memcmp(a, b, sizeof a) != 0)
            return 1;
    }
    double read[2] = {1e9, 1e9}, write[2] = {1e9, 1e9};
    for (int i = 0; i < ROUNDS; i++) {
        read[0] = lesser(read[0], time_reader(rdm_read_branch_reply));
        read[1] = lesser(read[1], time_reader(plain_read_branch_reply));
        write[0] = lesser(write[0], time_writer(rdm_write_branch));
        write[1] = lesser(write[1], time_writer(plain_write_branch));
    }
    tell("branch reply reader", read[0], read[1]);
    tell("branch question writer", write[0], write[1]);
    return 0;
}
