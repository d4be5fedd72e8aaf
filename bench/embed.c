/* What embed.rt.txt does, by the calls of lattice.h: `embed MANY BATCH` submits so many increments at node 0 of three
 * in this process, so many at a time, brings all lines to whom they are for, and takes what each node learnt. It prints
 * the microseconds, and what came out. */
#define _POSIX_C_SOURCE 200809L
#include "lattice.h"

#include <stdio.h>
#include <stdlib.h>
#include <time.h>

enum { NODES = 3, COUNTER = 1, CAP = 1000000, LINE_ROOM = 1 << 20 };

static lattice_node nodes[NODES];
static uint8_t line[LINE_ROOM];
static uint64_t learnt;

static void check(uint8_t status) {
    if (status != LATTICE_OK) {
        fprintf(stderr, "embed: status %d\n", status);
        exit(1);
    }
}

/* Brings all that a node has to send to whom it is for: how many lines that were. */
static int bring(lattice_node *node) {
    for (int count = 0;; count++) {
        uint8_t to;
        size_t len;
        uint8_t status = lattice_next_mail(node, &to, line, sizeof line, &len);
        if (status == LATTICE_NONE) {
            return count;
        }
        check(status);
        check(lattice_receive(&nodes[to], line, len));
    }
}

static void learn(lattice_node *node) {
    for (;;) {
        lattice_learnt out;
        size_t len;
        uint8_t status = lattice_next_learnt(node, &out, line, sizeof line, &len);
        if (status == LATTICE_NONE) {
            return;
        }
        check(status);
        learnt++;
    }
}

static void settle(void) {
    for (int lines = 1; lines > 0;) {
        lines = 0;
        for (int own = 0; own < NODES; own++) {
            lines += bring(&nodes[own]);
        }
    }
    for (int own = 0; own < NODES; own++) {
        learn(&nodes[own]);
    }
}

static long long micros_between(struct timespec start, struct timespec end) {
    return (end.tv_sec - start.tv_sec) * 1000000LL + (end.tv_nsec - start.tv_nsec) / 1000;
}

int main(int argc, char **argv) {
    uint16_t votes[NODES] = {1, 1, 1};
    if (argc != 3) {
        return 2;
    }
    long many = atol(argv[1]), batch = atol(argv[2]);
    for (uint8_t own = 0; own < NODES; own++) {
        check(lattice_node_new(NODES, own, 0, CAP, votes, NODES, &nodes[own]));
        check(lattice_add(&nodes[own], COUNTER, LATTICE_COUNTER));
    }
    struct timespec start, end;
    clock_gettime(CLOCK_MONOTONIC, &start);
    for (long made = 0; made + batch <= many; made += batch) {
        for (long at = 0; at < batch; at++) {
            uint32_t number;
            check(lattice_inc(&nodes[0], COUNTER, 1, &number));
        }
        settle();
    }
    clock_gettime(CLOCK_MONOTONIC, &end);
    int64_t total;
    check(lattice_total(&nodes[NODES - 1], COUNTER, &total));
    printf("%lld %lld %llu\n", micros_between(start, end), (long long)total, (unsigned long long)learnt);
    return 0;
}
