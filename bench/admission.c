// Nanoseconds a datagram: rad_auth's check8 and seal8 beside the digests and HMACs alone of the same datagrams and
// replies, made one after the other by the toolchain's md5.
#include "bench.h"
#include <stdbool.h>
#include <stdint.h>
#include <stdio.h>
#include <string.h>

enum { REQUESTS = 64, SLOT = 128, ROUNDS = 50, TRIES = 1000 };

// Makes a lot of a kind, does its work over all requests so many times, and answers how many requests were right, or
// how many replies were written. The last replies are laid out in the requests' slots.
typedef size_t work(uint32_t kind, uint32_t rounds, uint8_t *out, size_t out_len);

// Of crates/bench_c.
work radpool_check, radpool_seal, radpool_both, kit_check, kit_seal, kit_both;

static uint8_t out[2][SLOT * REQUESTS];

static void keep_best(work *work, uint32_t kind, uint32_t rounds, uint8_t *out, double *best) {
    double start = now();
    if (work(kind, rounds, out, SLOT * REQUESTS) != (size_t)rounds * REQUESTS) end("A request or reply is missing.");
    double spent = now() - start;
    if (spent < *best) *best = spent;
}

// The best of many short tries, the works in turn, so that what else the machine does disturbs all alike. A try of one
// round makes the lot as the others do, and its time is taken off.
static void measure(work *const works[2], uint32_t kind, double ns[2]) {
    double whole[2] = {1e18, 1e18}, first[2] = {1e18, 1e18};
    memset(out, 0, sizeof out);
    for (int k = 0; k < TRIES; k++)
        for (int j = 0; j < 2; j++) {
            keep_best(works[j], kind, 1, out[j], &first[j]);
            keep_best(works[j], kind, 1 + ROUNDS, out[j], &whole[j]);
        }
    for (int j = 0; j < 2; j++) ns[j] = (whole[j] - first[j]) / ROUNDS / REQUESTS;
    if (memcmp(out[0], out[1], sizeof out[0])) end("The replies differ.");
}

static void require_all_sealed(uint8_t code) {
    for (uint32_t i = 0; i < REQUESTS; i++)
        if (out[0][SLOT * i] != code || out[0][SLOT * i + 1] != i) end("A reply is missing.");
}

int main(void) {
    static const struct { const char *name; uint8_t reply; } kinds[] = {
        {"Access-Request", 2}, {"Accounting-Request", 5}, {"Accounting-Request with Proxy-State", 5}};
    static const struct { const char *name; work *works[2]; bool seals; } rows[] = {
        {"check", {radpool_check, kit_check}, false},
        {"seal", {radpool_seal, kit_seal}, true},
        {"check and seal", {radpool_both, kit_both}, true}};
    puts("| requests | work | ns | a second | kit ns | times kit |\n|---|---|---|---|---|---|");
    for (uint32_t k = 0; k < sizeof kinds / sizeof *kinds; k++)
        for (size_t r = 0; r < sizeof rows / sizeof *rows; r++) {
            double ns[2];
            measure(rows[r].works, k, ns);
            if (rows[r].seals) require_all_sealed(kinds[k].reply);
            printf("| %s | %s | %.1f | %.0f | %.1f | %.2f |\n", kinds[k].name, rows[r].name, ns[0], 1e9 / ns[0], ns[1],
                   ns[1] / ns[0]);
        }
    return 0;
}
