// Nanoseconds a digest and an HMAC: rad_md5 and rad_hmac beside the toolchain's md5 and OpenSSL, on the same messages.
#define OPENSSL_SUPPRESS_DEPRECATED
#include "bench.h"
#include <openssl/md5.h>
#include <stdbool.h>
#include <stdint.h>
#include <stdio.h>
#include <string.h>

enum { MESSAGES = 64, SLOT = 256, DIGEST = 16, BLOCK = 64, ROUNDS = 50, TRIES = 1000 };

typedef void work(const uint8_t *slots, size_t slots_len, const uint32_t *lengths, size_t lengths_len,
                  uint32_t rounds, uint8_t *out, size_t out_len);

// Of crates/bench_c.
work radpool_digest_each, radpool_digest8, radpool_hmac8, kit_md5, kit_hmac;

static void openssl_md5(const uint8_t *slots, size_t slots_len, const uint32_t *lengths, size_t lengths_len,
                        uint32_t rounds, uint8_t *out, size_t out_len) {
    (void)slots_len, (void)out_len;
    for (uint32_t round = 0; round < rounds; round++)
        for (size_t i = 0; i < lengths_len; i++) MD5(slots + SLOT * i, lengths[i], out + DIGEST * i);
}

static void digest_after(const uint8_t *front, const uint8_t *octets, size_t len, uint8_t *digest) {
    MD5_CTX context;
    MD5_Init(&context);
    MD5_Update(&context, front, BLOCK);
    MD5_Update(&context, octets, len);
    MD5_Final(digest, &context);
}

// HMAC by MD5_Init, MD5_Update and MD5_Final with pads made once: OpenSSL's HMAC() looks its digest up at each call.
static void openssl_hmac(const uint8_t *slots, size_t slots_len, const uint32_t *lengths, size_t lengths_len,
                         uint32_t rounds, uint8_t *out, size_t out_len) {
    static const uint8_t secret[] = "xyzzy5461";
    uint8_t inner_pad[BLOCK], outer_pad[BLOCK], inner[DIGEST];
    (void)slots_len, (void)out_len;
    for (size_t i = 0; i < BLOCK; i++) {
        uint8_t octet = i < sizeof secret - 1 ? secret[i] : 0;
        inner_pad[i] = octet ^ 0x36;
        outer_pad[i] = octet ^ 0x5c;
    }
    for (uint32_t round = 0; round < rounds; round++)
        for (size_t i = 0; i < lengths_len; i++) {
            digest_after(inner_pad, slots + SLOT * i, lengths[i], inner);
            digest_after(outer_pad, inner, DIGEST, out + DIGEST * i);
        }
}

static uint8_t slots[SLOT * MESSAGES];
static uint32_t lengths[MESSAGES];

// The best of many short tries, the works in turn, so that what else the machine does disturbs all alike.
static void measure(work *const works[3], double best[3]) {
    static uint8_t out[3][DIGEST * MESSAGES];
    best[0] = best[1] = best[2] = 1e18;
    for (int k = 0; k < TRIES; k++)
        for (int j = 0; j < 3; j++) {
            double start = now();
            works[j](slots, sizeof slots, lengths, MESSAGES, ROUNDS, out[j], sizeof out[j]);
            double spent = (now() - start) / ROUNDS / MESSAGES;
            if (spent < best[j]) best[j] = spent;
        }
    if (memcmp(out[0], out[1], sizeof out[0]) || memcmp(out[0], out[2], sizeof out[0])) end("The answers differ.");
}

int main(void) {
    static const struct { const char *name; uint32_t shortest, longest; } lots[] = {
        {"119 octets", 119, 119}, {"200 octets", 200, 200}, {"64 to 200 octets", 64, 200}};
    static const struct { const char *name; work *works[3]; } rows[] = {
        {"digest_each", {radpool_digest_each, kit_md5, openssl_md5}},
        {"digest8", {radpool_digest8, kit_md5, openssl_md5}},
        {"hmac8", {radpool_hmac8, kit_hmac, openssl_hmac}}};
    for (size_t i = 0; i < sizeof slots; i++) slots[i] = (uint8_t)(rand() >> 7);
    puts("| call | messages | ns | kit ns | OpenSSL ns | times kit | times OpenSSL |\n|---|---|---|---|---|---|---|");
    for (size_t r = 0; r < sizeof rows / sizeof *rows; r++)
        for (size_t l = 0; l < sizeof lots / sizeof *lots; l++) {
            double best[3];
            srand(1);
            for (int i = 0; i < MESSAGES; i++)
                lengths[i] = lots[l].shortest + (uint32_t)rand() % (lots[l].longest - lots[l].shortest + 1);
            measure(rows[r].works, best);
            printf("| `%s` | %s | %.1f | %.1f | %.1f | %.2f | %.2f |\n", rows[r].name, lots[l].name, best[0], best[1],
                   best[2], best[1] / best[0], best[2] / best[0]);
        }
    return 0;
}
