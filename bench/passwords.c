// Nanoseconds a password check: rad_auth's password_right, passwords_right8 and chap_right beside the toolchain's md5 and OpenSSL.
#define OPENSSL_SUPPRESS_DEPRECATED
#include "bench.h"
#include <openssl/md5.h>
#include <stdbool.h>
#include <stdint.h>
#include <stdio.h>
#include <string.h>

enum { CASES = 8, LONGEST = 128, BLOCK = 16, ROUNDS = 50, TRIES = 50, PASSES = 40, WORKS = 3 };

// As crates/bench_c has it.
struct password_case {
    uint8_t authenticator[BLOCK], value[LONGEST];
    size_t value_len;
    uint8_t password[LONGEST];
    size_t password_len;
};

struct lot {
    uint8_t secret[LONGEST];
    size_t secret_len;
    struct password_case cases[CASES];
};

// Checks all cases so many times, and answers how often a password was found right.
typedef size_t work(const struct lot *lot, uint32_t rounds);

// Of crates/bench_c.
work radpool_password, radpool_passwords8, kit_password, radpool_chap;

static struct lot lot = {.secret = "xyzzy5461", .secret_len = 9};

// The value of a text of whole blocks.
static void hide(const struct lot *lot, const uint8_t *authenticator, const uint8_t *text, size_t len, uint8_t *value) {
    const uint8_t *before = authenticator;
    for (size_t at = 0; at < len; at += BLOCK) {
        uint8_t pad[BLOCK];
        MD5_CTX context;
        MD5_Init(&context);
        MD5_Update(&context, lot->secret, lot->secret_len);
        MD5_Update(&context, before, BLOCK);
        MD5_Final(pad, &context);
        for (size_t i = 0; i < BLOCK; i++) value[at + i] = text[at + i] ^ pad[i];
        before = value + at;
    }
}

static void respond(const struct password_case *checked, uint8_t *response) {
    MD5_CTX context;
    MD5_Init(&context);
    MD5_Update(&context, checked->value, 1);
    MD5_Update(&context, checked->password, checked->password_len);
    MD5_Update(&context, checked->authenticator, BLOCK);
    MD5_Final(response, &context);
}

static bool same(const uint8_t *octets, const uint8_t *others, size_t len) {
    uint8_t difference = 0;
    for (size_t i = 0; i < len; i++) difference |= octets[i] ^ others[i];
    return difference == 0;
}

static bool is_hidden_as(const struct lot *lot, const struct password_case *checked) {
    uint8_t text[LONGEST] = {0}, hidden[LONGEST];
    if (checked->password_len > checked->value_len) return false;
    memcpy(text, checked->password, checked->password_len);
    hide(lot, checked->authenticator, text, checked->value_len, hidden);
    return same(hidden, checked->value, checked->value_len);
}

static size_t openssl_password(const struct lot *lot, uint32_t rounds) {
    size_t right = 0;
    for (uint32_t round = 0; round < rounds; round++)
        for (int i = 0; i < CASES; i++) right += is_hidden_as(lot, &lot->cases[i]);
    return right;
}

static size_t openssl_chap(const struct lot *lot, uint32_t rounds) {
    size_t right = 0;
    for (uint32_t round = 0; round < rounds; round++)
        for (int i = 0; i < CASES; i++) {
            uint8_t response[BLOCK];
            respond(&lot->cases[i], response);
            right += same(response, lot->cases[i].value + 1, BLOCK);
        }
    return right;
}

// A line of the table. `chap_right` is itself by the toolchain's md5: its row has no second work.
struct row {
    const char *name;
    size_t value_len, password_len;
    bool is_chap;
    work *works[WORKS];
    double ns[WORKS];
};

static void draw(uint8_t *octets, size_t len) {
    for (size_t i = 0; i < len; i++) octets[i] = (uint8_t)('a' + rand() % 26);
}

static void lay_out(const struct row *row) {
    memset(lot.cases, 0, sizeof lot.cases);
    for (int i = 0; i < CASES; i++) {
        struct password_case *checked = &lot.cases[i];
        draw(checked->authenticator, BLOCK);
        draw(checked->password, row->password_len);
        checked->value_len = row->value_len;
        checked->password_len = row->password_len;
        if (row->is_chap) {
            checked->value[0] = (uint8_t)i;
            respond(checked, checked->value + 1);
        } else hide(&lot, checked->authenticator, checked->password, checked->value_len, checked->value);
    }
}

static void keep_best(work *work, double *best) {
    double start = now();
    if (work(&lot, ROUNDS) != CASES * ROUNDS) end("A right password is said to be wrong.");
    double spent = (now() - start) / ROUNDS / CASES;
    if (*best == 0 || spent < *best) *best = spent;
}

// The best of many short tries, the works in turn, so that what else the machine does disturbs all alike.
static void measure(struct row *row) {
    lay_out(row);
    for (int k = 0; k < TRIES; k++)
        for (int j = 0; j < WORKS; j++)
            if (row->works[j]) keep_best(row->works[j], &row->ns[j]);
}

static void require_wrong(const struct row *row) {
    for (int i = 0; i < CASES; i++) lot.cases[i].password[row->password_len - 1] ^= 1;
    for (int j = 0; j < WORKS; j++)
        if (row->works[j] && row->works[j](&lot, 1) != 0) end("A wrong password is said to be right.");
}

static void print(const struct row *row) {
    const double *ns = row->ns;
    printf("| `%s` | %zu | %zu | %.1f |", row->name, row->value_len, row->password_len, ns[0]);
    if (row->works[1]) printf(" %.1f | %.1f | %.2f | %.2f |\n", ns[1], ns[2], ns[1] / ns[0], ns[2] / ns[0]);
    else printf(" | %.1f | | %.2f |\n", ns[2], ns[2] / ns[0]);
}

int main(void) {
    static struct row rows[] = {
        {"password_right", 16, 10, false, {radpool_password, kit_password, openssl_password}, {0}},
        {"password_right", 32, 25, false, {radpool_password, kit_password, openssl_password}, {0}},
        {"password_right", 64, 60, false, {radpool_password, kit_password, openssl_password}, {0}},
        {"password_right", 128, 128, false, {radpool_password, kit_password, openssl_password}, {0}},
        {"passwords_right8", 16, 10, false, {radpool_passwords8, kit_password, openssl_password}, {0}},
        {"passwords_right8", 32, 25, false, {radpool_passwords8, kit_password, openssl_password}, {0}},
        {"chap_right", 17, 10, true, {radpool_chap, NULL, openssl_chap}, {0}}};
    const size_t count = sizeof rows / sizeof *rows;
    // Each row many times, so that one busy moment of the machine is not all that a row sees.
    for (int pass = 0; pass < PASSES; pass++)
        for (size_t r = 0; r < count; r++) {
            measure(&rows[r]);
            require_wrong(&rows[r]);
        }
    puts("| call | value | password | ns | kit ns | OpenSSL ns | times kit | times OpenSSL |");
    puts("|---|---|---|---|---|---|---|---|");
    for (size_t r = 0; r < count; r++) print(&rows[r]);
    return 0;
}
