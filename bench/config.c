// Microseconds to read a configuration of 256 clients, 16 pools, 256 groups and more and more users, and nanoseconds to find a user.
#include "bench.h"
#include <stdarg.h>
#include <stdint.h>
#include <stdio.h>

enum { CLIENTS = 256, POOLS = 16, GROUPS = 256, USERS = 65536, TRIES = 15, ROUNDS = 20, ROOM = 1 << 24 };

// Of crates/bench_c.
size_t radpool_read(const uint8_t *text, size_t len);
size_t radpool_find(const uint8_t *text, size_t len, uint32_t rounds);

static char text[ROOM];
static size_t len;

static void add(const char *format, ...) {
    va_list values;
    va_start(values, format);
    int more = vsnprintf(text + len, ROOM - len, format, values);
    va_end(values);
    if (more < 0 || (size_t)more >= ROOM - len) exit(1);
    len += (size_t)more;
}

static void lay_out(int users) {
    len = 0;
    for (int n = 0; n < CLIENTS; n++) add("[[client]]\naddress = \"192.168.0.%d\"\nsecret = \"secret of %d\"\n", n, n);
    for (int n = 0; n < POOLS; n++) add("[[pool]]\nname = \"hall %d\"\nfirst = \"10.0.%d.1\"\nlast = \"10.0.%d.254\"\n", n, n, n);
    for (int n = 0; n < GROUPS; n++)
        add("[[group]]\nname = \"plan %d\"\npool = \"hall %d\"\nsessions = 2\nservice = 2\nprotocol = 1\n"
            "reply = [{ attribute = \"Filter-Id\", value = \"plan %d\" }, { attribute = \"Acct-Interim-Interval\", value = 300 }]\n",
            n, n % POOLS, n);
    for (int n = 0; n < users; n++)
        add("[[user]]\nname = \"student%d@campus.example\"\npassword = \"word %d\"\ngroup = \"plan %d\"\n"
            "reply = [{ vendor = 14988, attribute = 8, value = \"10M/%dM\" }]\n",
            n, n, n % GROUPS, 1 + n % 100);
}

static double read_time(int users) {
    double best = 1e18;
    for (int k = 0; k < TRIES; k++) {
        double start = now();
        if (radpool_read((const uint8_t *)text, len) != (size_t)users) exit(1);
        double spent = now() - start;
        if (spent < best) best = spent;
    }
    return best;
}

// The time of the look-ups alone: that of reading is taken off.
static double find_time(int users, double reading) {
    double best = 1e18;
    for (int k = 0; k < TRIES; k++) {
        double start = now();
        if (radpool_find((const uint8_t *)text, len, ROUNDS) != (size_t)users * ROUNDS) exit(1);
        double spent = now() - start - reading;
        if (spent < best) best = spent;
    }
    return best / ((double)users * ROUNDS);
}

int main(void) {
    double small = 0, reading = 0;
    printf("%8s %10s %12s %12s %12s\n", "users", "octets", "us to read", "ns a user", "ns to find");
    for (int users = 256; users <= USERS; users *= 2) {
        lay_out(users);
        reading = read_time(users);
        if (users == USERS / 4) small = reading;
        printf("%8d %10zu %12.0f %12.0f %12.1f\n", users, len, reading / 1e3, reading / users, find_time(users, reading));
    }
    printf("65,536 users take %.2f times as long to read as 16,384\n", reading / small);
    return 0;
}
