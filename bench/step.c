// Nanoseconds a step of the server takes by the rows of its tables, and the longest that one takes while they grow.
#define _GNU_SOURCE
#include "bench.h"
#include <stdint.h>
#include <stdio.h>
#include <sys/mman.h>
#include <sys/wait.h>
#include <unistd.h>

enum { KINDS = 11, SIZES = 3, PASSES = 10, COPIES_MAX = 400, LIFE = 512, FULL = 65536, FILLINGS = 8 };

// What is measured, and the tables of the server before it.
struct work {
    uint32_t kind;
    size_t rows, challenges, plain;
    uint64_t life;
    size_t steps;
};

// Of crates/bench_c. Fills the tables of a server, takes steps on each of so many copies of it, and puts down the nanoseconds of those
// after the first. Returns how many replies were as wanted.
size_t radpool_step(const char *text, size_t text_len, const struct work *work, uint64_t *times, size_t copies);

// Fills the tables, and puts down the nanoseconds of the step that each row took. Returns how many rows there are.
size_t radpool_fill(const char *text, size_t text_len, const struct work *work, uint64_t *times, size_t rows);

// Fills the tables, rebuilds the server from its rows as often as there are times, and puts down the nanoseconds of each. Returns how many
// rows there are.
size_t radpool_rebuild(const char *text, size_t text_len, const struct work *work, uint64_t *times, size_t count);

// The kinds of crates/bench_c, in its order.
enum { ACCEPT, POOLED, NO_ADDRESS, REJECT, START, STOP, STATUS, REPEAT, CHALLENGE, ANSWER };

// What the pool is like at each step.
enum pool { FREE, ONE_LEFT, NONE_LEFT };

// Before the steps each table is full: so many sessions, as many kept replies, and as many challenges or as may wait. A row lives for
// LIFE seconds. Rows came one after the other, LIFE seconds divided by their number apart, and steps go on so. So at each step the oldest
// row of each table is no longer live. The new reply has the key of the kept one that goes, and those of all other keys are live: 65,535
// where the tables are full. An accepted request adds a session, and a challenged one a challenge; what isn't added gets fewer by one.
// Starts, Stops and answers mean another session or challenge at each step, the youngest first. The repeated request is the last one
// before the steps.
static const struct { const char *name; uint32_t kind; enum pool pool; } kinds[KINDS] = {
    {"Access-Request, accepted, no pool", ACCEPT, FREE},
    {"Access-Request, accepted, pool free", POOLED, FREE},
    {"Access-Request, accepted, one address left", POOLED, ONE_LEFT},
    {"Access-Request, rejected, no address left", NO_ADDRESS, NONE_LEFT},
    {"Access-Request, rejected, wrong password", REJECT, FREE},
    {"Accounting-Request, Start", START, FREE},
    {"Accounting-Request, Stop", STOP, FREE},
    {"Status-Server", STATUS, FREE},
    {"Access-Request, repeated", REPEAT, FREE},
    {"Access-Request, challenged", CHALLENGE, FREE},
    {"Access-Request, challenge answered", ANSWER, FREE}};

// There are few steps on each copy, so that tables stay about as full: what gets fewer loses half of 16 rows, a 16th of 256 and a 512th
// of 65,536, of whose challenges an eighth. Where challenges are answered, twice as many of them go. 16 rows are a quarter of a block of
// rad_rows, 256 are four blocks.
static const struct { uint32_t rows, challenges, steps, copies; } sizes[SIZES] = {
    {16, 16, 8, 400}, {256, 256, 16, 200}, {65536, 1024, 128, 10}};

// The best times of a copy.
static double cells[KINDS][SIZES];

// How many sessions have no address: all, none, or those that go at the steps, so that none of the others gives its address back.
static uint32_t plain_of(enum pool pool, int size) {
    return pool == FREE ? sizes[size].rows : pool == ONE_LEFT ? 0 : sizes[size].steps;
}

static size_t added(int len, size_t room) {
    if (len < 0 || (size_t)len >= room) end("The configuration is too long.");
    return (size_t)len;
}

// A free pool has 65,536 addresses, another as many as sessions have. Sixteen users without a pool take turns, and sixteen with it.
static size_t lay_out(enum pool pool, int size, char *text, size_t room) {
    uint32_t last = (pool == FREE ? 65536 : sizes[size].rows - plain_of(pool, size)) - 1;
    size_t len = added(snprintf(text, room,
                                "window = %d\nhold = %d\n[[client]]\naddress = \"192.168.1.16\"\nsecret = \"xyzzy5461\"\n"
                                "[[pool]]\nname = \"hall\"\nfirst = \"10.0.0.0\"\nlast = \"10.0.%u.%u\"\n"
                                "[[user]]\nname = \"asked\"\npassword = \"a good password\"\nsessions = 4096\n"
                                "challenge = \"And?\"\nanswer = \"an answer\"\n",
                                LIFE, LIFE, last / 256, last % 256),
                       room);
    for (int turn = 'A'; turn <= 'P'; turn++)
        len += added(snprintf(text + len, room - len,
                              "[[user]]\nname = \"plain%c\"\npassword = \"a good password\"\nsessions = 4096\n"
                              "service = 2\nprotocol = 1\ntimeout = 3600\n"
                              "[[user]]\nname = \"pooled%c\"\npassword = \"a good password\"\nsessions = 4096\npool = \"hall\"\n"
                              "service = 2\nprotocol = 1\ntimeout = 3600\n",
                              turn, turn),
                     room - len);
    return len;
}

static void measure(int kind, int size) {
    static char text[8192];
    static uint64_t times[COPIES_MAX];
    uint32_t copies = sizes[size].copies;
    struct work work = {.kind = kinds[kind].kind,
                        .rows = sizes[size].rows,
                        .challenges = sizes[size].challenges,
                        .plain = plain_of(kinds[kind].pool, size),
                        .life = LIFE * 1000,
                        .steps = sizes[size].steps};
    size_t len = lay_out(kinds[kind].pool, size, text, sizeof text);
    if (radpool_step(text, len, &work, times, copies) != (size_t)copies * sizes[size].steps) end("A reply is missing.");
    for (uint32_t k = 0; k < copies; k++)
        if ((double)times[k] < cells[kind][size]) cells[kind][size] = (double)times[k];
}

// The time of reading the clock once is taken off.
static double step_time(int kind, int size, double clock) {
    return (cells[kind][size] - clock) / (sizes[size].steps - 1);
}

static void print_row(int kind, double clock) {
    double least = step_time(kind, 0, clock), some = step_time(kind, 1, clock), full = step_time(kind, 2, clock);
    printf("| %s | %.0f | %.0f | %.0f | %.2f | %.2f |\n", kinds[kind].name, least, some, full, full / least, full / some);
}

// The longest step of those that fill the tables. Each filling has a process of its own, whose memory is new, and the best time of each
// row counts.
static double longest_step(void) {
    static char text[8192];
    static double best[FULL];
    const struct work work = {.kind = POOLED, .rows = FULL, .challenges = 1024, .life = LIFE * 1000};
    size_t len = lay_out(FREE, SIZES - 1, text, sizeof text);
    uint64_t *times = mmap(NULL, FULL * sizeof *times, PROT_READ | PROT_WRITE, MAP_SHARED | MAP_ANONYMOUS, -1, 0);
    if (times == MAP_FAILED) end("There is no memory.");
    for (int k = 0; k < FULL; k++) best[k] = 1e18;
    for (int filling = 0; filling < FILLINGS; filling++) {
        pid_t child = fork();
        int status = 1;
        if (child == 0) _exit(radpool_fill(text, len, &work, times, FULL) != FULL);
        if (child < 0 || waitpid(child, &status, 0) != child || status != 0) end("A reply is missing.");
        for (int k = 0; k < FULL; k++)
            if ((double)times[k] < best[k]) best[k] = (double)times[k];
    }
    double longest = 0;
    for (int k = 0; k < FULL; k++)
        if (best[k] > longest) longest = best[k];
    return longest;
}

// The best time of a server with full tables, where each session has an address. Copies of the rows are included.
static double rebuild_time(void) {
    static char text[8192];
    static uint64_t times[PASSES];
    const struct work work = {.kind = POOLED, .rows = FULL, .challenges = 1024, .life = LIFE * 1000};
    size_t len = lay_out(FREE, SIZES - 1, text, sizeof text);
    double best = 1e18;
    if (radpool_rebuild(text, len, &work, times, PASSES) != FULL) end("A server isn't rebuilt.");
    for (int pass = 0; pass < PASSES; pass++)
        if ((double)times[pass] < best) best = (double)times[pass];
    return best;
}

static void print_rows(double clock) {
    puts("| request | 16 rows ns | 256 rows ns | full ns | full/16 | full/256 |\n|---|---|---|---|---|---|");
    for (int kind = 0; kind < KINDS; kind++) print_row(kind, clock);
}

// The rows take turns, so that what else the machine does for a while disturbs none of them alone.
int main(void) {
    double longest = longest_step(), rebuild = rebuild_time();
    for (int kind = 0; kind < KINDS; kind++)
        for (int size = 0; size < SIZES; size++) cells[kind][size] = 1e18;
    for (int pass = 0; pass < PASSES; pass++)
        for (int kind = 0; kind < KINDS; kind++)
            for (int size = 0; size < SIZES; size++) measure(kind, size);
    print_rows(clock_time());
    printf("The longest step while the tables grow takes %.0f µs.\n", longest / 1e3);
    printf("A server with full tables is rebuilt from its rows in %.0f ms.\n", rebuild / 1e6);
    return 0;
}
