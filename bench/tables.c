// Nanoseconds an operation on the rows of a table takes, by how many rows there are, and the longest that one takes; and nanoseconds of
// a call on full tables of sessions, kept replies and challenges.
#include "bench.h"
#include <stdint.h>
#include <stdio.h>

enum { OPERATIONS = 5, SIZES = 3, TRIES = 8, TURNS = 2048, SINGLES = 32768 };

// Of crates/bench_c. Takes turns on a table of so many rows, makes an operation so many times in each, and puts down the nanoseconds of
// each turn. Returns how many operations did what they should.
size_t radpool_rows(uint32_t operation, size_t rows, size_t count, uint64_t *times, size_t turns);

// The operations of crates/bench_c, in its order. A row comes and a row goes every millisecond, so that there are always as many.
static const char *const names[OPERATIONS] = {"expire, nothing due", "expire, one row due", "make room and push", "get", "change"};

// In a turn no more rows go than there are, so small tables have shorter turns.
static const struct { size_t rows, count; } sizes[SIZES] = {{16, 8}, {4096, 64}, {65536, 64}};

// The best times of each turn: of many operations, and of a single one.
static struct cell { double turns[TURNS], singles[SINGLES]; } cells[OPERATIONS][SIZES];

// Each try does the same, turn by turn, so what disturbs a turn in one of them is left out.
static void keep_best(uint32_t operation, size_t rows, size_t count, size_t turns, double *best) {
    static uint64_t times[SINGLES];
    if (radpool_rows(operation, rows, count, times, turns) != count * turns) end("An operation failed.");
    for (size_t k = 0; k < turns; k++)
        if ((double)times[k] < best[k]) best[k] = (double)times[k];
}

static void measure(uint32_t operation, int size) {
    struct cell *cell = &cells[operation][size];
    keep_best(operation, sizes[size].rows, sizes[size].count, TURNS, cell->turns);
    keep_best(operation, sizes[size].rows, 1, SINGLES, cell->singles);
}

// The time of reading the clock once is taken off.
static double mean_time(uint32_t operation, int size, double clock) {
    double sum = 0;
    for (int k = 0; k < TURNS; k++) sum += cells[operation][size].turns[k] - clock;
    return sum / TURNS / (double)sizes[size].count;
}

static double longest_time(uint32_t operation, int size, double clock) {
    double longest = 0;
    for (int k = 0; k < SINGLES; k++)
        if (cells[operation][size].singles[k] > longest) longest = cells[operation][size].singles[k];
    return longest - clock;
}

static void print_row(uint32_t operation, double clock) {
    printf("| %s |", names[operation]);
    for (int size = 0; size < SIZES; size++) printf(" %.1f |", mean_time(operation, size, clock));
    printf(" %.2f |\n", longest_time(operation, SIZES - 1, clock) / 1e3);
}

// ---- calls

enum { CALLS = 11, FILLINGS = 2, CALL_TRIES = 5, CALL_TURNS = 512 };

// How full the tables are.
struct size {
    uint64_t rows, challenges, life;
};

// Of crates/bench_c. Takes turns on full tables, makes a call so many times in each, and puts down the nanoseconds of each turn. Returns
// how many calls did what they should.
size_t radpool_calls(const char *text, size_t text_len, const struct size *size, uint32_t call, size_t count, uint64_t *times, size_t turns);

// The calls of crates/bench_c, in its order.
static const char *const calls[CALLS] = {
    "grant", "start", "stop", "find by number", "find by address", "find by an address of no pool", "peek", "look", "keep", "issue", "take"};

static const struct { struct size size; const char *last; size_t count; } fillings[FILLINGS] = {
    {{16, 16, 512000}, "10.0.0.15", 8}, {{65536, 1024, 512000}, "10.0.255.255", 64}};

// The best times of each turn.
static double turns[CALLS][FILLINGS][CALL_TURNS];

// As many addresses as sessions, so that the one that the oldest session had is the one that is free.
static size_t lay_out(int filling, char *text, size_t room) {
    int len = snprintf(text, room,
                       "window = 512\nhold = 512\n[[client]]\naddress = \"192.168.1.16\"\nsecret = \"xyzzy5461\"\n"
                       "[[pool]]\nname = \"hall\"\nfirst = \"10.0.0.0\"\nlast = \"%s\"\n",
                       fillings[filling].last);
    for (int turn = 'A'; turn <= 'P'; turn++)
        len += snprintf(text + len, room - (size_t)len,
                        "[[user]]\nname = \"user%c\"\npassword = \"a good password\"\nsessions = 4096\npool = \"hall\"\n", turn);
    if ((size_t)len >= room) end("The configuration is too long.");
    return (size_t)len;
}

static void measure_call(uint32_t call, int filling) {
    static char text[4096];
    static uint64_t times[CALL_TURNS];
    size_t count = fillings[filling].count, len = lay_out(filling, text, sizeof text);
    if (radpool_calls(text, len, &fillings[filling].size, call, count, times, CALL_TURNS) != count * CALL_TURNS) end("A call failed.");
    for (int k = 0; k < CALL_TURNS; k++)
        if ((double)times[k] < turns[call][filling][k]) turns[call][filling][k] = (double)times[k];
}

static double call_time(uint32_t call, int filling, double clock) {
    double sum = 0;
    for (int k = 0; k < CALL_TURNS; k++) sum += turns[call][filling][k] - clock;
    return sum / CALL_TURNS / (double)fillings[filling].count;
}

static void measure_calls(void) {
    for (uint32_t call = 0; call < CALLS; call++)
        for (int filling = 0; filling < FILLINGS; filling++)
            for (int k = 0; k < CALL_TURNS; k++) turns[call][filling][k] = 1e18;
    for (int try = 0; try < CALL_TRIES; try++)
        for (uint32_t call = 0; call < CALLS; call++)
            for (int filling = 0; filling < FILLINGS; filling++) measure_call(call, filling);
}

static void print_calls(double clock) {
    puts("\n| call | 16 rows ns | full ns |\n|---|---|---|");
    for (uint32_t call = 0; call < CALLS; call++)
        printf("| %s | %.0f | %.0f |\n", calls[call], call_time(call, 0, clock), call_time(call, 1, clock));
}

// The rows of the table take turns, so that what else the machine does for a while disturbs none of them alone.
int main(void) {
    for (uint32_t operation = 0; operation < OPERATIONS; operation++)
        for (int size = 0; size < SIZES; size++) {
            struct cell *cell = &cells[operation][size];
            for (int k = 0; k < TURNS; k++) cell->turns[k] = 1e18;
            for (int k = 0; k < SINGLES; k++) cell->singles[k] = 1e18;
        }
    for (int try = 0; try < TRIES; try++)
        for (uint32_t operation = 0; operation < OPERATIONS; operation++)
            for (int size = 0; size < SIZES; size++) measure(operation, size);
    double clock = clock_time();
    puts("| operation | 16 rows ns | 4,096 rows ns | 65,536 rows ns | longest µs |\n|---|---|---|---|---|");
    for (uint32_t operation = 0; operation < OPERATIONS; operation++) print_row(operation, clock);
    measure_calls();
    print_calls(clock);
    return 0;
}
