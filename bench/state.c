// What `radpool serve --state` costs: replies that wait for the disk, what isn't kept, log-ins, starts, and the beginning of a generation.
// A server with its state on a disk and one with its state in memory are measured beside one without a state, and beside bare syncs in the
// same folders.
#include "serving.h"
#include <fcntl.h>
#include <sys/stat.h>
#include <sys/statfs.h>

enum {
    SOME = 128,         // requests that wait for a reply
    SLOTS = 1024,       // the most
    ROUND = 512,        // the most that a server receives before it commits
    SYNCS = 512,        // of all turns, in each of which each server is measured
    PAGE = 4096,
    WARM_TURNS = 2,
    ALONE_TURNS = 64,
    ALONE = SYNCS / ALONE_TURNS,    // requests of a kind in a turn, one at a time
    UNKEPT_TURNS = 8,
    UNKEPT = 20000,     // Status-Servers in a turn, and repeats
    TURNS = 15,         // of log-ins, after which no generation is due yet
    LOG_INS = 16384,    // in a turn, and 245,760 in all
    FULL = 4,           // turns that fill the tables
    DUE = 262144,       // entries after which a generation is due
    ROOM = 2,           // turns, after which there is a pause
    FEW = 256,          // log-ins of a state with few entries
    TRIES = 5,          // starts, of which the middle one counts
    LONGEST = 128,      // octets of a request, and of a reply
    LONG = 600,         // seconds for which replies and sessions are kept while a repeat has to be one
    SHORT = 1,          // while log-ins have to find room
    WINDOW = 3,         // while kept replies have to be many when a generation begins
    PAUSE = 1200000,    // microseconds after which they do
    PATIENCE = 20000,   // milliseconds within which a reply has to come
    LIFE = 600,         // seconds within which all must end
};

static const double start_goal = 3e9, pause_goal = 500;    // nanoseconds; milliseconds

// ---- places

enum door { AUTH, ACCT, DOORS };

// Where a server has its state, and what was measured of it.
struct place {
    const char *name, *folder;      // no folder without a state
    char state[200];
    pid_t server;
    FILE *lines, *told;             // its standard output, and its log
    uint16_t ports[DOORS];
    int sockets[DOORS][SOCKETS];    // connected to it
    int pages;                      // the file that is synced
    double syncs[SYNCS], alone[2][SYNCS];            // the times of syncs; of log-ins and Starts alone
    double all_syncs, statuses, repeats, log_ins;    // the times of all together
};

enum { NONE, DISK, MEMORY, PLACES };

static struct place places[PLACES] = {{.name = "none"}, {.name = "on a disk"}, {.name = "in memory"}};
static const char *radpool;
static bool is_logged;    // whether servers that begin have a log

static const char *system_of(const char *name) {
    static const struct {
        uint32_t magic;
        const char *name;
    } systems[] = {
        {0xef53, "ext4"},       {0x58465342, "xfs"},  {0x9123683e, "btrfs"}, {0xf2f52010, "f2fs"}, {0x2fc12fc1, "zfs"},
        {0x794c7630, "overlay"}, {0x1021994, "tmpfs"}, {0x858458f6, "ramfs"}, {0x6969, "nfs"},      {0x1021997, "9p"},
    };
    static char other[20];
    struct statfs found;
    if (statfs(name, &found) != 0) {
        end("a folder isn't there");
    }
    for (size_t at = 0; at < sizeof systems / sizeof *systems; at++) {
        if (systems[at].magic == (uint32_t)found.f_type) {
            return systems[at].name;
        }
    }
    snprintf(other, sizeof other, "%#x", (uint32_t)found.f_type);
    return other;
}

static void make_state(struct place *place, const char *name, int try) {
    if (!place->folder) {
        return;
    }
    snprintf(place->state, sizeof place->state, "%s/%s%d", place->folder, name, try);
    if (mkdir(place->state, 0700) != 0) {
        end("a folder can't be made");
    }
}

// ---- syncs

static const uint8_t blank[PAGE];

static void make_pages(struct place *place) {
    char path[200];
    snprintf(path, sizeof path, "%s/pages", place->folder);
    place->pages = open(path, O_WRONLY | O_CREAT | O_EXCL | O_CLOEXEC, 0600);
    for (int at = 0; at < SYNCS; at++) {
        if (write(place->pages, blank, PAGE) != PAGE) {
            end("no file to sync");
        }
    }
    if (fsync(place->pages) != 0) {
        end("a sync failed");
    }
}

// Writes the pages of a turn, and syncs after each.
static void sync_pages(struct place *place, int turn, int count) {
    for (int at = turn * count; at < (turn + 1) * count && place->folder; at++) {
        double begun = now();
        if (pwrite(place->pages, blank, PAGE, (off_t)at * PAGE) != PAGE || fdatasync(place->pages) != 0) {
            end("a sync failed");
        }
        place->syncs[at] = now() - begun;
        place->all_syncs += place->syncs[at];
    }
}

// ---- servers

static void connect_all(struct place *place) {
    for (int door = 0; door < DOORS; door++) {
        for (int at = 0; at < SOCKETS; at++) {
            place->sockets[door][at] = connected(place->ports[door]);
        }
    }
}

static void close_all(const struct place *place) {
    for (int door = 0; door < DOORS; door++) {
        for (int at = 0; at < SOCKETS; at++) {
            close(place->sockets[door][at]);
        }
    }
}

// Begins a server. Returns the nanoseconds until it listened.
static double begin_server(struct place *place) {
    int ends[2], told[2];
    if (pipe2(ends, O_CLOEXEC) != 0 || pipe2(told, O_CLOEXEC) != 0) {
        end("no pipe");
    }
    fflush(stdout);
    double begun = now();
    place->server = fork();
    if (place->server == 0) {
        prctl(PR_SET_PDEATHSIG, SIGKILL);
        alarm(LIFE);
        dup2(ends[1], 1);
        dup2(told[1], 2);
        const char *words[16] = {radpool, "serve", "--config", in_folder("toml"), "--seed", in_folder("seed"), "--auth", "0", "--acct", "0"};
        size_t len = 10;
        if (place->folder) {
            words[len++] = "--state";
            words[len++] = place->state;
        }
        if (is_logged) {
            words[len++] = "--log";
            words[len++] = "refused";
        }
        execv(radpool, (char *const *)words);
        _exit(1);
    }
    close(ends[1]);
    close(told[1]);
    place->lines = fdopen(ends[0], "r");
    place->told = fdopen(told[0], "r");
    char line[100];
    bool is_there = fgets(line, sizeof line, place->lines);
    double spent = now() - begun;
    uint16_t *ports = place->ports;
    if (!is_there || sscanf(line, "listening %*s %hu %hu", &ports[AUTH], &ports[ACCT]) != DOORS) {
        while (fgets(line, sizeof line, place->told)) {
            fputs(line, stderr);
        }
        end("no server");
    }
    connect_all(place);
    return spent;
}

// Ends a server as a crash would.
static void kill_server(struct place *place) {
    kill(place->server, SIGKILL);
    waitpid(place->server, NULL, 0);
    fclose(place->lines);
    fclose(place->told);
    close_all(place);
}

// Servers that keep replies and sessions for so many seconds, with new states.
static void begin_all(unsigned span, const char *name) {
    write_configuration(span, span);
    for (int at = 0; at < PLACES; at++) {
        struct place *place = &places[at];
        make_state(place, name, 0);
        begin_server(place);
        place->all_syncs = 0;
    }
}

static void kill_all(void) {
    for (int at = 0; at < PLACES; at++) {
        kill_server(&places[at]);
    }
}

// ---- the load

// Log-ins are accepted.
enum kind { LOG_IN, START, STATUS_SERVER };

// Requests that are sent, of which so many wait for a reply at a time.
struct load {
    enum kind kind;
    uint32_t first;    // their numbers begin with this one: a request is new if its number is
    int made;          // how many different ones, in turn
    int count, waiting;
};

struct exchange {
    uint8_t request[LONGEST], reply[LONGEST];
    size_t len, reply_len;
};

// A request that waits for its reply. Request K has slot K % waiting, exchange K % made and socket K % SOCKETS. All these are powers of
// two, so a reply's socket and Identifier tell its slot.
struct slot {
    int number;
    double sent;
};

static struct exchange exchanges[LOG_INS];
static struct slot slots[SLOTS];
static double times[UNKEPT];    // from a request to its reply, of the longest load

// A Start of a session that the server doesn't know: that Access-Request with Acct-Status-Type and Acct-Session-Id for its password.
static size_t start_request(uint8_t id, uint32_t number, uint8_t *octets) {
    size_t len = access_request(id, number, octets);
    char session[11];
    snprintf(session, sizeof session, "%010x", number);
    octets[0] = 4;
    memset(octets + 4, 0, BLOCK);
    memcpy(octets + 26, (uint8_t[]){40, 6, 0, 0, 0, 1, 44, 12}, 8);
    memcpy(octets + 34, session, 10);
    digest(octets, len, octets + 4);
    return len;
}

static void make_exchanges(const struct load *load) {
    for (int at = 0; at < load->made; at++) {
        struct exchange *exchange = &exchanges[at];
        uint8_t id = (uint8_t)(at % SLOTS / SOCKETS);
        uint32_t number = load->first + (uint32_t)at;
        switch (load->kind) {
            case LOG_IN: exchange->len = access_request(id, number, exchange->request); break;
            case START: exchange->len = start_request(id, number, exchange->request); break;
            case STATUS_SERVER: exchange->len = status_server(id, exchange->request); break;
        }
    }
}

// Whether the Response Authenticator is right (RFC 2865, section 3).
static bool is_reply(const struct exchange *exchange) {
    uint8_t octets[LONGEST], made[BLOCK];
    memcpy(octets, exchange->reply, exchange->reply_len);
    memcpy(octets + 4, exchange->request + 4, BLOCK);
    digest(octets, exchange->reply_len, made);
    return memcmp(made, exchange->reply + 4, BLOCK) == 0;
}

static void send_one(const int *sockets, const struct load *load, int number) {
    const struct exchange *exchange = &exchanges[number % load->made];
    struct slot *slot = &slots[number % load->waiting];
    *slot = (struct slot){.number = number, .sent = now()};
    if (send(sockets[number % SOCKETS], exchange->request, exchange->len, 0) != (ssize_t)exchange->len) {
        end("a request can't be sent");
    }
}

// The slot whose reply waits at a socket, if one does.
static const struct slot *receive_one(const int *sockets, const struct load *load, int at) {
    uint8_t reply[FRAME];
    ssize_t len = recv(sockets[at], reply, sizeof reply, MSG_DONTWAIT);
    if (len < 0) {
        return NULL;
    }
    const struct slot *slot = &slots[(reply[1] * SOCKETS + at) % load->waiting];
    struct exchange *exchange = &exchanges[slot->number % load->made];
    uint8_t code = load->kind == LOG_IN ? 2 : 5;
    if (len < HEADER || len > LONGEST || reply[0] != code || reply[1] != exchange->request[1]) {
        end("a wrong reply");
    }
    memcpy(exchange->reply, reply, (size_t)len);
    exchange->reply_len = (size_t)len;
    return slot;
}

// Asks a server, and keeps the times. Returns the nanoseconds of all.
static double ask(const struct place *place, struct load load) {
    const int *sockets = place->sockets[load.kind == LOG_IN ? AUTH : ACCT];
    struct pollfd ports[SOCKETS];
    for (int at = 0; at < SOCKETS; at++) {
        ports[at] = (struct pollfd){.fd = sockets[at], .events = POLLIN};
    }
    make_exchanges(&load);
    int answered = 0;
    double begun = now();
    for (int number = 0; number < load.waiting; number++) {
        send_one(sockets, &load, number);
    }
    while (answered < load.count) {
        if (poll(ports, SOCKETS, PATIENCE) <= 0) {
            end("a reply is missing: net.core.rmem_max may be too small");
        }
        for (int at = 0; at < SOCKETS; at++) {
            const struct slot *slot;
            while (ports[at].revents && (slot = receive_one(sockets, &load, at))) {
                times[answered++] = now() - slot->sent;
                if (slot->number + load.waiting < load.count) {
                    send_one(sockets, &load, slot->number + load.waiting);
                }
            }
        }
    }
    double spent = now() - begun;
    for (int at = 0; at < load.made; at++) {
        if (!is_reply(&exchanges[at])) {
            end("a wrong reply");
        }
    }
    return spent;
}

// ---- what is measured

// New requests, one at a time.
static void ask_alone(struct place *place, enum kind kind, int turn) {
    ask(place, (struct load){.kind = kind, .first = (uint32_t)(turn * ALONE), .made = ALONE, .count = ALONE, .waiting = 1});
    memcpy(&place->alone[kind][turn * ALONE], times, ALONE * sizeof times[0]);
}

static void ask_unkept(struct place *place, int turn) {
    struct load load = {.kind = LOG_IN, .first = (uint32_t)(SESSIONS + turn * SOME), .made = SOME, .count = SOME, .waiting = SOME};
    ask(place, load);
    load.count = UNKEPT;
    place->repeats += ask(place, load);
    load.kind = STATUS_SERVER;
    place->statuses += ask(place, load);
}

// So many Starts that the log of a state has begun again, and doesn't get longer.
static void warm(const struct place *place) {
    for (uint32_t turn = 0; turn < WARM_TURNS; turn++) {
        uint32_t first = (1 << 24) + turn * LOG_INS;
        ask(place, (struct load){.kind = START, .first = first, .made = LOG_INS, .count = LOG_INS, .waiting = SLOTS});
    }
}

static void measure_answers(void) {
    begin_all(LONG, "answers");
    for (int at = 0; at < PLACES; at++) {
        warm(&places[at]);
    }
    for (int turn = 0; turn < ALONE_TURNS; turn++) {
        for (int at = 0; at < PLACES; at++) {
            sync_pages(&places[at], turn, SYNCS / ALONE_TURNS);
            ask_alone(&places[at], LOG_IN, turn);
            ask_alone(&places[at], START, turn);
        }
    }
    for (int turn = 0; turn < UNKEPT_TURNS; turn++) {
        for (int at = 0; at < PLACES; at++) {
            ask_unkept(&places[at], turn);
        }
    }
    kill_all();
}

// A turn of log-ins or Starts whose replies are all kept: each 1,024 come from other ports.
static void fill_once(struct place *place, enum kind kind, int turn) {
    for (int number = turn * LOG_INS; number < (turn + 1) * LOG_INS; number += SLOTS) {
        close_all(place);
        connect_all(place);
        ask(place, (struct load){.kind = kind, .first = (uint32_t)number, .made = SLOTS, .count = SLOTS, .waiting = SLOTS});
    }
}

// Log-ins, in so many turns, or Starts after so many turns of them, of which each takes a little more than a quarter of the window.
static void fill(struct place *place, enum kind kind, int first, int count) {
    for (int turn = first; turn < first + count; turn++) {
        double begun = now();
        fill_once(place, kind, turn);
        double rest = WINDOW * 1e9 / FULL * 1.3 - (now() - begun);
        if (rest > 0) {
            usleep((useconds_t)(rest / 1e3));
        }
    }
}

static void measure_log_ins(void) {
    begin_all(SHORT, "log-ins");
    for (int turn = 0; turn < TURNS; turn++) {
        for (int at = 0; at < PLACES; at++) {
            struct place *place = &places[at];
            sync_pages(place, turn, SYNCS / TURNS);
            struct load load = {.kind = LOG_IN, .first = (uint32_t)(turn * LOG_INS), .made = LOG_INS, .count = LOG_INS, .waiting = SLOTS};
            place->log_ins += ask(place, load);
        }
        if ((turn + 1) % ROOM == 0) {
            usleep(PAUSE);
        }
    }
    kill_all();
}

// ---- tables

static void print_cell(bool is_there, double value) {
    if (is_there) {
        printf(" %.2f |", value);
    } else {
        printf(" |");
    }
}

static double mean_of(const double *some, int count) {
    double sum = 0;
    for (int at = 0; at < count; at++) {
        sum += some[at];
    }
    return sum / count / 1e3;
}

static void print_alone(void) {
    puts("| state | file system | a sync: p50 µs | mean µs | alone | p50 µs | p99 µs | mean µs "
         "| to a sync and none's (goal: at most 1.30): p50 | mean |\n|---|---|---|---|---|---|---|---|---|---|");
    for (int at = 0; at < PLACES * 2; at++) {
        struct place *place = &places[at / 2];
        enum kind kind = at % 2 ? START : LOG_IN;
        double *alone = place->alone[kind], *none = places[NONE].alone[kind];
        double p50 = within(alone, SYNCS, 500), mean = mean_of(alone, SYNCS);
        double sync_p50 = within(place->syncs, SYNCS, 500), sync_mean = mean_of(place->syncs, SYNCS);
        printf("| %s | %s |", place->name, place->folder ? system_of(place->folder) : "");
        print_cell(place->folder, sync_p50);
        print_cell(place->folder, sync_mean);
        printf(" a %s | %.1f | %.1f | %.1f |", kind == START ? "Start" : "log-in", p50, within(alone, SYNCS, 990), mean);
        print_cell(place->folder, p50 / (sync_p50 + within(none, SYNCS, 500)));
        print_cell(place->folder, mean / (sync_mean + mean_of(none, SYNCS)));
        puts("");
    }
}

static void print_unkept(void) {
    puts("\n| state | 128 at a time: repeats/s | to none's (goal: 1.00) | Status-Servers/s | to none's (goal: 1.00) |\n"
         "|---|---|---|---|---|");
    for (int at = 0; at < PLACES; at++) {
        struct place *place = &places[at];
        printf("| %s | %.0f | %.2f | %.0f | %.2f |\n", place->name, UNKEPT_TURNS * UNKEPT / place->repeats * 1e9,
               places[NONE].repeats / place->repeats, UNKEPT_TURNS * UNKEPT / place->statuses * 1e9,
               places[NONE].statuses / place->statuses);
    }
}

static void print_log_ins(void) {
    puts("\n| state | syncs/s | 1,024 at a time: log-ins/s | to none's | to the lesser of none's and 512 a sync (goal: at least 0.50) |\n"
         "|---|---|---|---|---|");
    double none = TURNS * LOG_INS / places[NONE].log_ins * 1e9;
    for (int at = 0; at < PLACES; at++) {
        struct place *place = &places[at];
        double log_ins = TURNS * LOG_INS / place->log_ins * 1e9;
        double syncs = SYNCS / TURNS * TURNS / place->all_syncs * 1e9, lesser = syncs * ROUND < none ? syncs * ROUND : none;
        printf("| %s |", place->name);
        print_cell(place->folder, syncs);
        printf(" %.0f | %.2f |", log_ins, log_ins / none);
        print_cell(place->folder, log_ins / lesser);
        puts("");
    }
}

// ---- starts

static const char *const names[] = {"generation-1.db", "generation-1.db-wal"};

static double octets_of(const struct place *place) {
    double octets = 0;
    for (size_t at = 0; at < sizeof names / sizeof *names; at++) {
        char path[300];
        struct stat found;
        snprintf(path, sizeof path, "%s/%s", place->state, names[at]);
        if (stat(path, &found) != 0) {
            end("a state has no files");
        }
        octets += (double)found.st_size;
    }
    return octets;
}

// Copies a file, and leaves nothing of the copy in the page cache if it is not to be there.
static void copy(const char *from, const char *to, bool is_cached) {
    int there = open(from, O_RDONLY | O_CLOEXEC), here = open(to, O_WRONLY | O_CREAT | O_EXCL | O_CLOEXEC, 0600);
    struct stat found;
    if (there < 0 || here < 0 || fstat(there, &found) != 0) {
        end("a state's files can't be copied");
    }
    while (found.st_size > 0) {
        ssize_t len = copy_file_range(there, NULL, here, NULL, (size_t)found.st_size, 0);
        if (len <= 0) {
            end("a state's files can't be copied");
        }
        found.st_size -= len;
    }
    if (fdatasync(here) != 0 || (!is_cached && posix_fadvise(here, 0, 0, POSIX_FADV_DONTNEED) != 0)) {
        end("a state's files can't be copied");
    }
    close(there);
    close(here);
}

// Gives the place a copy of its state, since a start changes it.
static void copy_state(struct place *place, const char *state, int try, bool is_cached) {
    make_state(place, "copy", try);
    for (size_t at = 0; at < sizeof names / sizeof *names; at++) {
        char from[300], to[300];
        snprintf(from, sizeof from, "%s/%s", state, names[at]);
        snprintf(to, sizeof to, "%s/%s", place->state, names[at]);
        copy(from, to, is_cached);
    }
}

static void remove_copy(const struct place *place) {
    char command[300];
    snprintf(command, sizeof command, "rm -r '%s'", place->state);
    if (system(command) != 0) {
        end("a copy can't be removed");
    }
}

enum files { CACHED, UNCACHED, NONE_YET };

// Starts from copies of a state with so many entries, after a snapshot of full tables or of nothing.
static void print_start(struct place *place, const char *what, enum files files, int entries) {
    double tries[TRIES], octets = place->folder && files != NONE_YET ? octets_of(place) : 0;
    char state[sizeof place->state];
    memcpy(state, place->state, sizeof state);
    for (int try = 0; try < TRIES; try++) {
        if (files == NONE_YET) {
            make_state(place, "new", try);
        } else if (place->folder) {
            copy_state(place, state, try, files == CACHED);
        }
        tries[try] = begin_server(place);
        kill_server(place);
        if (place->folder) {
            remove_copy(place);
        }
    }
    memcpy(place->state, state, sizeof state);
    double middle = within(tries, TRIES, 500);
    printf("| %s%s | %d | %.1f |", place->name, what, entries, middle / 1e3);
    print_cell(octets > 0, octets / 1048576);
    print_cell(octets > 0 && entries > 0, octets / entries);
    print_cell(octets > 0 && files != NONE_YET, middle * 1e3 / start_goal);
    puts("");
    fflush(stdout);
}

// Leaves of a state with two generations the second, as the first.
static void keep_second(const struct place *place) {
    for (size_t at = 0; at < sizeof names / sizeof *names; at++) {
        char second[300], first[300];
        snprintf(second, sizeof second, "%s/generation-2%s", place->state, names[at] + sizeof "generation-1" - 1);
        snprintf(first, sizeof first, "%s/%s", place->state, names[at]);
        if (rename(second, first) != 0) {
            end("a state has one generation");
        }
    }
}

// Starts from the states of the log-ins, and from others.
static void print_starts(void) {
    puts("\n| state | entries | until it listens: ms | files: MiB | octets an entry | to 3 s (goal: at most 1.00) |\n"
         "|---|---|---|---|---|---|");
    print_start(&places[NONE], "", CACHED, 0);
    print_start(&places[MEMORY], "", CACHED, TURNS * LOG_INS);
    print_start(&places[DISK], "", CACHED, TURNS * LOG_INS);
    print_start(&places[DISK], ", not cached", UNCACHED, TURNS * LOG_INS);
    print_start(&places[DISK], ", new", NONE_YET, 0);
    make_state(&places[DISK], "few", 0);
    begin_server(&places[DISK]);
    ask(&places[DISK], (struct load){.kind = LOG_IN, .first = 0, .made = FEW, .count = FEW, .waiting = SOME});
    kill_server(&places[DISK]);
    print_start(&places[DISK], "", CACHED, FEW);
    write_configuration(LONG, LONG);
    make_state(&places[DISK], "full", 0);
    begin_server(&places[DISK]);
    for (int turn = 0; turn < FULL; turn++) {
        fill_once(&places[DISK], LOG_IN, turn);
    }
    kill_server(&places[DISK]);
    print_start(&places[DISK], ", full tables", CACHED, FULL * LOG_INS);
    // The next generation has the same as a snapshot, and no entry.
    begin_server(&places[DISK]);
    kill_server(&places[DISK]);
    keep_second(&places[DISK]);
    print_start(&places[DISK], ", full tables", CACHED, 0);
}

// ---- the beginning of a generation

// The milliseconds of the next pause that a server's log tells of.
static double pause_of(const struct place *place) {
    char line[200];
    unsigned pause;
    while (fgets(line, sizeof line, place->told)) {
        if (sscanf(line, "radpool: began a generation, paused %u ms", &pause) == 1) {
            return pause;
        }
    }
    end("no generation began");
    return 0;
}

// A generation that begins under load, with all sessions and nearly all kept replies.
static void print_pauses(void) {
    puts("\n| state | sessions | pause: ms | a reply meanwhile: p50 ms | the longest ms | to 500 ms (goal: at most 1.00) |\n"
         "|---|---|---|---|---|---|");
    write_configuration(WINDOW, LONG);
    is_logged = true;
    for (int at = DISK; at < PLACES; at++) {
        struct place *place = &places[at];
        make_state(place, "pause", 0);
        begin_server(place);
        fill(place, LOG_IN, 0, FULL);
        fill(place, START, FULL, DUE / LOG_INS - FULL - 1);
        fill_once(place, START, DUE / LOG_INS - 1);
        // Now the next one is due.
        ask(place, (struct load){.kind = STATUS_SERVER, .made = SOME, .count = UNKEPT, .waiting = SOME});
        double pause = pause_of(place), p50 = within(times, UNKEPT, 500) / 1e3, longest = times[UNKEPT - 1] / 1e6;
        printf("| %s | %d | %.1f | %.1f | %.1f | %.2f |\n", place->name, USERS * SESSIONS, pause, p50, longest, pause / pause_goal);
        fflush(stdout);
        kill_server(place);
    }
}

int main(int argc, char **argv) {
    if (argc != 4) {
        end("usage: state RADPOOL FOLDER FOLDER_IN_MEMORY");
    }
    alarm(LIFE);
    radpool = argv[1];
    folder = argv[2];
    write_file("seed", "for trials alone: no draw is used", 32);
    for (int at = DISK; at < PLACES; at++) {
        places[at].folder = argv[1 + at];
        make_pages(&places[at]);
    }
    measure_answers();
    print_alone();
    print_unkept();
    measure_log_ins();
    print_log_ins();
    print_starts();
    print_pauses();
}
