// What `radpool serve` answers over UDP on 127.0.0.1, beside a responder that makes the digests and the system calls alone.
#include "serving.h"

enum {
    AUTH = 18130,
    ACCT = 18131,
    SOME = 128,     // requests that wait for a reply
    SLOTS = 512,    // the most
    ROUND = 512,    // the most datagrams that are received before replies are sent
    WARM = 1000,
    COUNT = 200000, // the requests of a measurement
    TRIES = 3,      // of which the best counts
    SPAN = 21,      // seconds, in which files are written three times
    IDS = 256,      // the Identifiers
    PORTS = 255,    // the most from which sessions are asked for
    HOLD = 86400,   // seconds
};

// A request that is sent again and again, and its reply.
struct slot {
    int socket;
    uint8_t request[STATUS], reply[HEADER];
    size_t len;
    double sent;
};

static struct slot slots[SLOTS];
static int sockets[SOCKETS];
static double times[COUNT];

// ---- requests

// The Accounting-Response to a request (RFC 2866, section 3; RFC 5997, section 4.1).
static void respond_to(const uint8_t *request, uint8_t *reply) {
    memcpy(reply, (uint8_t[]){5, request[1], 0, HEADER}, 4);
    memcpy(reply + 4, request + 4, BLOCK);
    digest(reply, HEADER, reply + 4);
}

// A Start of a session that the server doesn't know.
static size_t accounting_request(uint8_t id, uint8_t *octets) {
    memcpy(octets, (uint8_t[]){4, id, 0, 26}, 4);
    memset(octets + 4, 0, BLOCK);
    memcpy(octets + HEADER, (uint8_t[]){40, 6, 0, 0, 0, 1}, 6);
    digest(octets, 26, octets + 4);
    return 26;
}

// ---- the responder

static int bound(uint16_t port) {
    int made = socket(AF_INET, SOCK_DGRAM, 0);
    struct sockaddr_in here = {.sin_family = AF_INET, .sin_port = htons(port), .sin_addr.s_addr = htonl(INADDR_LOOPBACK)};
    if (made < 0 || bind(made, (struct sockaddr *)&here, sizeof here) != 0) {
        end("a port can't be bound");
    }
    int room = 4000000;    // as `radpool serve` asks for
    setsockopt(made, SOL_SOCKET, SO_RCVBUF, &room, sizeof room);
    return made;
}

static bool is_right(uint8_t *octets, ssize_t len) {
    uint8_t given[BLOCK], made[BLOCK];
    uint8_t *field = octets[0] == 4 ? octets + 4 : octets + HEADER + 2;
    memcpy(given, field, BLOCK);
    memset(field, 0, BLOCK);
    if (octets[0] == 4) {
        digest(octets, (size_t)len, made);
    } else {
        authenticate(octets, (size_t)len, made);
    }
    memcpy(field, given, BLOCK);
    return memcmp(given, made, BLOCK) == 0;
}

static void run_responder(void) {
    static uint8_t octets[ROUND][FRAME];
    static struct sockaddr_in from[ROUND];
    static ssize_t len[ROUND];
    struct pollfd port = {.fd = bound(ACCT), .events = POLLIN};
    for (;;) {
        poll(&port, 1, 1000);
        int count = 0;
        for (; count < ROUND; count++) {
            socklen_t from_len = sizeof from[count];
            len[count] = recvfrom(port.fd, octets[count], FRAME, MSG_DONTWAIT, (struct sockaddr *)&from[count], &from_len);
            if (len[count] < 0) {
                break;
            }
        }
        for (int at = 0; at < count; at++) {
            uint8_t reply[HEADER];
            if (len[at] >= 26 && is_right(octets[at], len[at])) {
                respond_to(octets[at], reply);
                sendto(port.fd, reply, sizeof reply, 0, (struct sockaddr *)&from[at], sizeof from[at]);
            }
        }
    }
}

// ---- the load

// Half of the slots of a socket have a Status-Server, the others an Accounting-Request.
static void fill_slots(void) {
    for (int at = 0; at < SOCKETS; at++) {
        sockets[at] = connected(ACCT);
    }
    for (int at = 0; at < SLOTS; at++) {
        struct slot *slot = &slots[at];
        uint8_t id = (uint8_t)(at / SOCKETS);
        slot->socket = at % SOCKETS;
        slot->len = id % 2 ? accounting_request(id, slot->request) : status_server(id, slot->request);
        respond_to(slot->request, slot->reply);
    }
}

static void send_slot(struct slot *slot) {
    slot->sent = now();
    if (send(sockets[slot->socket], slot->request, slot->len, 0) != (ssize_t)slot->len) {
        end("a request can't be sent");
    }
}

// The slot whose reply waits at a socket, if one does.
static struct slot *receive_slot(int at) {
    uint8_t reply[FRAME];
    ssize_t len = recv(sockets[at], reply, sizeof reply, MSG_DONTWAIT);
    if (len < 0) {
        return NULL;
    }
    struct slot *slot = &slots[(reply[1] * SOCKETS + at) % SLOTS];
    if (len != HEADER || memcmp(reply, slot->reply, HEADER) != 0) {
        end("a wrong reply");
    }
    return slot;
}

// Sends so many requests, of which so many wait for a reply at a time: one, some or all slots. Keeps their times. Returns the
// nanoseconds.
static double load(int count, int waiting) {
    struct pollfd ports[SOCKETS];
    for (int at = 0; at < SOCKETS; at++) {
        ports[at] = (struct pollfd){.fd = sockets[at], .events = POLLIN};
    }
    int sent = 0, answered = 0;
    double start = now();
    for (; sent < waiting; sent++) {
        send_slot(&slots[sent]);
    }
    while (answered < count) {
        if (poll(ports, SOCKETS, 2000) <= 0) {
            end("a reply is missing");
        }
        for (int at = 0; at < SOCKETS; at++) {
            struct slot *slot;
            while (ports[at].revents && (slot = receive_slot(at))) {
                times[answered++] = now() - slot->sent;
                if (sent < count) {
                    send_slot(waiting == 1 ? &slots[sent % SLOTS] : slot);
                    sent++;
                }
            }
        }
    }
    return now() - start;
}

// ---- servers

// What a server tells its operator: an option, and a level or the name of a file. Files that are written every ten seconds are measured
// for longer, with full tables.
struct report {
    const char *option, *level, *file;
    bool is_long;
};

static const struct report reports[] = {
    {"none", NULL, NULL, false},          {"--log", "refused", NULL, false}, {"--log", "all", NULL, false},
    {"--record", NULL, "record", false},  {"none", NULL, NULL, true},        {"--metrics", NULL, "metrics", true},
    {"--sessions", NULL, "sessions", true},
};

// A server that reports; without a path of one, the responder.
static pid_t begin_server(const char *radpool, const struct report *report) {
    fflush(stdout);
    pid_t child = fork();
    if (child != 0) {
        return child;
    }
    prctl(PR_SET_PDEATHSIG, SIGKILL);
    alarm(120);
    if (!radpool) {
        run_responder();
    }
    if (!freopen("/dev/null", "w", stdout)) {
        _exit(1);
    }
    char toml[200], seed[200];
    snprintf(toml, sizeof toml, "%s", in_folder("toml"));
    snprintf(seed, sizeof seed, "%s", in_folder("seed"));
    const char *words[] = {radpool, "serve", "--config", toml, "--seed", seed, "--auth", "18130", "--acct", "18131", NULL, NULL, NULL};
    if (report->level || report->file) {
        words[10] = report->option;
        words[11] = report->level ? report->level : in_folder(report->file);
        if (!freopen("/dev/null", "w", stderr)) {
            _exit(1);
        }
    }
    execv(radpool, (char *const *)words);
    _exit(1);
}

static void wait_for_server(void) {
    for (int try = 0; try < 50; try++) {
        struct pollfd port = {.fd = sockets[0], .events = POLLIN};
        send(sockets[0], slots[0].request, slots[0].len, 0);
        if (poll(&port, 1, 100) > 0 && receive_slot(0)) {
            return;
        }
        usleep(100000);
    }
    end("no server");
}

// What a server remembers before it is measured.
struct state {
    uint32_t sessions;
    uint32_t ports;     // from which these were asked for, with each Identifier in turn
    unsigned window;    // seconds for which a reply is kept
};

// A reply is kept for a second, so few are kept.
static const struct state few = {16, 1, 1};

// With the load's 256 Accounting-Requests as many replies are kept as may be, and none goes while the server is measured.
static const struct state full = {65536, PORTS, 600};

static void grant_one(int port, uint8_t id, uint32_t number) {
    uint8_t octets[FRAME];
    size_t len = access_request(id, number, octets);
    struct pollfd waiting = {.fd = port, .events = POLLIN};
    if (send(port, octets, len, 0) < 0 || poll(&waiting, 1, 2000) != 1 || recv(port, octets, FRAME, 0) < HEADER || octets[0] != 2) {
        end("a session isn't granted");
    }
}

static void grant(const struct state *state) {
    int ports[PORTS];
    for (uint32_t at = 0; at < state->ports; at++) {
        ports[at] = connected(AUTH);
    }
    for (uint32_t number = 0; number < state->sessions; number++) {
        grant_one(ports[number / IDS % state->ports], (uint8_t)(number % IDS), number);
    }
    for (uint32_t at = 0; at < state->ports; at++) {
        close(ports[at]);
    }
}

struct figures {
    double one_p50, one_p99, a_second, p50, p99, processor, most_a_second, resident;
};

// The resident memory of a process, in MiB.
static double resident(pid_t process) {
    char path[64];
    snprintf(path, sizeof path, "/proc/%d/statm", (int)process);
    FILE *file = fopen(path, "r");
    unsigned long pages = 0;
    if (!file || fscanf(file, "%*u %lu", &pages) != 1) {
        end("no memory");
    }
    fclose(file);
    return (double)pages * (double)sysconf(_SC_PAGESIZE) / 1048576;
}

// The figures of a server that begins in a state; without a path of one, those of the responder.
static struct figures measure(const char *radpool, const struct state *state) {
    struct figures found;
    write_configuration(state->window, HOLD);
    pid_t server = begin_server(radpool, &reports[0]);
    wait_for_server();
    if (radpool) {
        grant(state);
    }
    load(WARM, SLOTS);
    load(COUNT / 4, 1);
    found.one_p50 = within(times, COUNT / 4, 500);
    found.one_p99 = within(times, COUNT / 4, 990);
    clockid_t clock;
    if (clock_getcpuclockid(server, &clock) != 0) {
        end("no clock");
    }
    double processor = nanoseconds(clock);
    found.a_second = COUNT / load(COUNT, SOME) * 1e9;
    found.processor = (nanoseconds(clock) - processor) / COUNT / 1e3;
    found.p50 = within(times, COUNT, 500);
    found.p99 = within(times, COUNT, 990);
    found.most_a_second = COUNT / load(COUNT, SLOTS) * 1e9;
    found.resident = resident(server);
    kill(server, SIGTERM);
    waitpid(server, NULL, 0);
    return found;
}

// The processor time of a request, in microseconds, to a server that reports.
static double processor_of(const char *radpool, const struct report *report) {
    const struct state *state = report->is_long ? &full : &few;
    write_configuration(state->window, HOLD);
    unlink(in_folder("record"));
    pid_t server = begin_server(radpool, report);
    wait_for_server();
    grant(state);
    load(WARM, SOME);
    clockid_t clock;
    if (clock_getcpuclockid(server, &clock) != 0) {
        end("no clock");
    }
    double processor = nanoseconds(clock), begun = nanoseconds(CLOCK_MONOTONIC);
    int count = 0;
    do {
        load(COUNT / 4, SOME);
        count += COUNT / 4;
    } while (report->is_long && nanoseconds(CLOCK_MONOTONIC) - begun < SPAN * 1e9);
    double found = (nanoseconds(clock) - processor) / count / 1e3;
    kill(server, SIGTERM);
    waitpid(server, NULL, 0);
    return found;
}

static double least_processor_of(const char *radpool, const struct report *report) {
    double least = processor_of(radpool, report);
    for (int try = 1; try < TRIES && !report->is_long; try++) {
        double found = processor_of(radpool, report);
        least = found < least ? found : least;
    }
    return least;
}

static void print_reports(const char *radpool) {
    puts("\n| report | sessions | CPU µs a request | to none's |\n|---|---|---|---|");
    double none = 0;
    for (size_t at = 0; at < sizeof reports / sizeof *reports; at++) {
        const struct report *report = &reports[at];
        double found = least_processor_of(radpool, report);
        bool is_none = !report->level && !report->file;
        none = is_none ? found : none;
        printf("| %s %s | %u | %.2f | %.2f |\n", report->option, report->level ? report->level : "",
               report->is_long ? full.sessions : few.sessions, found, found / none);
        fflush(stdout);
    }
}

static void print_row(const char *name, uint32_t sessions, struct figures f, struct figures null) {
    printf("| %s | %u | %.1f | %.1f | %.0f | %.0f | %.0f | %.2f | %.0f | %.2f | %.2f | %.2f | %.1f |\n", name, sessions, f.one_p50, f.one_p99,
           f.a_second, f.p50, f.p99, f.processor, f.most_a_second, f.one_p50 / null.one_p50, f.a_second / null.a_second,
           f.most_a_second / null.most_a_second, f.resident);
    fflush(stdout);
}

// The rows of a responder and of a server that begins in a state. Returns the server's figures.
static struct figures print_rows(const char *radpool, const struct state *state) {
    struct figures null = measure(NULL, state), found = measure(radpool, state);
    print_row("responder", 0, null, null);
    print_row("radpool", state->sessions, found, null);
    return found;
}

int main(int argc, char **argv) {
    if (argc != 3) {
        end("usage: serve RADPOOL FOLDER");
    }
    alarm(300);
    folder = argv[2];
    write_file("seed", "for trials alone: no draw is used", 32);
    fill_slots();
    puts("| server | sessions | one at a time: p50 µs | p99 µs | 128 at a time: requests/s | p50 µs | p99 µs | CPU µs a request "
         "| 512 at a time: requests/s | to the responder's: p50 of one | requests/s of 128 | of 512 | resident MiB |");
    puts("|---|---|---|---|---|---|---|---|---|---|---|---|---|");
    struct figures small = print_rows(argv[1], &few), large = print_rows(argv[1], &full);
    printf("with full tables radpool answers %.2f of the requests a second that it answers with 16 sessions, 128 at a time, "
           "and %.2f with 512 at a time\n",
           large.a_second / small.a_second, large.most_a_second / small.most_a_second);
    print_reports(argv[1]);
}
