// What the programs that measure `radpool serve` have in common: requests, times, and the files that a server begins with.
#define OPENSSL_SUPPRESS_DEPRECATED
#define _GNU_SOURCE
#include "bench.h"
#include <arpa/inet.h>
#include <openssl/hmac.h>
#include <openssl/md5.h>
#include <poll.h>
#include <signal.h>
#include <stdbool.h>
#include <stdint.h>
#include <string.h>
#include <sys/prctl.h>
#include <sys/socket.h>
#include <sys/wait.h>
#include <unistd.h>

enum {
    SOCKETS = 8,
    BLOCK = 16,
    HEADER = 20,
    STATUS = 38,    // the length of a Status-Server
    FRAME = 4096,
    USERS = 16,
    SESSIONS = 4096,    // of a user
};

#define SECRET "xyzzy5461"
static const size_t secret_len = sizeof SECRET - 1;

static inline void digest(const uint8_t *octets, size_t len, uint8_t *out) {
    MD5_CTX context;
    MD5_Init(&context);
    MD5_Update(&context, octets, len);
    MD5_Update(&context, SECRET, secret_len);
    MD5_Final(out, &context);
}

static inline void authenticate(const uint8_t *octets, size_t len, uint8_t *out) {
    unsigned out_len;
    HMAC(EVP_md5(), SECRET, (int)secret_len, octets, len, out, &out_len);
}

// ---- requests

static inline size_t status_server(uint8_t id, uint8_t *octets) {
    memcpy(octets, (uint8_t[]){12, id, 0, STATUS}, 4);
    memset(octets + 4, id, BLOCK);
    memcpy(octets + HEADER, (uint8_t[]){80, 18}, 2);
    memset(octets + HEADER + 2, 0, BLOCK);
    uint8_t code[BLOCK];
    authenticate(octets, STATUS, code);
    memcpy(octets + HEADER + 2, code, BLOCK);
    return STATUS;
}

// The Access-Request of the user whose turn it is, with an authenticator of this number. As one of an access point it has NAS-IP-Address,
// NAS-Port, NAS-Port-Type, Calling-Station-Id and Called-Station-Id, so it has 100 octets.
static inline size_t access_request(uint8_t id, uint32_t number, uint8_t *octets) {
    static const char rest[] = "\4\6\177\0\0\1\5\6\0\0\0\1\75\6\0\0\0\23\37\23" "02-00-00-00-00-01\36\23" "02-00-00-00-00-02";
    size_t len = 44 + sizeof rest - 1;
    memcpy(octets, (uint8_t[]){1, id, 0, (uint8_t)len}, 4);
    memset(octets + 4, 7, BLOCK);
    memcpy(octets + 4, &number, sizeof number);
    memcpy(octets + HEADER, "\1\6nem?\2\22arctangent\0\0\0\0\0\0", 24);
    octets[HEADER + 5] = (uint8_t)('a' + number / SESSIONS % USERS);
    uint8_t keyed[64], pad[BLOCK];
    memcpy(keyed, SECRET, secret_len);
    memcpy(keyed + secret_len, octets + 4, BLOCK);
    MD5(keyed, secret_len + BLOCK, pad);
    for (size_t at = 0; at < BLOCK; at++) {
        octets[28 + at] ^= pad[at];
    }
    memcpy(octets + 44, rest, sizeof rest - 1);
    return len;
}

static inline int connected(uint16_t port) {
    int made = socket(AF_INET, SOCK_DGRAM | SOCK_CLOEXEC, 0);
    struct sockaddr_in there = {.sin_family = AF_INET, .sin_port = htons(port), .sin_addr.s_addr = htonl(INADDR_LOOPBACK)};
    if (made < 0 || connect(made, (struct sockaddr *)&there, sizeof there) != 0) {
        end("no socket");
    }
    return made;
}

// ---- times

static inline int compare(const void *one, const void *other) {
    double a = *(const double *)one, b = *(const double *)other;
    return (a > b) - (a < b);
}

// The microseconds within which so many of a thousand of these nanoseconds are. Sorts them.
static inline double within(double *times, int count, int per_mille) {
    qsort(times, (size_t)count, sizeof times[0], compare);
    return times[(size_t)count * (size_t)per_mille / 1000] / 1e3;
}

// ---- files

static const char *folder;

static inline const char *in_folder(const char *name) {
    static char path[2][200];
    static int turn;
    turn = !turn;
    snprintf(path[turn], sizeof path[turn], "%s/%s", folder, name);
    return path[turn];
}

static inline void write_file(const char *name, const char *octets, size_t len) {
    FILE *file = fopen(in_folder(name), "w");
    if (!file || fwrite(octets, 1, len, file) != len || fclose(file) != 0) {
        end("a file can't be written");
    }
}

// A configuration with a pool, and users who get its addresses.
static inline void write_configuration(unsigned window, unsigned hold) {
    char text[2000];
    int len = snprintf(text, sizeof text, "window = %u\nhold = %u\n[[client]]\naddress = \"127.0.0.1\"\nsecret = \"" SECRET "\"\n"
                       "[[pool]]\nname = \"hall\"\nfirst = \"10.0.0.0\"\nlast = \"10.0.255.255\"\n",
                       window, hold);
    for (int user = 'a'; user < 'a' + USERS; user++) {
        len += snprintf(text + len, sizeof text - (size_t)len,
                        "[[user]]\nname = \"nem%c\"\npassword = \"arctangent\"\nsessions = %d\npool = \"hall\"\n", user, SESSIONS);
        if ((size_t)len >= sizeof text) {
            end("the configuration is too long");
        }
    }
    write_file("toml", text, (size_t)len);
}
