/* A program over the exported functions: requests on standard input, a line each, answers on standard output, a line each, in order.
 * host/test builds it as target/host/driver and runs host/cases through it; the runs against the Rust send many more.
 *
 *   request                          calls
 *   encode KIND VERSION KEY ROOM     the encoding of kind 0 to 5 (header: tjaldrum_decode); KEY is - for kinds without a user key,
 *                                    VERSION is 0 for kinds without a version
 *   decode BYTES ROOM                tjaldrum_decode
 *   unescape BYTES ROOM              tjaldrum_unescape
 *   open LOG USED ROOM               tjaldrum_open
 *
 *   answer
 *   NUMBER LENGTH BUFFER
 *
 * Words stand one space apart; a line ends with one newline. KIND, VERSION, USED, ROOM, NUMBER and LENGTH are decimal. KEY, BYTES, LOG
 * and BUFFER are bytes as lower-case hex digits, two a byte, or - for none. ROOM is how many bytes are lent for writing (of a table: 12
 * a slot); each is ff before the call. NUMBER and LENGTH are the two halves of the answer, BUFFER is all ROOM bytes after the call.
 * A line that is no request, or that finds no memory, ends the program with status 2 and a message; the end of input ends it with 0. */
#define _POSIX_C_SOURCE 200809L
#include "tjaldrum.h"

#include <errno.h>
#include <stdio.h>
#include <stdlib.h>
#include <string.h>

struct bytes {
    uint8_t *at;
    size_t len;
};

static unsigned long line_number;

static void stop(const char *why) {
    fprintf(stderr, "driver: line %lu: %s\n", line_number, why);
    exit(2);
}

/* One byte more than asked for, so that no slice is a null pointer. */
static struct bytes lend(size_t len) {
    struct bytes b = {malloc(len + 1), len};
    if (b.at == NULL) stop("no memory");
    memset(b.at, 0xff, len);
    return b;
}

/* The next word of the line, which is cut off its front. */
static char *word(char **line) {
    char *w = *line;
    char *end = strchr(w, ' ');
    if (*w == 0 || *w == ' ') stop("a word is missing");
    if (end == NULL) {
        *line = w + strlen(w);
    } else {
        if (end[1] == 0) stop("a space at the end");
        *end = 0;
        *line = end + 1;
    }
    return w;
}

static uint64_t number(char **line) {
    char *w = word(line);
    char *end;
    errno = 0;
    uint64_t n = strtoull(w, &end, 10);
    if (*w < '0' || *w > '9' || *end != 0 || errno != 0) stop("no decimal number of 64 bits");
    return n;
}

static int digit(char c) {
    if (c >= '0' && c <= '9') return c - '0';
    if (c >= 'a' && c <= 'f') return c - 'a' + 10;
    stop("no hex digit");
    return 0;
}

static struct bytes hex(char **line) {
    char *w = word(line);
    if (strcmp(w, "-") == 0) return lend(0);
    size_t n = strlen(w);
    if (n % 2 != 0) stop("half a byte");
    struct bytes b = lend(n / 2);
    for (size_t i = 0; i < b.len; i++) b.at[i] = (uint8_t)(digit(w[2 * i]) << 4 | digit(w[2 * i + 1]));
    return b;
}

static void say(uint64_t answer, struct bytes b) {
    static const char digits[] = "0123456789abcdef";
    printf("%u %u ", TJALDRUM_NUMBER(answer), TJALDRUM_LENGTH(answer));
    if (b.len == 0) putchar('-');
    for (size_t i = 0; i < b.len; i++) {
        putchar(digits[b.at[i] >> 4]);
        putchar(digits[b.at[i] & 15]);
    }
    putchar('\n');
}

static uint64_t encode(uint64_t kind, uint64_t version, struct bytes key, struct bytes out) {
    switch (kind) {
    case 0: return tjaldrum_encode_next_version(out.at, out.len);
    case 1: return tjaldrum_encode_txn_active(version, out.at, out.len);
    case 2: return tjaldrum_encode_txn_active_snapshot(version, out.at, out.len);
    case 3: return tjaldrum_encode_txn_write(version, key.at, key.len, out.at, out.len);
    case 4: return tjaldrum_encode_version(key.at, key.len, version, out.at, out.len);
    case 5: return tjaldrum_encode_unversioned(key.at, key.len, out.at, out.len);
    }
    stop("no such kind");
    return 0;
}

static void run(char *line) {
    char *call = word(&line);
    struct bytes in, out;
    uint64_t answer;
    if (strcmp(call, "encode") == 0) {
        uint64_t kind = number(&line);
        uint64_t version = number(&line);
        in = hex(&line);
        out = lend(number(&line));
        if ((kind < 3 && in.len != 0) || ((kind == 0 || kind == 5) && version != 0)) stop("a field that the kind does not have");
        answer = encode(kind, version, in, out);
    } else if (strcmp(call, "decode") == 0) {
        in = hex(&line);
        out = lend(number(&line));
        answer = tjaldrum_decode(in.at, in.len, out.at, out.len);
    } else if (strcmp(call, "unescape") == 0) {
        in = hex(&line);
        out = lend(number(&line));
        answer = tjaldrum_unescape(in.at, in.len, out.at, out.len);
    } else if (strcmp(call, "open") == 0) {
        in = hex(&line);
        uint64_t used = number(&line);
        out = lend(number(&line));
        answer = tjaldrum_open(in.at, in.len, used, out.at, out.len);
    } else {
        stop("no such call");
    }
    if (*line != 0) stop("a word too many");
    say(answer, out);
    free(in.at);
    free(out.at);
}

int main(void) {
    char *line = NULL;
    size_t room = 0;
    ssize_t n;
    while ((n = getline(&line, &room, stdin)) >= 0) {
        line_number++;
        if (n == 0 || line[n - 1] != '\n') stop("no newline");
        line[n - 1] = 0;
        run(line);
    }
    free(line);
    return fflush(stdout) == 0 ? 0 : 2;
}
