/* Plays calls of sdti.h from standard input, and prints for each what it answered and which bytes of its buffers it changed. Compiled and predicted by harness/host.
 *   NAME NUMBER..        a call, sdti_NAME, by the numbers in the order of its parameters: for a buffer the length with which it is lent
 *   put BUFFER AT HEX    bytes put into a buffer (state, line, room, event, settings, values, header, out, listed)
 *   count NUMBER         what sdti_add_many finds in its number
 *   show BUFFER COUNT    the first bytes of a buffer
 *   told, held, found, said    the event; the settings in the state, and them again as bytes; the header; the list: by the header's inline functions
 *   sizes SYSTEM         sdti_line_bytes and sdti_gap_bytes
 * A call's row: the answer; for each buffer that has changed its name, and the bytes that differ as AT:HEX; what stands in sdti_add_many's number.
 * A buffer is lent at the end of its pages, or at their start, in turn: a page beside it cannot be touched, and guard bytes stand on its other side. */
#define _DEFAULT_SOURCE
#include "sdti.h"
#include <inttypes.h>
#include <stdio.h>
#include <stdlib.h>
#include <string.h>
#include <sys/mman.h>
#include <unistd.h>

enum { SPACE = 131072, GUARD = 64, BUFFERS = 9, NUMBERS = 9, TEXT = 2 * SPACE + 64 };

struct buffer {
    const char *name;
    uint8_t home[SPACE]; /* what it holds between calls */
    uint8_t *pages;      /* where it is lent; the pages before and behind cannot be touched */
    uint8_t *lent;       /* in this call, or NULL */
    size_t length;
};

static struct buffer buffers[BUFFERS] = {{.name = "state"},  {.name = "line"},   {.name = "room"}, {.name = "event"}, {.name = "settings"},
                                         {.name = "values"}, {.name = "header"}, {.name = "out"},  {.name = "listed"}};
enum { STATE, LINE, ROOM, EVENT, SETTINGS, VALUES, HEADER, OUT, LISTED };
static uint64_t count, calls;
static char text[TEXT];

static void fail(const char *what) {
    printf("host: %s\n", what);
    exit(1);
}

static void prepare(void) {
    size_t page = (size_t)sysconf(_SC_PAGESIZE);
    if (SPACE % page)
        fail("a page of another size");
    for (int i = 0; i < BUFFERS; i++) {
        uint8_t *p = mmap(NULL, SPACE + 2 * page, PROT_NONE, MAP_PRIVATE | MAP_ANONYMOUS, -1, 0);
        if (p == MAP_FAILED || mprotect(p + page, SPACE, PROT_READ | PROT_WRITE))
            fail("no pages");
        buffers[i].pages = p + page;
    }
}

/* ---- lending */
static uint8_t *guard_of(const struct buffer *b) { return b->lent == b->pages ? b->lent + b->length : b->lent - GUARD; }

/* A buffer of no bytes is lent as NULL now and then. */
static uint8_t *lend(int i, uint64_t length) {
    struct buffer *b = &buffers[i];
    if (length > SPACE - GUARD)
        fail("a buffer that is too long");
    int high = (calls + (uint64_t)i) % 2;
    b->length = length;
    b->lent = b->pages + (high ? SPACE - length : 0);
    memset(guard_of(b), 0xA5, GUARD);
    memcpy(b->lent, b->home, length);
    return length || high ? b->lent : NULL;
}

static void print_bytes(const uint8_t *bytes, size_t n) {
    for (size_t i = 0; i < n; i++) {
        putchar_unlocked("0123456789abcdef"[bytes[i] >> 4]);
        putchar_unlocked("0123456789abcdef"[bytes[i] & 15]);
    }
}

/* What has changed in a buffer that was lent. It is kept. */
static void take_back(struct buffer *b) {
    for (int k = 0; k < GUARD; k++)
        if (guard_of(b)[k] != 0xA5) {
            printf(" %s guard", b->name);
            break;
        }
    if (memcmp(b->home, b->lent, b->length)) {
        printf(" %s", b->name);
        for (size_t i = 0, end; i < b->length; i = end) {
            for (; i < b->length && b->home[i] == b->lent[i]; i++)
                ;
            for (end = i; end < b->length && b->home[end] != b->lent[end]; end++)
                ;
            if (i < end) {
                printf(" %zu:", i);
                print_bytes(b->lent + i, end - i);
            }
        }
        memcpy(b->home, b->lent, b->length);
    }
    b->lent = NULL;
}

#define LENT(which, at) lend(which, n[at]), n[at]

/* The call of a name, by its numbers; whether there is one of so many. */
static int call(const char *name, const uint64_t *n, int many, uint32_t *answer) {
    uint8_t a = (uint8_t)n[0], b = (uint8_t)n[1], c = (uint8_t)n[2];
    if (!strcmp(name, "reader") && many == 3)
        *answer = sdti_reader(a, b, LENT(STATE, 2));
    else if (!strcmp(name, "writer") && many == 3)
        *answer = sdti_writer(a, b, LENT(STATE, 2));
    else if (!strcmp(name, "read") && many == 4)
        *answer = sdti_read(LENT(STATE, 0), LENT(LINE, 1), LENT(ROOM, 2), LENT(EVENT, 3));
    else if (!strcmp(name, "read_within") && many == 5)
        *answer = sdti_read_within(LENT(STATE, 0), n[1], LENT(LINE, 2), LENT(ROOM, 3), LENT(EVENT, 4));
    else if (!strcmp(name, "open") && many == 6)
        *answer = sdti_open(LENT(STATE, 0), n[1] != 0, n[2] != 0, (uint32_t)n[3], LENT(SETTINGS, 4), LENT(LINE, 5));
    else if (!strcmp(name, "add") && many == 4)
        *answer = sdti_add(LENT(STATE, 0), (uint32_t)n[1], LENT(VALUES, 2), LENT(LINE, 3));
    else if (!strcmp(name, "add_many") && many == 3)
        *answer = sdti_add_many(LENT(STATE, 0), LENT(VALUES, 1), LENT(LINE, 2), &count);
    else if (!strcmp(name, "packet") && many == 5)
        *answer = sdti_packet(LENT(STATE, 0), b, c, LENT(VALUES, 3), LENT(LINE, 4));
    else if (!strcmp(name, "close") && many == 2)
        *answer = sdti_close(LENT(STATE, 0), LENT(LINE, 1));
    else if (!strcmp(name, "check") && many == 4)
        *answer = sdti_check(a, b, LENT(LINE, 2), LENT(HEADER, 3));
    else if (!strcmp(name, "list") && many == 5)
        *answer = sdti_list(a, b, LENT(LINE, 2), LENT(OUT, 3), LENT(LISTED, 4));
    else
        return 0;
    return 1;
}

static void play_call(const char *name, const uint64_t *n, int many) {
    uint32_t answer = 0;
    calls++;
    if (!call(name, n, many, &answer))
        fail("no such step");
    printf("%" PRIu32, answer);
    for (int i = 0; i < BUFFERS; i++)
        if (buffers[i].lent)
            take_back(&buffers[i]);
    if (!strcmp(name, "add_many"))
        printf(" count %" PRIu64, count);
    printf("\n");
}

/* ---- the other steps */
static struct buffer *named(const char *name) {
    for (int i = 0; i < BUFFERS; i++)
        if (name && !strcmp(name, buffers[i].name))
            return &buffers[i];
    fail("no such buffer");
    return NULL;
}

static unsigned digit(char c) { return (unsigned)(c <= '9' ? c - '0' : c - 'a' + 10); }

static void put(struct buffer *b, size_t at, const char *hex) {
    size_t n = hex ? strlen(hex) / 2 : 0;
    if (at > SPACE || n > SPACE - at)
        fail("bytes beyond a buffer");
    for (size_t i = 0; i < n; i++)
        b->home[at + i] = (uint8_t)(digit(hex[2 * i]) << 4 | digit(hex[2 * i + 1]));
}

static void print_told(void) {
    struct sdti_event e = sdti_event_of(buffers[EVENT].home);
    printf("told %" PRIu32 " %d %d %" PRId32 " %" PRIu32 " %" PRIu32 " %" PRIu64 " %" PRIu64 "\n", e.kind, e.dropped, e.jump_known, e.jump, e.number, e.type, e.length,
           e.consumed);
}

static void print_settings(const char *name, struct sdti_settings s) {
    uint8_t again[SDTI_SETTINGS];
    sdti_settings_to(&s, again);
    printf("%s %u %u %u %u ", name, s.code, s.aai, s.block, s.flag);
    print_bytes(s.destination, 16);
    printf(" ");
    print_bytes(s.source, 16);
    printf(" ");
    print_bytes(s.reserved, 5);
    printf(" ");
    print_bytes(again, SDTI_SETTINGS);
}

static void print_said(void) {
    struct sdti_listed l = sdti_listed_of(buffers[LISTED].home);
    printf("said %" PRIu32 " %" PRIu32 " %" PRIu32 " %" PRIu32 "\n", l.packets, l.words, l.gap, l.stop);
}

static void play(char *step) {
    char *name = strtok(step, " "), *words[NUMBERS];
    uint64_t n[NUMBERS] = {0};
    int many = 0;
    for (char *w; name && many < NUMBERS && (w = strtok(NULL, " ")); many++) {
        words[many] = w;
        n[many] = strtoull(w, NULL, 10);
    }
    if (!name)
        fail("an empty step");
    if (!strcmp(name, "put") && many == 3)
        put(named(words[0]), n[1], words[2]);
    else if (!strcmp(name, "count") && many == 1)
        count = n[0];
    else if (!strcmp(name, "show") && many == 2 && n[1] <= SPACE) {
        print_bytes(named(words[0])->home, n[1]);
        printf("\n");
    } else if (!strcmp(name, "told"))
        print_told();
    else if (!strcmp(name, "held")) {
        print_settings("held", sdti_settings_in(buffers[STATE].home));
        printf("\n");
    } else if (!strcmp(name, "found")) {
        print_settings("found", sdti_header_settings(buffers[HEADER].home));
        printf(" %" PRIu32 "\n", sdti_header_number(buffers[HEADER].home));
    } else if (!strcmp(name, "said"))
        print_said();
    else if (!strcmp(name, "sizes") && many == 1)
        printf("sizes %zu %zu\n", sdti_line_bytes((uint8_t)n[0]), sdti_gap_bytes((uint8_t)n[0]));
    else
        play_call(name, n, many);
}

int main(void) {
    prepare();
    while (fgets(text, TEXT, stdin)) {
        size_t n = strlen(text);
        if (n == 0 || text[n - 1] != '\n')
            fail("a step that is too long, or cut");
        text[n - 1] = 0;
        play(text);
    }
    return ferror(stdin) || fflush(stdout) ? 1 : 0;
}
