/* Plays steps from standard input through the calls of sdti.h, and prints a row for each call, for harness/steps to compute again by a reader and a
 * writer of its own.
 *
 * A step is a line of text: a name, and up to 56 decimal numbers, each after one space. A line that begins with # is a remark. It plays on a line of
 * 2,305 words, a room of 16,385 and three states, each 52 numbers, so that a step can put a state into any value, possible or not, and a row can show
 * all of it:
 *   0 system, 1 mode, 2 whether there is a last number, 3 that number and, of the writer, 65,536 times the words used of the gap, 4 whether a line is
 *   begun (open), 5 the place in it; 6 to 10 the reader's phase: 0 idle, 1 type awaited, 2 to 5 a count byte awaited with type and bytes so far, 6 data
 *   with type, announced and collected, the type 256 being a null's mark; of the writer 6 to 9 whether a block is unfinished, and its type, n and words
 *   laid, and 10 the CRC of this line; 11 code, 12 AAI, 13 block type, 14 flag, 15 to 30 destination, 31 to 46 source, 47 to 51 reserved.
 * What is not held is 0 in a state that a call left. The third, the heading, has the settings that a line is opened with.
 *
 * Where a row says REGISTER, it is the CRC register after all the words that were lent, as the call left them. ANSWER is 0, 100 for unfinished, or the
 * number of a refusal. What a step does, and its row, stands over its function. */
#include "sdti.h"
#include <inttypes.h>
#include <stdio.h>
#include <stdlib.h>
#include <string.h>

enum { NUMBERS = 56, COUNT = 52, SETTINGS = 11, LINE = 2305, ROOM = 16385, LIST = 20010, NULL_TYPE = 256, USED = 65536 };
enum { READER, WRITER, HEADING };
enum { ALL_ONES = 0x3FFFF, SEPARATOR = 0x309, END_CODE = 0x30A, FILLER = 0x200 };

static uint64_t states[3][COUNT];
static uint8_t line[2 * LINE];
static uint8_t room[2 * LIST]; /* behind the room's words stand words that are 0, for the longest lists of blocks */
static uint64_t ns[NUMBERS];   /* the numbers of the step */
static size_t many;            /* how many it has */

static void fail(const char *what) {
    printf("steps: %s\n", what);
    exit(1);
}

/* A number of words that a buffer of that length has. */
static size_t within(uint64_t n, size_t length) { return n < length ? (size_t)n : length; }

/* ---- a system's line, in words */
static size_t line_words(void) { return sdti_line_bytes((uint8_t)states[READER][0]) / 2; }
static size_t payload_words(void) { return states[READER][0] < 2 ? 1440 : 1920; }

/* ---- words made from a seed: each next number of the generator is x * 1664525 + 1013904223 modulo 2^32, and gives sixteen bits */
static uint16_t next(uint32_t *x) {
    *x = *x * 1664525u + 1013904223u;
    return (uint16_t)(*x >> 16);
}

/* Nine bits, and B9 the complement of B8; and a byte with its parity in B8. */
static uint16_t data_form(unsigned v) { return (uint16_t)((v & 0x1FF) | (v & 0x100 ? 0 : 0x200)); }

static uint16_t byte_form(unsigned v) {
    unsigned parity = 0;
    for (unsigned b = v & 0xFF; b; b >>= 1)
        parity ^= b & 1;
    return data_form((v & 0xFF) | parity << 8);
}

static uint16_t word_of(unsigned mode, unsigned v) { return mode == 8 ? byte_form(v) : data_form(v); }

/* Of each sixteen, 309h and 30Ah once, 200h eight times, a small byte four times, any twice. */
static uint16_t mixed(unsigned mode, unsigned u) {
    unsigned k = u % 16;
    if (k < 2)
        return k ? END_CODE : SEPARATOR;
    if (k < 10)
        return FILLER;
    return k < 14 ? byte_form(u / 16 % 4) : word_of(mode, u / 16);
}

/* A word of a kind: 2 any; 3 ten bits; 8 and 9 a word of the mode; 18 and 19 a mixed word of the mode; 28 and 29 a value of the mode; else the seed itself. */
static uint16_t made(uint64_t kind, uint64_t seed, uint16_t u) {
    switch (kind) {
    case 2: return u;
    case 3: return u % 1024;
    case 8:
    case 9: return word_of((unsigned)kind, u);
    case 18:
    case 19: return mixed((unsigned)kind - 10, u);
    case 28: return u % 256;
    case 29: return u % 512;
    default: return (uint16_t)seed;
    }
}

/* As many words of a kind from an index on; what would stand beyond the buffer is left out. */
static void make(uint8_t *words, size_t length, uint64_t index, uint64_t count, uint64_t kind, uint64_t seed) {
    uint32_t x = (uint32_t)seed;
    size_t from = within(index, length), to = from + within(count, length - from);
    for (size_t i = from; i < to; i++)
        sdti_put_word(words, i, made(kind, seed, next(&x)));
}

/* ---- states, from numbers to images and back */
static void put_number(uint8_t *bytes, size_t count, uint64_t n) {
    for (; count > 0; count--, n >>= 8)
        *bytes++ = (uint8_t)n;
}

/* Settings as numbers have block type and flag before the addresses. */
static void settings_to(const uint64_t *s, uint8_t *bytes) {
    struct sdti_settings t = {.code = (uint8_t)s[0], .aai = (uint8_t)s[1], .block = (uint8_t)s[2], .flag = (uint8_t)s[3]};
    for (int i = 0; i < 16; i++) {
        t.destination[i] = (uint8_t)s[4 + i];
        t.source[i] = (uint8_t)s[20 + i];
    }
    for (int i = 0; i < 5; i++)
        t.reserved[i] = (uint8_t)s[36 + i];
    sdti_settings_to(&t, bytes);
}

static void settings_from(struct sdti_settings t, uint64_t *s) {
    s[0] = t.code, s[1] = t.aai, s[2] = t.block, s[3] = t.flag;
    for (int i = 0; i < 16; i++) {
        s[4 + i] = t.destination[i];
        s[20 + i] = t.source[i];
    }
    for (int i = 0; i < 5; i++)
        s[36 + i] = t.reserved[i];
}

static void phase_to(const uint64_t *s, uint8_t *image) {
    unsigned phase = image[7] = (uint8_t)within(s[6], 6);
    if (phase < 2)
        return;
    image[16] = s[7] == NULL_TYPE ? 2 : 1;
    image[17] = s[7] == NULL_TYPE ? 0 : (uint8_t)s[7];
    if (phase == 6) {
        put_number(image + 21, 8, s[8]);
        put_number(image + 29, 8, s[9]);
        return;
    }
    for (unsigned k = 0; k + 2 < phase; k++)
        image[18 + k] = (uint8_t)s[8 + k];
}

static void phase_from(const uint8_t *image, uint64_t *s) {
    int data = image[7] == 6;
    s[6] = image[7];
    s[7] = image[16] == 2 ? NULL_TYPE : image[17];
    s[8] = data ? sdti_number(image + 21, 8) : image[18];
    s[9] = data ? sdti_number(image + 29, 8) : image[19];
    s[10] = image[20];
}

static void rest_to(const uint64_t *s, uint8_t *image) {
    if (s[6]) {
        image[7] = 1;
        image[17] = (uint8_t)s[7];
        put_number(image + 18, 2, s[8]);
        put_number(image + 21, 2, s[9]);
    }
    put_number(image + 23, 4, s[10]);
    put_number(image + 27, 2, s[3] / USED);
}

static void rest_from(const uint8_t *image, uint64_t *s) {
    s[3] += USED * sdti_number(image + 27, 2);
    s[6] = image[7];
    s[7] = image[17];
    s[8] = sdti_number(image + 18, 2);
    s[9] = sdti_number(image + 21, 2);
    s[10] = sdti_number(image + 23, 4);
}

static void image_of(int which, uint8_t *image) {
    const uint64_t *s = states[which];
    memset(image, 0, SDTI_STATE);
    image[0] = which == READER ? 'R' : 'W';
    image[1] = (uint8_t)s[0];
    image[2] = (uint8_t)s[1];
    image[3] = s[2] != 0;
    put_number(image + 4, 2, s[2] ? s[3] : 0);
    image[6] = s[4] != 0;
    put_number(image + 8, 8, s[4] ? s[5] : 0);
    (which == READER ? phase_to : rest_to)(s, image);
    settings_to(s + SETTINGS, image + SDTI_SETTINGS_IN_STATE);
}

static void keep(int which, const uint8_t *image) {
    uint64_t *s = states[which];
    s[0] = image[1];
    s[1] = image[2];
    s[2] = image[3];
    s[3] = sdti_number(image + 4, 2);
    s[4] = image[6];
    s[5] = sdti_number(image + 8, 8);
    (which == READER ? phase_from : rest_from)(image, s);
    settings_from(sdti_settings_in(image), s + SETTINGS);
}

/* `new SYSTEM MODE`: a fresh reader and a fresh writer. */
static void fresh_writer(uint64_t system, uint64_t mode) {
    uint8_t image[SDTI_STATE];
    if (sdti_writer((uint8_t)system, (uint8_t)mode, image, sizeof image))
        fail("no writer is made");
    keep(WRITER, image);
}

static void fresh(void) {
    uint8_t image[SDTI_STATE];
    if (sdti_reader((uint8_t)ns[0], (uint8_t)ns[1], image, sizeof image))
        fail("no reader is made");
    keep(READER, image);
    fresh_writer(ns[0], ns[1]);
}

/* ---- rows */
static void put(uint64_t n) { printf(" %" PRIu64, n); }

static void put_all(const uint64_t *numbers, size_t count) {
    for (size_t i = 0; i < count; i++)
        put(numbers[i]);
}

/* The CRC register after words, ten bits each: what is fed back comes again only after 13 bits. */
static uint32_t register_after(const uint8_t *words, size_t from, size_t to) {
    uint32_t c = ALL_ONES;
    for (size_t i = from; i < to; i++) {
        uint32_t x = (c ^ sdti_word(words, i)) & 0x3FF;
        c = c >> 10 ^ x << 8 ^ x << 4 ^ x << 3;
    }
    return c;
}

/* A row of a call: its name, ANSWER and REGISTER. */
static void put_row(const char *name, uint32_t answer, size_t length) {
    printf("%s %" PRIu32 " %" PRIu32 "\n", name, answer == SDTI_UNFINISHED ? 100 : answer, register_after(line, 0, length));
}

/* ---- steps that lay words and put numbers */

/* `index INDEX WORD` at an index of the line; into the payload from a place on `words PLACE WORD ..`, `data PLACE COUNT SEED` in the reader's mode, and
 * `mix PLACE COUNT SEED`; `Make INDEX COUNT KIND SEED` from an index of the line on; `Room INDEX COUNT KIND SEED` into the room. */
static void put_index(void) { make(line, LINE, ns[0], 1, 0, ns[1]); }

static void put_words(void) {
    for (size_t i = 1; i < many; i++)
        make(line, LINE, line_words() - payload_words() + ns[0] + i - 1, 1, 0, ns[i]);
}

static void put_data(void) { make(line, LINE, line_words() - payload_words() + ns[0], ns[1], states[READER][1], ns[2]); }
static void put_mix(void) { make(line, LINE, line_words() - payload_words() + ns[0], ns[1], states[READER][1] + 10, ns[2]); }
static void make_line(void) { make(line, LINE, ns[0], ns[1], ns[2], ns[3]); }
static void make_room(void) { make(room, ROOM, ns[0], ns[1], ns[2], ns[3]); }

static uint64_t *chosen(void) {
    if (ns[0] > HEADING)
        fail("no such state");
    return states[ns[0]];
}

/* `Put WHICH FROM NUMBER ..`: numbers of a state, 0 the reader's, 1 the writer's, 2 the heading. */
static void put_state(void) {
    for (size_t i = 2; i < many && ns[1] + i - 2 < COUNT; i++)
        chosen()[ns[1] + i - 2] = ns[i];
}

/* The reader's: `last KNOWN NUMBER`, `at KNOWN PLACE`, `phase NUMBER TYPE ANNOUNCED COLLECTED`, where count bytes are 1, 2 and 3. */
static void put_last(void) { states[READER][2] = ns[0], states[READER][3] = ns[1]; }
static void put_at(void) { states[READER][4] = ns[0], states[READER][5] = ns[1]; }

static void put_phase(void) {
    uint64_t *s = states[READER];
    int data = ns[0] > 5;
    s[6] = ns[0], s[7] = ns[1], s[8] = data ? ns[2] : 1, s[9] = data ? ns[3] : 2, s[10] = 3;
}

/* Settings with addresses from two seeds, and of the reserved bytes the last. */
static void settings_by(uint64_t *s, uint64_t reserved, uint64_t to, uint64_t source) {
    uint32_t x = (uint32_t)to, y = (uint32_t)source;
    for (int i = 0; i < 16; i++) {
        s[SETTINGS + 4 + i] = next(&x) & 255u;
        s[SETTINGS + 20 + i] = next(&y) & 255u;
    }
    memset(s + SETTINGS + 36, 0, 4 * sizeof *s);
    s[SETTINGS + 40] = reserved;
}

/* `settings CODE AAI BLOCK FLAG RESERVED DESTINATION SOURCE`: the reader's. */
static void put_settings(void) {
    memcpy(states[READER] + SETTINGS, ns, 4 * sizeof *ns);
    settings_by(states[READER], ns[4], ns[5], ns[6]);
}

/* ---- steps that call the writer; LENGTH words of the line are lent */
static uint32_t open_by(size_t length, uint64_t number, uint64_t timing) {
    uint8_t image[SDTI_STATE], settings[SDTI_SETTINGS];
    image_of(WRITER, image);
    settings_to(states[HEADING] + SETTINGS, settings);
    uint32_t answer = sdti_open(image, sizeof image, timing & 1, timing >> 1 & 1, (uint32_t)number, settings, sizeof settings, line, 2 * length);
    keep(WRITER, image);
    return answer;
}

/* `Open LENGTH NUMBER TIMING`, row `opened ANSWER REGISTER`: with the heading's settings. F is B0 of TIMING, V its B1. */
static void open_line(void) {
    size_t length = within(ns[0], LINE);
    put_row("opened", open_by(length, ns[1], ns[2]), length);
}

/* `open NUMBER TIMING AAI BLOCK FLAG DESTINATION SOURCE`, by a fresh writer of the same system and mode; no row. */
static void open_fresh(void) {
    uint64_t *s = states[HEADING];
    fresh_writer(states[WRITER][0], states[WRITER][1]);
    s[SETTINGS] = payload_words() == 1440 ? 1 : 2;
    memcpy(s + SETTINGS + 1, ns + 2, 3 * sizeof *ns);
    settings_by(s, 0, ns[5], ns[6]);
    open_by(line_words(), ns[0], ns[1]);
}

static uint32_t close_by(size_t length) {
    uint8_t image[SDTI_STATE];
    image_of(WRITER, image);
    uint32_t answer = sdti_close(image, sizeof image, line, 2 * length);
    keep(WRITER, image);
    return answer;
}

/* `Close LENGTH`, row `closed ANSWER REGISTER`. */
static void close_line(void) {
    size_t length = within(ns[0], LINE);
    put_row("closed", close_by(length), length);
}

/* `close`, row `close ANSWER REGISTER`: words that other steps laid the writer knows nothing of, so that with flag 01h the CRC is then put right. */
static void close_laid(void) {
    size_t length = line_words();
    uint32_t answer = close_by(length);
    if (answer == 0 && states[WRITER][SETTINGS + 3] == 1) {
        uint32_t c = register_after(line, length - payload_words(), length - 2);
        sdti_put_word(line, length - 2, data_form(c));
        sdti_put_word(line, length - 1, data_form(c >> 9));
    }
    put_row("close", answer, length);
}

/* `Add LENGTH TYPE COUNT`, row `added ANSWER REGISTER`: the values are the first COUNT words of the room. */
static void add(void) {
    uint8_t image[SDTI_STATE];
    size_t length = within(ns[0], LINE);
    image_of(WRITER, image);
    uint32_t answer = sdti_add(image, sizeof image, (uint32_t)ns[1], room, 2 * within(ns[2], ROOM), line, 2 * length);
    keep(WRITER, image);
    put_row("added", answer, length);
}

/* `Batch LENGTH COUNT`, row `batched FINISHED ANSWER REGISTER`: the list is the first COUNT words of the room, and behind its end words that are 0. */
static void add_many(void) {
    uint8_t image[SDTI_STATE];
    uint64_t finished = 0;
    size_t length = within(ns[0], LINE);
    image_of(WRITER, image);
    uint32_t answer = sdti_add_many(image, sizeof image, room, 2 * within(ns[1], LIST), line, 2 * length, &finished);
    keep(WRITER, image);
    printf("batched");
    put(finished);
    put_row("", answer, length);
}

/* `Gap LENGTH DID SECOND COUNT`, row `packed ANSWER REGISTER`: a packet; its values are the first COUNT words of the room. */
static void pack(void) {
    uint8_t image[SDTI_STATE];
    size_t length = within(ns[0], LINE);
    image_of(WRITER, image);
    uint32_t answer = sdti_packet(image, sizeof image, (uint8_t)ns[1], (uint8_t)ns[2], room, 2 * within(ns[3], ROOM), line, 2 * length);
    keep(WRITER, image);
    put_row("packed", answer, length);
}

/* ---- steps that call the reader */

/* `refused ANSWER`, `begun NUMBER JUMP`, `block TYPE LENGTH REGISTER`, `drop REASON`, `end`, `paused`. JUMP is a signed number or `unknown`; `dropped`
 * follows a refused or a begun that says so. REGISTER is that after the block's words. Whether a row's calls stop after it. */
static int put_event(struct sdti_event e) {
    static const char *const names[] = {"refused", "begun", "block", "drop", "end", "paused"};
    if (e.kind > SDTI_PAUSED)
        fail("no such event");
    printf(" %s", names[e.kind]);
    if (e.kind == SDTI_REFUSED || e.kind == SDTI_BEGUN || e.kind == SDTI_DROP)
        put(e.number);
    if (e.kind == SDTI_BEGUN && !e.jump_known)
        printf(" unknown");
    else if (e.kind == SDTI_BEGUN)
        printf(" %" PRId32, e.jump);
    if (e.dropped)
        printf(" dropped");
    if (e.kind == SDTI_BLOCK)
        printf(" %" PRIu32 " %" PRIu64 " %" PRIu32, e.type, e.length, register_after(room, 0, within(e.length, ROOM)));
    return e.kind == SDTI_REFUSED || e.kind == SDTI_END;
}

/* What a call reported; 1 and 2 write no event. */
static struct sdti_event event_by(uint32_t answer, const uint8_t *bytes) {
    struct sdti_event e = {.kind = SDTI_REFUSED, .number = answer};
    if (answer == 1 || answer == 2)
        return e;
    e = sdti_event_of(bytes);
    if (answer != (e.kind == SDTI_REFUSED ? e.number : 0))
        fail("answer and event differ");
    return e;
}

/* The state's part of a row: `last NUMBER|none place PLACE|none phase NUMBERS settings CODE AAI BLOCK FLAG`. */
static void put_reader(void) {
    static const size_t ends[] = {7, 7, 8, 9, 10, 11, 10};
    const uint64_t *s = states[READER];
    const char *names[] = {" last", " place"};
    for (int k = 0; k < 2; k++) {
        printf("%s", names[k]);
        if (s[2 + 2 * k])
            put(s[3 + 2 * k]);
        else
            printf(" none");
    }
    printf(" phase");
    put_all(s + 6, ends[within(s[6], 6)] - 6);
    printf(" settings");
    put_all(s + SETTINGS, 4);
    printf("\n");
}

/* `read TIMES LENGTH ROOM`, row `read EVENT .. STATE`: calls, as many, or until the line has ended or is refused; ROOM words of the room are lent. */
static void read_line(void) {
    uint8_t image[SDTI_STATE], event[SDTI_EVENT];
    size_t length = within(ns[1], LINE), lent = within(ns[2], ROOM);
    image_of(READER, image);
    printf("read");
    for (uint64_t left = ns[0]; left > 0; left--) {
        uint32_t answer = sdti_read(image, sizeof image, line, 2 * length, room, 2 * lent, event, sizeof event);
        if (put_event(event_by(answer, event)))
            break;
    }
    keep(READER, image);
    put_reader();
}

/* `under TIMES LENGTH ROOM ALLOWANCE BELOW`, row `under EVENT CONSUMED .. STATE`: the same with that allowance, or with so much below 2^64 - 1 where
 * BELOW is 1. */
static void read_within(void) {
    uint8_t image[SDTI_STATE], event[SDTI_EVENT];
    size_t length = within(ns[1], LINE), lent = within(ns[2], ROOM);
    uint64_t allowance = ns[4] ? UINT64_MAX - ns[3] : ns[3];
    image_of(READER, image);
    printf("under");
    for (uint64_t left = ns[0]; left > 0; left--) {
        uint32_t answer = sdti_read_within(image, sizeof image, allowance, line, 2 * length, room, 2 * lent, event, sizeof event);
        struct sdti_event e = event_by(answer, event);
        int last = put_event(e);
        put(e.consumed);
        if (last)
            break;
    }
    keep(READER, image);
    put_reader();
}

/* ---- steps that look, and steps that show */

/* `Line LENGTH SYSTEM MODE`, row `check REGISTER FAULT NUMBER SETTINGS`: the line check's whole answer; 1 writes no header. */
static void check(void) {
    uint8_t header[SDTI_HEADER] = {0};
    uint64_t values[SDTI_SETTINGS];
    size_t length = within(ns[0], LINE);
    uint32_t fault = sdti_check((uint8_t)ns[1], (uint8_t)ns[2], line, 2 * length, header, sizeof header);
    settings_from(sdti_header_settings(header), values);
    printf("check %" PRIu32 " %" PRIu32 " %" PRIu32, register_after(line, 0, length), fault, sdti_header_number(header));
    put_all(values, SDTI_SETTINGS);
    printf("\n");
}

/* `Find LENGTH SYSTEM MODE ROOM`, row `listed FAULT PACKETS WORDS GAP STOP REGISTER`: ROOM words of the room are lent for the list, and REGISTER is
 * that after them. */
static void find(void) {
    uint8_t listed[SDTI_LISTED] = {0};
    size_t lent = within(ns[3], ROOM);
    uint32_t fault = sdti_list((uint8_t)ns[1], (uint8_t)ns[2], line, 2 * within(ns[0], LINE), room, 2 * lent, listed, sizeof listed);
    struct sdti_listed l = sdti_listed_of(listed);
    const uint64_t row[] = {fault, l.packets, l.words, l.gap, l.stop, register_after(room, 0, lent)};
    printf("listed");
    put_all(row, 6);
    printf("\n");
}

/* `Impossible`, row `impossible READER WRITER`: 1 where a call that would change nothing answers 2: reading with allowance 0, and adding no blocks. */
static void impossible(void) {
    uint8_t reader[SDTI_STATE], writer[SDTI_STATE], event[SDTI_EVENT];
    uint64_t finished;
    image_of(READER, reader);
    image_of(WRITER, writer);
    uint32_t reads = sdti_read_within(reader, sizeof reader, 0, line, sdti_line_bytes(reader[1]), room, SDTI_ROOM, event, sizeof event);
    uint32_t adds = sdti_add_many(writer, sizeof writer, room, 0, line, sdti_line_bytes(writer[1]), &finished);
    if (reads == 1 || adds == 1)
        fail("a system or a mode that is not known");
    printf("impossible %d %d\n", reads == 2, adds == 2);
}

/* `Words INDEX COUNT`, row `words WORD ..`: words of the line; `view`, row `room REGISTER`: the register after all the room's words; `Tell WHICH`,
 * row `state NUMBER ..`. */
static void show_words(void) {
    size_t from = within(ns[0], LINE), to = from + within(ns[1], LINE - from);
    printf("words");
    for (size_t i = from; i < to; i++)
        put(sdti_word(line, i));
    printf("\n");
}

static void view(void) { printf("room %" PRIu32 "\n", register_after(room, 0, ROOM)); }

static void tell(void) {
    printf("state");
    put_all(chosen(), COUNT);
    printf("\n");
}

static const struct {
    const char *name;
    void (*play)(void);
} steps[] = {{"new", fresh},       {"index", put_index}, {"words", put_words}, {"data", put_data},     {"mix", put_mix},           {"Make", make_line},
             {"Room", make_room},  {"Put", put_state},   {"last", put_last},   {"at", put_at},         {"phase", put_phase},       {"settings", put_settings},
             {"open", open_fresh}, {"Open", open_line},  {"close", close_laid}, {"Close", close_line}, {"Add", add},               {"Batch", add_many},
             {"Gap", pack},        {"read", read_line},  {"under", read_within}, {"Line", check},      {"Find", find},             {"Impossible", impossible},
             {"Words", show_words}, {"view", view},      {"Tell", tell}};

/* Splits a step: its name, and its numbers; those that it has not are 0. */
static const char *split(char *text) {
    const char *name = strtok(text, " \n");
    memset(ns, 0, sizeof ns);
    many = 0;
    for (const char *word = strtok(NULL, " \n"); word; word = strtok(NULL, " \n")) {
        char *end;
        if (many == NUMBERS)
            fail("a step of too many numbers");
        ns[many++] = strtoull(word, &end, 10);
        if (*end)
            fail("no number");
    }
    return name;
}

int main(void) {
    static char text[1024];
    while (fgets(text, sizeof text, stdin)) {
        size_t i = 0, n = sizeof steps / sizeof *steps;
        if (*text == '#')
            continue;
        const char *name = split(text);
        while (i < n && strcmp(name ? name : "", steps[i].name))
            i++;
        if (i == n)
            fail("no such step");
        steps[i].play();
    }
    return fflush(stdout) || ferror(stdout);
}
