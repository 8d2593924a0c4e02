// The jobs of bench/twin.c that go through the calls of sdti.h: lines of system 0 written and read in memory. Linked with libsdti.a, and with the twin behind
// the same calls (twin_host.c), so that one program measures both.
//   host WHAT JOB MODE ROUNDS     WHAT: write, read, slice; JOB: a, b, c, h, j, k, l, and with write g and i; MODE: 8, 9
// What is printed is what the twin prints.
#include "sdti.h"
#include <stdio.h>
#include <stdlib.h>
#include <string.h>

enum { LINE = 3432, BATCH = 8, LINES = 525, MOST = 10000, LIST = 1800 };

static _Alignas(64) uint8_t lines[BATCH][LINE], room[SDTI_ROOM], values[2 * MOST];
static uint8_t state[SDTI_STATE], settings[SDTI_SETTINGS], event[SDTI_EVENT];

static uint32_t crc_of(const uint8_t *bytes, size_t words) {
    uint32_t c = 0x3FFFF;
    for (size_t i = 0; i < words; i++) {
        uint32_t x = (c ^ sdti_word(bytes, i)) & 0x3FF;
        c = c >> 10 ^ x << 8 ^ x << 4 ^ x << 3;
    }
    return c;
}

static int by_list(int job) { return job == 'g' || job == 'i'; }

// How many values a block has.
static size_t count_of(int job) { return job == 'a' ? MOST : job == 'b' ? 100 : job == 'j' ? 1 : job == 'k' ? 10 : job == 'l' ? 1000 : 4; }

static int write_line(int job, uint32_t number, uint8_t *line) {
    size_t n = count_of(job);
    uint64_t finished;
    if (sdti_open(state, sizeof state, false, false, number, settings, sizeof settings, line, LINE))
        return 0;
    if (by_list(job))
        sdti_add_many(state, sizeof state, values, 2 * LIST, line, LINE, &finished);
    else
        while (!sdti_add(state, sizeof state, 7, values, 2 * n, line, LINE))
            ;
    return sdti_close(state, sizeof state, line, LINE) == 0;
}

static uint32_t read_line(const uint8_t *line, uint32_t digest) {
    uint32_t kind = SDTI_BEGUN;
    while (kind != SDTI_END && kind != SDTI_REFUSED) {
        if (sdti_read(state, sizeof state, line, LINE, room, sizeof room, event, sizeof event))
            return 0;
        struct sdti_event e = sdti_event_of(event);
        kind = e.kind;
        if (kind == SDTI_BLOCK)
            digest = digest * 31 + 65536 + (uint32_t)e.length + sdti_word(room, 0);
    }
    return digest;
}

static uint32_t slice_line(const uint8_t *line, uint32_t digest) {
    static const uint32_t numbers[] = {1, 2, 65536, 3, 0, 4}; // of refused, begun, block, drop, end, paused
    uint32_t number = 2;
    while (number > 1) {
        if (sdti_read_within(state, sizeof state, 64, line, LINE, room, sizeof room, event, sizeof event))
            return 0;
        struct sdti_event e = sdti_event_of(event);
        number = numbers[e.kind] + (uint32_t)e.length;
        digest = digest * 31 + number + (uint32_t)e.consumed + sdti_word(room, 0);
    }
    return digest;
}

static void prepare(int job, int mode) {
    int fixed = job == 'c' || job == 'g';
    struct sdti_settings s = {.code = 1, .block = fixed ? 0x21 : 0xC1, .flag = !fixed};
    memset(s.destination, 1, sizeof s.destination);
    memset(s.source, 2, sizeof s.source);
    sdti_settings_to(&s, settings);
    for (size_t i = 0; i < MOST; i++)
        sdti_put_word(values, i, (uint16_t)((uint16_t)(i * 7 + 3) % (mode == 8 ? 256 : 512)));
    for (size_t i = MOST; by_list(job) && i-- > 0;)
        sdti_put_word(values, i, i % 6 == 0 ? 7 : i % 6 == 1 ? 4 : sdti_word(values, i % 6 - 2));
}

int main(int argc, char **argv) {
    if (argc != 5)
        return 1;
    int what = argv[1][0], job = argv[2][0], mode = atoi(argv[3]);
    long rounds = atol(argv[4]);
    uint32_t digest = 0, number = 0;
    prepare(job, mode);
    sdti_writer(0, (uint8_t)mode, state, sizeof state);
    for (long i = 0; i < (what == 'w' ? rounds : 1); i++)
        for (int k = 0; k < BATCH; k++, number++)
            if (!write_line(job, number % LINES + 1, lines[k]))
                return 1;
    if (what != 'w')
        sdti_reader(0, (uint8_t)mode, state, sizeof state);
    for (long i = 0; what != 'w' && i < rounds; i++)
        for (int k = 0; k < BATCH; k++)
            digest = what == 'r' ? read_line(lines[k], digest) : slice_line(lines[k], digest);
    printf("%u", crc_of(lines[0], BATCH * LINE / 2));
    if (what != 'w')
        printf(" %u", digest);
    printf("\n");
    return 0;
}
