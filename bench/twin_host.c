// The twin behind the calls of sdti.h, by hand in C: for bench/host.c. A state is an image of 80 bytes, judged byte by byte as the library judges it.
// On x86-64 words stand in memory as the calls have them, low byte first, and may stand anywhere: so no word is converted. As in the twin, the system is 0, a drop has no
// reason, and there are no packets.
#define TWIN_WITHOUT_JOBS
#include "twin.c"

#include "sdti.h"

typedef uint16_t __attribute__((may_alias, aligned(1))) Word;

static uint16_t *words(uint8_t *bytes) { return (uint16_t *)(Word *)bytes; }

static const uint16_t *words_in(const uint8_t *bytes) { return (const uint16_t *)(const Word *)bytes; }

static int any(const uint8_t *b, size_t n) {
    uint8_t found = 0;
    for (size_t i = 0; i < n; i++)
        found |= b[i];
    return found != 0;
}

static uint16_t two(const uint8_t *b) { return (uint16_t)(b[0] | b[1] << 8); }

static uint64_t eight(const uint8_t *b) { return sdti_number(b, 8); }

static void put(uint8_t *b, uint64_t n, int count) {
    for (int i = 0; i < count; i++)
        b[i] = (uint8_t)(n >> 8 * i);
}

// What both images share: a last number of 0, and a place beyond every line, are of no possible state.
static int frame_in(const uint8_t *b, uint8_t tag, unsigned *last, unsigned *place, Settings *s) {
    uint64_t at = eight(b + 8);
    if (b[0] != tag || b[3] > 1 || b[6] > 1 || (two(b + 4) != 0) != b[3] || (!b[6] && at) || at > PAYLOAD || b[78] | b[79])
        return 0;
    *last = two(b + 4);
    *place = b[6] ? (unsigned)at : NONE;
    memcpy(s, b + 37, sizeof *s);
    return 1;
}

// With no settings lent those of the image stay.
static void frame_out(uint8_t *b, uint8_t tag, unsigned system, int mode, unsigned last, unsigned place, const Settings *s) {
    memset(b, 0, 37);
    b[0] = tag;
    b[1] = (uint8_t)system;
    b[2] = (uint8_t)mode;
    b[3] = last != 0;
    put(b + 4, last, 2);
    b[6] = place != NONE;
    put(b + 8, place == NONE ? 0 : place, 8);
    if (s)
        memcpy(b + 37, s, sizeof *s);
    b[78] = b[79] = 0;
}

static_assert(sizeof(Settings) == SDTI_SETTINGS, "settings are their bytes");

// ---- reading
static int reader_in(const uint8_t *b, Reader *r) {
    r->system = b[1];
    r->mode = b[2];
    if (!frame_in(b, 'R', &r->last, &r->place, &r->settings) || b[7] > 6)
        return 0;
    r->kind = b[16] == 2 ? NULL_WORD : b[17];
    r->bytes = r->count = r->got = 0;
    r->phase = b[7] < 2 ? b[7] : b[7] < 6 ? COUNT : DATA;
    if (b[7] < 2)
        return !any(b + 16, 21);
    if (b[16] < 1 || b[16] > 2 || (b[16] == 2 && b[17]))
        return 0;
    if (r->phase == DATA) {
        uint64_t count = eight(b + 21), got = eight(b + 29);
        r->count = (unsigned)count;
        r->got = (unsigned)got;
        return !any(b + 18, 3) && count <= ROOM && got <= ROOM;
    }
    r->bytes = b[7] - 2;
    for (unsigned i = 0; i < r->bytes; i++)
        r->count |= (unsigned)b[18 + i] << 8 * i;
    return !any(b + 18 + r->bytes, 19 - r->bytes);
}

static void reader_out(uint8_t *b, const Reader *r, int whole) {
    frame_out(b, 'R', r->system, r->mode, r->last, r->place, whole ? &r->settings : NULL);
    b[7] = (uint8_t)(r->phase < COUNT ? r->phase : r->phase == COUNT ? 2 + r->bytes : 6);
    if (r->phase < COUNT)
        return;
    b[16] = r->kind == NULL_WORD ? 2 : 1;
    b[17] = (uint8_t)r->kind;
    if (r->phase == COUNT)
        put(b + 18, r->count, (int)r->bytes);
    else {
        put(b + 21, r->count, 8);
        put(b + 29, r->got, 8);
    }
}

// What is asked of the state before a call.
typedef struct {
    unsigned last;
    int busy;
} Before;

static Before before_of(const Reader *r) { return (Before){r->last, r->phase != IDLE}; }

// What is reported. The jump is folded by the frame's lines.
static void event_out(uint8_t *b, int event, Before before, const Reader *r, size_t consumed) {
    static const uint8_t kinds[] = {0, SDTI_BLOCK, SDTI_DROP, SDTI_BEGUN, SDTI_END, SDTI_PAUSED};
    memset(b, 0, SDTI_EVENT);
    b[0] = event < 0 ? SDTI_REFUSED : kinds[event];
    if (event < 0 || event == BEGUN) {
        b[1] = before.busy && r->phase == IDLE;
        put(b + 4, event < 0 ? (unsigned)-event : r->last, 4);
    }
    if (event == BEGUN && before.last) {
        int half = LINES / 2, jump = ((int)r->last - (int)(before.last % LINES + 1) + half + LINES) % LINES - half;
        b[2] = 1;
        b[3] = jump < 0;
        put(b + 8, (unsigned)abs(jump), 4);
    }
    if (event == 1) {
        put(b + 12, r->kind, 4);
        put(b + 16, r->got, 8);
    }
    put(b + 24, consumed, 8);
}

// 1 and 2 before anything is read.
static uint32_t early(const uint8_t *state, size_t state_len, size_t line_len, size_t more) {
    return state_len != SDTI_STATE || (line_len | more) % 2 || unfit(state[1], state[2], line_len / 2);
}

uint32_t sdti_reader(uint8_t system, uint8_t mode, uint8_t *state, size_t state_len) {
    Reader r = {.system = system, .place = NONE, .mode = mode};
    if (state_len != SDTI_STATE)
        return 1;
    reader_out(state, &r, 1);
    return 0;
}

// Settings are written where a line was begun: no other call changes them.
static uint32_t told(uint8_t *state, uint8_t *event, int given, Before before, const Reader *r, size_t consumed) {
    if (given == -1 || given == -2)
        return (uint32_t)-given;
    reader_out(state, r, given == BEGUN);
    event_out(event, given, before, r, consumed);
    return given < 0 ? (uint32_t)-given : 0;
}

uint32_t sdti_read(uint8_t *state, size_t state_len, const uint8_t *line, size_t line_len, uint8_t *room, size_t room_len, uint8_t *event, size_t event_len) {
    Reader r;
    if (early(state, state_len, line_len, room_len) || room_len != SDTI_ROOM || event_len != SDTI_EVENT)
        return 1;
    if (!reader_in(state, &r))
        return 2;
    Before before = before_of(&r);
    int given = read_call(&r, words_in(line), line_len / 2, words(room), room_len / 2);
    return told(state, event, given, before, &r, 0);
}

uint32_t sdti_read_within(uint8_t *state, size_t state_len, uint64_t allowance, const uint8_t *line, size_t line_len, uint8_t *room, size_t room_len, uint8_t *event,
                          size_t event_len) {
    Reader r;
    size_t consumed;
    if (early(state, state_len, line_len, room_len) || room_len != SDTI_ROOM || event_len != SDTI_EVENT)
        return 1;
    if (!reader_in(state, &r))
        return 2;
    Before before = before_of(&r);
    int given = read_within(&r, allowance, words_in(line), line_len / 2, words(room), room_len / 2, &consumed);
    return told(state, event, given, before, &r, consumed);
}

// ---- writing
static int writer_in(const uint8_t *b, Writer *w) {
    w->system = b[1];
    w->mode = b[2];
    if (!frame_in(b, 'W', &w->number, &w->place, &w->settings) || b[7] > 1 || any(b + 27, 10) || b[16] | b[20])
        return 0;
    w->kind = b[17];
    w->n = two(b + 18);
    w->laid = two(b + 21);
    w->crc = (uint32_t)sdti_number(b + 23, 4);
    return b[7] ? w->laid != 0 : !any(b + 17, 6);
}

static void writer_out(uint8_t *b, const Writer *w, int whole) {
    frame_out(b, 'W', w->system, w->mode, w->number, w->place, whole ? &w->settings : NULL);
    put(b + 23, w->crc, 4);
    if (!w->laid)
        return;
    b[7] = 1;
    b[17] = (uint8_t)w->kind;
    put(b + 18, w->n, 2);
    put(b + 21, w->laid, 2);
}

uint32_t sdti_writer(uint8_t system, uint8_t mode, uint8_t *state, size_t state_len) {
    Writer w = {.system = system, .place = NONE, .mode = mode, .crc = CRC_START};
    if (state_len != SDTI_STATE)
        return 1;
    writer_out(state, &w, 1);
    return 0;
}

// Any refusal leaves the state as it was. Opening alone changes the settings.
static uint32_t wrote(uint8_t *state, int fault, int finished, const Writer *w, int opened) {
    if (fault)
        return (uint32_t)fault;
    writer_out(state, w, opened);
    return finished ? 0 : SDTI_UNFINISHED;
}

// f and v are 0, as the twin's line has them.
uint32_t sdti_open(uint8_t *state, size_t state_len, bool f, bool v, uint32_t number, const uint8_t *settings, size_t settings_len, uint8_t *line, size_t line_len) {
    Writer w;
    Settings s;
    if (early(state, state_len, line_len, 0) || settings_len != SDTI_SETTINGS || f || v)
        return 1;
    if (!writer_in(state, &w))
        return 2;
    memcpy(&s, settings, sizeof s);
    int fault = open_line(&w, &s, number, words(line), line_len / 2);
    return wrote(state, fault, 1, &w, 1);
}

uint32_t sdti_add(uint8_t *state, size_t state_len, uint32_t kind, const uint8_t *values, size_t values_len, uint8_t *line, size_t line_len) {
    Writer w;
    int finished = 0;
    if (early(state, state_len, line_len, values_len))
        return 1;
    if (!writer_in(state, &w))
        return 2;
    int fault = add_block(&w, kind, words_in(values), values_len / 2, words(line), line_len / 2, &finished);
    return wrote(state, fault, finished, &w, 0);
}

// What was laid before a refusal stays laid.
uint32_t sdti_add_many(uint8_t *state, size_t state_len, const uint8_t *blocks, size_t blocks_len, uint8_t *line, size_t line_len, uint64_t *finished) {
    Writer w;
    size_t many;
    if (early(state, state_len, line_len, blocks_len))
        return 1;
    if (!writer_in(state, &w))
        return 2;
    int fault = add_blocks(&w, words_in(blocks), blocks_len / 2, words(line), line_len / 2, &many);
    if (fault == 1 || fault == 2)
        return (uint32_t)fault;
    *finished = many;
    writer_out(state, &w, 0);
    return fault ? (uint32_t)fault : blocks_len && w.laid ? SDTI_UNFINISHED : 0;
}

uint32_t sdti_close(uint8_t *state, size_t state_len, uint8_t *line, size_t line_len) {
    Writer w;
    if (early(state, state_len, line_len, 0))
        return 1;
    if (!writer_in(state, &w))
        return 2;
    int fault = close_line(&w, words(line), line_len / 2);
    return wrote(state, fault, 1, &w, 0);
}
