// The jobs of the programs `pace`, `pacereads` and `slices`, written by hand in C for speed: lines of system 0 written, read and checked in memory.
//   twin WHAT JOB MODE ROUNDS     WHAT: write, read, slice (read in slices of 64 words), check, lines (the lines themselves are printed);
//                                 JOB: a to n; MODE: 8, 9
// Jobs: a variable blocks of 10,000 values, flag 01h; b of 100 values; c fixed blocks 21h, flag 00h; d filler lines, flag 01h;
// with WHAT write alone: e, f a filler line, or a line full of a's blocks, closed again and again; g c's blocks, those of a line in one list;
// h variable blocks of 4 values, flag 01h; i the same in one list; j, k, l variable blocks of 1, 10 and 1,000 values, flag 01h;
// not with WHAT write: m, n d's lines, spoiled so that they are refused with 3 and with 16.
// A round is eight lines. What is printed is the CRC register after all words, and with read, slice and check a digest of what was told.
// Eight words are a vector (SSE2's and Arm's; the compiler's own notation for them). Areas and runs go by chunks, and what is rare is looked for only in a chunk
// that is not plain. Where many words do not fill the last vector or chunk, that stands over words that were taken already. Words lie in memory low byte first.
#include <stdint.h>
#include <stdio.h>
#include <stdlib.h>
#include <string.h>

enum { LENGTH = 1716, PAYLOAD = 1440, START = LENGTH - PAYLOAD, LINES = 525, BATCH = 8, ROOM = 16384, MOST = 10000 };
enum { SYSTEM = 0 }; // the one that the twin knows; LENGTH, PAYLOAD and LINES are its own
enum { SEPARATOR = 0x309, END_CODE = 0x30A, NULL_WORD = 0x100, FILLER = 0x200, VARIABLE = 0xC1 };
enum { CHUNK = 32 };

typedef struct {
    uint8_t code, aai, to[16], from[16], block, flag, reserved[5];
} Settings;

static size_t min(size_t a, size_t b) { return a < b ? a : b; }

// ---- words
// The byte form of every value: for single words a load, where a loop over many has shifts.
#define ONE(v, p) ((p) ? 0x100 : 0x200) + (v)
#define FOUR(v, p) ONE(v, p), ONE(v + 1, !(p)), ONE(v + 2, !(p)), ONE(v + 3, p)
#define SIXTEEN(v, p) FOUR(v, p), FOUR(v + 4, !(p)), FOUR(v + 8, !(p)), FOUR(v + 12, p)
#define SIXTY_FOUR(v, p) SIXTEEN(v, p), SIXTEEN(v + 16, !(p)), SIXTEEN(v + 32, !(p)), SIXTEEN(v + 48, p)
static const uint16_t BYTE_FORM[256] = {SIXTY_FOUR(0, 0), SIXTY_FOUR(64, 1), SIXTY_FOUR(128, 1), SIXTY_FOUR(192, 0)};

static uint16_t byte_word(unsigned v) { return BYTE_FORM[v & 0xFF]; }

static uint16_t data_word(unsigned v) { return (uint16_t)((v & 0x1FF) | (~v & 0x100) << 1); }

static int is_byte(unsigned w) { return byte_word(w) == w; }

static int is_code(unsigned w) { return w - SEPARATOR < 2; }

// ---- eight words, or sixteen bytes, at a time
typedef uint16_t Words __attribute__((vector_size(16)));
typedef uint8_t Bytes __attribute__((vector_size(16)));
typedef uint64_t Halves __attribute__((vector_size(16)));

static inline Words load(const uint16_t *w) {
    Words x;
    memcpy(&x, w, sizeof x);
    return x;
}

static inline void store(uint16_t *w, Words x) { memcpy(w, &x, sizeof x); }

static inline int is_any(Words x) {
    Halves h = (Halves)x;
    return (h[0] | h[1]) != 0;
}

// The low bytes of sixteen words, and the high ones; and words of both.
static inline Bytes lows(Words a, Words b) {
    return __builtin_shuffle((Bytes)a, (Bytes)b, (Bytes){0, 2, 4, 6, 8, 10, 12, 14, 16, 18, 20, 22, 24, 26, 28, 30});
}

static inline Bytes highs(Words a, Words b) {
    return __builtin_shuffle((Bytes)a, (Bytes)b, (Bytes){1, 3, 5, 7, 9, 11, 13, 15, 17, 19, 21, 23, 25, 27, 29, 31});
}

static inline Words first_of(Bytes low, Bytes high) {
    return (Words)__builtin_shuffle(low, high, (Bytes){0, 16, 1, 17, 2, 18, 3, 19, 4, 20, 5, 21, 6, 22, 7, 23});
}

static inline Words second_of(Bytes low, Bytes high) {
    return (Words)__builtin_shuffle(low, high, (Bytes){8, 24, 9, 25, 10, 26, 11, 27, 12, 28, 13, 29, 14, 30, 15, 31});
}

// What stands above a byte in byte form: 2, less the exclusive or of its bits.
static inline Bytes above(Bytes b) {
    b ^= b << 4;
    b ^= b << 2;
    b ^= b << 1;
    return 2 - (b >> 7);
}

// 0 of sixteen words in byte form.
static inline Words not_bytes(Words a, Words b) { return (Words)(above(lows(a, b)) ^ highs(a, b)); }

// Sixteen words or more are in byte form.
static int all_byte(const uint16_t *w, size_t n) {
    Words bad = not_bytes(load(w + n - 16), load(w + n - 8));
    for (size_t i = 0; i + 16 <= n; i += 16)
        bad |= not_bytes(load(w + i), load(w + i + 8));
    return !is_any(bad);
}

static int is_data(unsigned w) { return w - 0x100 < 0x200; }

// ---- the CRC: what is fed back comes in again after 13 bits at the earliest, so sixty bits are a few shifts
static uint64_t fed(uint64_t x, int a, int b, int c) { return (x ^ x << a) ^ (x << b ^ x << c); }

static uint64_t after_sixty(uint64_t x) {
    x = fed(fed(fed(x, 13, 14, 18), 26, 28, 36), 52, 56, 60) & 0xFFFFFFFFFFFFFFF;
    return x >> 42 ^ x >> 46 ^ x >> 47;
}

// The ten bits of four words side by side.
static uint64_t beside(uint64_t x) {
    x = (x & 0x3FF000003FF) | (x >> 6 & 0xFFC00000FFC00);
    return (x & 0xFFFFF) | (x >> 12 & 0xFFFFF00000);
}

static uint64_t four(const uint16_t *w) {
    uint64_t x;
    memcpy(&x, w, sizeof x);
    return x;
}

static uint64_t forty(const uint16_t *w) { return beside(four(w)); }

static uint64_t twenty(const uint16_t *w) { return (w[0] & 0x3FFu) | (w[1] & 0x3FFu) << 10; }

static uint64_t sixty(const uint16_t *w) { return forty(w) | twenty(w + 4) << 40; }

static uint64_t crc_word(uint64_t c, unsigned w) {
    uint64_t x = (c ^ w) & 0x3FF;
    return c >> 10 ^ x << 8 ^ x << 4 ^ x << 3;
}

// Less than six words: under them stand so many bits that are 0 that there are sixty.
static uint64_t crc_rest(uint64_t c, const uint16_t *w, size_t n) {
    size_t i = 0, up = 60 - 10 * n;
    if (n < 2)
        return n == 0 ? c : crc_word(c, w[0]);
    if (n & 4)
        c ^= forty(w), i = 4;
    if (n & 2)
        c ^= twenty(w + i) << 10 * i, i += 2;
    if (n & 1)
        c ^= (uint64_t)(w[i] & 0x3FF) << 10 * i;
    return after_sixty(c << up);
}

// Eighteen words at a time, behind those that are too many: what they do by themselves waits for nothing, and 180 bits that are 0 do what 37, 42 and 48 do
// together, in one step.
static uint32_t crc_few(uint64_t c, const uint16_t *w, size_t n) {
    size_t i = n % 6;
    c = crc_rest(c, w, i);
    for (; i < n % 18; i += 6)
        c = after_sixty(c ^ sixty(w + i));
    for (; i < n; i += 18) {
        uint64_t own = after_sixty(after_sixty(after_sixty(sixty(w + i)) ^ sixty(w + i + 6)) ^ sixty(w + i + 12));
        c = after_sixty(c << 23 ^ c << 18 ^ c << 12) ^ own;
    }
    return (uint32_t)c;
}

// x^3040 + x^1520 + x^1280 + 1 is a multiple of G, and so with half of each: so a word counts as much as it would 152, 176 and 304 places further on, all three.
enum { FOLD_FROM = 456, FOLD_TO = 1920 };

// Each word of w xored with those that stand 304, 176 and 152 places before it, but none of the last 304 of f: these are left.
static void fold(const uint16_t *restrict w, size_t n, uint32_t c, uint16_t *restrict f) {
    size_t i = 0, left = n - 304;
    memcpy(f, w, 152 * sizeof *f);
    f[0] ^= c & 0x3FF;
    f[1] ^= (uint16_t)(c >> 10);
    for (i = 152; i < 176; i++)
        f[i] = w[i] ^ f[i - 152];
    for (; i < 304; i++)
        f[i] = w[i] ^ f[i - 152] ^ f[i - 176];
    for (; i < left + 152; i++)
        f[i] = w[i] ^ f[i - 152] ^ f[i - 176] ^ f[i - 304];
    for (; i < left + 176; i++)
        f[i] = w[i] ^ f[i - 176] ^ f[i - 304];
    for (; i < n; i++)
        f[i] = w[i] ^ f[i - 304];
}

// 76 k words in half as many, y, by distances of 19 k, 22 k and 38 k. What the first 19 k get is nothing, so that no word waits for another.
static inline void fold_again(uint16_t *restrict f, size_t k, uint16_t *restrict y) {
    size_t a = 19 * k, b = 22 * k, z = 38 * k;
    for (size_t i = a; i < b; i++)
        f[i] ^= f[i - a];
    for (size_t i = b; i < z; i++)
        f[i] ^= f[i - a] ^ f[i - b];
    for (size_t i = 0; i < a; i++)
        y[i] = f[i + z] ^ f[i] ^ f[i + a] ^ f[i + z - b];
    for (size_t i = a; i < b; i++)
        y[i] = f[i + z] ^ f[i] ^ f[i + z - b];
    for (size_t i = b; i < z; i++)
        y[i] = f[i + z] ^ f[i];
}

static uint32_t crc_folded(uint32_t c, const uint16_t *w, size_t n) {
    uint16_t f[FOLD_TO], y[152], z[76];
    fold(w, n, c, f);
    fold_again(f + n - 304, 4, y);
    fold_again(y, 2, z);
    return crc_few(0, z, 76);
}

// Any number of words.
static uint32_t crc_on(uint32_t c, const uint16_t *w, size_t n) {
    for (; n > FOLD_TO; n -= FOLD_TO, w += FOLD_TO)
        c = crc_folded(c, w, FOLD_TO);
    return n < FOLD_FROM ? crc_few(c, w, n) : crc_folded(c, w, n);
}

// And over n words of filler: 156 words that are 0 do what 25, 48 and 57 bits that are 0 do together.
static uint32_t crc_filler(uint64_t c, size_t n) {
    static const uint16_t few[] = {FILLER, FILLER, FILLER, FILLER, FILLER, FILLER};
    for (; n >= 156; n -= 156)
        c = after_sixty(c << 35 ^ c << 12 ^ c << 3) ^ 0x314C3;
    for (; n >= 6; n -= 6)
        c = after_sixty(c ^ 0x802008020080200);
    return (uint32_t)crc_rest(c, few, n);
}

enum { CRC_START = 0x3FFFF };

static uint32_t crc_of(const uint16_t *w, size_t n) { return crc_on(CRC_START, w, n); }

static void register_words(uint32_t c, uint16_t *out) {
    out[0] = data_word(c);
    out[1] = data_word(c >> 9);
}

// What stands there is the register's two words.
static int is_register(uint32_t c, const uint16_t *w) { return w[0] == data_word(c) && w[1] == data_word(c >> 9); }

// Unknown system or mode, or line not L long.
static int unfit(unsigned system, int mode, size_t length) { return system != SYSTEM || (mode != 8 && mode != 9) || length != LENGTH; }

// ---- settings
// The fixed blocks by B5-B0 of the block type: size with the type word, and places at 270; and for a product in place of a division by the size.
#define ROW(size, places) {size, places, (1 << 22) / (size) + 1}
static const struct {
    uint16_t size, places;
    uint32_t by;
} FIXED[64] = {
    [0x01] = ROW(1438, 1), [0x02] = ROW(719, 2),  [0x03] = ROW(479, 3),  [0x04] = ROW(359, 4),  [0x09] = ROW(1918, 0), [0x0A] = ROW(959, 1),
    [0x0B] = ROW(639, 2),  [0x11] = ROW(766, 1),  [0x12] = ROW(383, 3),  [0x13] = ROW(255, 5),  [0x14] = ROW(191, 7),  [0x21] = ROW(5, 287),
    [0x22] = ROW(9, 159),  [0x23] = ROW(13, 110), [0x24] = ROW(17, 84),  [0x25] = ROW(33, 43),  [0x26] = ROW(49, 29),  [0x27] = ROW(65, 22),
    [0x28] = ROW(97, 14),  [0x29] = ROW(129, 11), [0x2A] = ROW(193, 7),  [0x2B] = ROW(257, 5),  [0x2C] = ROW(385, 3),  [0x2D] = ROW(513, 2),
    [0x2E] = ROW(609, 2),  [0x31] = ROW(62, 23),  [0x32] = ROW(153, 9),  [0x33] = ROW(171, 8),  [0x34] = ROW(177, 8),  [0x35] = ROW(199, 7),
    [0x36] = ROW(256, 5),  [0x37] = ROW(144, 10), [0x38] = ROW(160, 9),
};

static size_t area_of(const Settings *s) { return s->flag == 1 ? PAYLOAD - 2 : PAYLOAD; }

static size_t size_of(const Settings *s) { return FIXED[s->block & 63].size; }

// Where blocks end in the payload.
static size_t end_of(const Settings *s) {
    if (s->block == VARIABLE)
        return area_of(s);
    return (size_t)FIXED[s->block & 63].size * FIXED[s->block & 63].places;
}

// A place up to 1,920, as a product.
static unsigned divided(size_t place, const Settings *s) { return (unsigned)place * FIXED[s->block & 63].by >> 22; }

// The lowest of 10 to 13 that holds, or 0. The reserved bytes are not asked.
static int settings_fault(const Settings *s) {
    if (s->code != 1)
        return 10;
    if (s->aai > 1)
        return 11;
    if (s->block != VARIABLE && (s->block >= 128 || !FIXED[s->block & 63].places || (s->flag == 1 && end_of(s) == PAYLOAD)))
        return 12;
    return s->flag > 1 ? 13 : 0;
}

// What a writer and a reader both hold is possible: busy says an unfinished block or an open phase, place is NONE where no line is begun.
enum { NONE = 0xFFFF };

static int possible(unsigned last, const Settings *s, unsigned place, int busy) {
    if (!last)
        return !busy && place == NONE;
    if (last > LINES || settings_fault(s) || (busy && s->block != VARIABLE))
        return 0;
    if (place == NONE)
        return 1;
    return place <= end_of(s) && (s->block == VARIABLE || divided(place, s) * size_of(s) == place);
}

// ---- writing
static const uint16_t EAV[4] = {0x274, 0x2D8, 0x368, 0x3C4}, SAV[4] = {0x200, 0x2AC, 0x31C, 0x3B0}; // the fourth word, by F and V

static void timing(uint16_t fourth, uint16_t *out) {
    out[0] = 0x3FF;
    out[1] = out[2] = 0;
    out[3] = fourth;
}

static unsigned checksum(const uint16_t *w) {
    unsigned sum = 0;
    for (size_t i = 0; i < 49; i++)
        sum += w[i] & 0x1FF;
    return data_word(sum);
}

static const uint16_t FIRST_SIX[6] = {0x000, 0x3FF, 0x3FF, 0x140, 0x101, 0x22E};

static void put_address(const uint8_t *b, uint16_t *out) {
    Bytes low;
    memcpy(&low, b, sizeof low);
    store(out, first_of(low, above(low)));
    store(out + 8, second_of(low, above(low)));
}

static void header(unsigned number, const Settings *s, uint16_t *h) {
    memcpy(h, FIRST_SIX, sizeof FIRST_SIX);
    h[6] = byte_word(number);
    h[7] = byte_word(number >> 8 & 3);
    register_words((uint32_t)crc_rest(CRC_START, h + 3, 5), h + 8);
    h[10] = byte_word(s->code | s->aai << 4u);
    put_address(s->to, h + 11);
    put_address(s->from, h + 27);
    h[43] = byte_word(s->block);
    h[44] = byte_word(s->flag);
    for (int i = 0; i < 5; i++)
        h[45 + i] = byte_word(s->reserved[i]);
    register_words(crc_few(CRC_START, h + 10, 40), h + 50);
    h[52] = (uint16_t)checksum(h + 3);
}

typedef struct {
    unsigned system, number, kind, n, laid, place; // an unfinished block has laid > 0
    int mode;
    uint32_t crc; // of the area words laid so far in this line
    Settings settings;
} Writer;

static int writer_fault(const Writer *w, size_t length) {
    if (unfit(w->system, w->mode, length))
        return 1;
    if (!possible(w->number, &w->settings, w->place, w->laid != 0) || (w->laid && (w->n > ROOM || w->laid > w->n + 6)) || w->crc > 0x3FFFF)
        return 2;
    return 0;
}

// Eight words again and again.
static inline void put_filler(Words eight, uint16_t *out, size_t n) {
#pragma GCC unroll 9
    for (size_t i = 0; i < n; i += 8)
        store(out + i, eight);
}

// The lowest of 1, 2, 9 to 13 and 20 that holds, or 0.
static int open_fault(const Writer *w, const Settings *s, unsigned number, size_t length) {
    int fault = writer_fault(w, length);
    if (fault)
        return fault;
    if (number < 1 || number > LINES)
        return 9;
    fault = settings_fault(s);
    if (fault)
        return fault;
    return w->place != NONE || (w->laid && (memcmp(s, &w->settings, sizeof *s) || number != w->number % LINES + 1)) ? 20 : 0;
}

// Each of the three answers 0, or 01's number.
static int open_line(Writer *w, const Settings *s, unsigned number, uint16_t *line, size_t length) {
    int fault = open_fault(w, s, number, length);
    if (fault)
        return fault;
    timing(EAV[0], line);
    put_filler((Words){0x200, 0x040, 0x200, 0x040, 0x200, 0x040, 0x200, 0x040}, line + 56, START - 60); // and the header's last word before it
    header(number, s, line + 4);
    timing(SAV[0], line + START - 4);
    put_filler((Words){0} + FILLER, line + START, PAYLOAD);
    w->number = number;
    w->settings = *s;
    w->place = 0;
    w->crc = CRC_START;
    return 0;
}

// Four values at a time.
static uint64_t four_bytes(uint64_t v) {
    uint64_t x = v ^ v << 4;
    x ^= x << 2;
    return v + 0x200020002000200 - ((x << 1 ^ x << 2) & 0x100010001000100);
}

static uint64_t four_nines(uint64_t v) { return v | (~v & 0x100010001000100) << 1; }

static uint16_t word_of(int mode, unsigned v) { return mode == 8 ? byte_word(v) : data_word(v); }

// Few values, which no fault has, and the CRC taken on over their words and a last one. The words are fed as they are made: what was just stored could not
// be loaded otherwise than it was stored.
static uint64_t put_few(int mode, const uint16_t *v, size_t n, uint64_t c, uint16_t *out) {
    for (; n >= 4; n -= 4, v += 4, out += 4) {
        uint64_t x = mode == 8 ? four_bytes(four(v)) : four_nines(four(v));
        memcpy(out, &x, sizeof x);
        c = after_sixty((c ^ beside(x)) << 20);
    }
    for (; n > 0; n--, v++, out++) {
        *out = word_of(mode, *v);
        c = crc_word(c, *out);
    }
    return c;
}

static inline void put_sixteen(int mode, const uint16_t *v, uint16_t *out) {
    Words x = load(v), y = load(v + 8);
    if (mode == 8) {
        Bytes low = lows(x, y), high = above(low);
        x = first_of(low, high);
        y = second_of(low, high);
    } else {
        x |= (~x & 0x100) << 1;
        y |= (~y & 0x100) << 1;
    }
    store(out, x);
    store(out + 8, y);
}

// Sixteen values or more.
static inline void put_many(int mode, const uint16_t *v, size_t n, uint16_t *out) {
    for (size_t i = 0; i + 16 <= n; i += 16)
        put_sixteen(mode, v + i, out + i);
    put_sixteen(mode, v + n - 16, out + n - 16);
}

static void put_values(int mode, const uint16_t *v, size_t n, uint16_t *out) {
    if (n < 16)
        put_few(mode, v, n, 0, out);
    else if (mode == 8)
        put_many(8, v, n, out);
    else
        put_many(9, v, n, out);
}

// All values are below a power of two where their or is. Eight vectors side by side, so that no or waits for the one before it.
static Words or_of_many(const uint16_t *v, size_t n) {
    Words a = {0}, b = a, c = a, d = a, e = a, f = a, g = a, h = a;
    for (size_t i = 0; i < n; i += 64) {
        const uint16_t *x = v + min(i, n - 64);
        a |= load(x), b |= load(x + 8), c |= load(x + 16), d |= load(x + 24);
        e |= load(x + 32), f |= load(x + 40), g |= load(x + 48), h |= load(x + 56);
    }
    return (a | b | c | d) | (e | f | g | h);
}

static uint64_t or_of_few(const uint16_t *v, size_t n) {
    uint64_t all = 0;
    for (; n >= 4; n -= 4, v += 4)
        all |= four(v);
    for (; n > 0; n--)
        all |= v[n - 1];
    return all;
}

static int all_below(unsigned limit, const uint16_t *v, size_t n) {
    uint64_t above = limit == 256 ? 0xFF00FF00FF00FF00 : 0xFE00FE00FE00FE00;
    if (n < 64)
        return !(or_of_few(v, n) & above);
    Halves all = (Halves)or_of_many(v, n);
    return !((all[0] | all[1]) & above);
}

// 17 to 20.
static int block_fault(const Writer *w, unsigned kind, const uint16_t *v, size_t n) {
    int fixed = w->place != NONE && w->settings.block != VARIABLE;
    if (!all_below(w->mode == 8 ? 256 : 512, v, n))
        return 17;
    if (n > ROOM || kind > 255 || (fixed && (n + 1 != size_of(&w->settings) || !kind)))
        return 18;
    if (w->place != NONE && w->place >= end_of(&w->settings))
        return 19;
    return w->place == NONE || (w->laid && (w->kind != kind || w->n != n)) ? 20 : 0;
}

enum { FEW = 16 };

// A place of a fixed line.
static void lay_place(Writer *w, unsigned kind, const uint16_t *v, size_t n, uint16_t *at) {
    at[0] = byte_word(kind);
    if (n < FEW)
        w->crc = (uint32_t)put_few(w->mode, v, n, crc_word(w->crc, at[0]), at + 1);
    else {
        put_values(w->mode, v, n, at + 1);
        w->crc = crc_on(w->crc, at, n + 1);
    }
    w->place += (unsigned)n + 1;
}

// The six words before the values, and the CRC taken on over them. The last two are 200h, because n is at most 16,384.
static uint64_t put_head(unsigned kind, size_t n, uint64_t c, uint16_t *at) {
    uint64_t x = SEPARATOR | (uint64_t)byte_word(kind) << 16 | (uint64_t)byte_word((unsigned)n) << 32 | (uint64_t)byte_word((unsigned)n >> 8) << 48;
    memcpy(at, &x, sizeof x);
    at[4] = at[5] = FILLER;
    return after_sixty(c ^ beside(x) ^ 0x802000000000000);
}

// A whole variable block.
static void lay_whole(Writer *w, unsigned kind, const uint16_t *v, size_t n, uint16_t *at) {
    uint64_t c = put_head(kind, n, w->crc, at);
    if (n < FEW)
        c = put_few(w->mode, v, n, c, at + 6);
    else {
        put_values(w->mode, v, n, at + 6);
        c = crc_on((uint32_t)c, at + 6, n);
    }
    at[n + 6] = END_CODE;
    w->crc = (uint32_t)crc_word(c, END_CODE);
    w->place += (unsigned)n + 7;
}

// As many words of a variable block as fit, from the one on that was not laid before.
static void lay_part(Writer *w, unsigned kind, const uint16_t *v, size_t n, uint16_t *at, size_t many) {
    uint16_t head[6];
    size_t done = 0;
    put_head(kind, n, 0, head);
    for (; done < many && w->laid < 6; done++)
        at[done] = head[w->laid++];
    size_t values = min(many - done, n + 6 - w->laid);
    put_values(w->mode, v + (w->laid - 6), values, at + done);
    w->laid += (unsigned)values;
    done += values;
    if (done < many) {
        at[done] = END_CODE;
        w->laid++;
    }
    w->crc = crc_on(w->crc, at, many);
    w->place += (unsigned)many;
    w->kind = kind;
    w->n = (unsigned)n;
}

// Lays what fits of the block, where neither 1 nor 2 holds; says whether it is finished.
static int lay_block(Writer *w, unsigned kind, const uint16_t *v, size_t n, uint16_t *line, int *finished) {
    int fault = block_fault(w, kind, v, n);
    if (fault)
        return fault;
    uint16_t *at = line + START + w->place;
    *finished = 1;
    if (w->settings.block != VARIABLE) {
        lay_place(w, kind, v, n, at);
        return 0;
    }
    size_t room = area_of(&w->settings) - w->place, left = n + 7 - w->laid;
    if (!w->laid && left <= room) {
        lay_whole(w, kind, v, n, at);
        return 0;
    }
    lay_part(w, kind, v, n, at, min(room, left));
    *finished = w->laid == n + 7;
    if (*finished)
        w->laid = 0;
    return 0;
}

static int add_block(Writer *w, unsigned kind, const uint16_t *v, size_t n, uint16_t *line, size_t length, int *finished) {
    int fault = writer_fault(w, length);
    return fault ? fault : lay_block(w, kind, v, n, line, finished);
}

// The blocks of a list, until one is refused or unfinished: how many were finished. A broken-off entry is 28.
static int add_blocks(Writer *w, const uint16_t *list, size_t words, uint16_t *line, size_t length, size_t *finished) {
    int fault = writer_fault(w, length), whole = 1;
    *finished = 0;
    for (size_t i = 0; !fault && i < words; i += 2 + list[i + 1]) {
        if (words - i < 2 || words - i - 2 < list[i + 1])
            return 28;
        fault = lay_block(w, list[i], list + i + 2, list[i + 1], line, &whole);
        if (fault || !whole)
            break;
        ++*finished;
    }
    return fault;
}

static int close_line(Writer *w, uint16_t *line, size_t length) {
    int fault = writer_fault(w, length);
    if (!fault && (w->place == NONE || (w->laid && w->place < end_of(&w->settings))))
        fault = 20;
    if (fault)
        return fault;
    if (w->settings.flag == 1)
        register_words(crc_filler(w->crc, PAYLOAD - 2 - w->place), line + LENGTH - 2);
    w->place = NONE;
    w->crc = CRC_START;
    return 0;
}

// ---- checking
// Eight words of a chunk that is not plain: 100h in 8-bit mode, and codes in variable lines, may stand there. 0 where all may.
static inline Words illegal(int mode, int variable, Words x) {
    Words null = (Words)(x == NULL_WORD), code = (Words)(x == SEPARATOR) | (Words)(x == END_CODE), bad = (x - 0x100) & 0xFE00;
    if (mode == 8)
        bad = (bad | (((Words)above((Bytes)x) << 8 ^ x) & 0xFF00)) & ~null;
    return variable ? bad & ~code : bad;
}

// A function apart, so that a plain chunk does not pay for it.
__attribute__((noinline)) static int legal_chunk(int mode, int variable, const uint16_t *w) {
    Words bad = {0};
    for (size_t i = 0; i < CHUNK; i += 8)
        bad |= illegal(mode, variable, load(w + i));
    return !is_any(bad);
}

// 0 where all words of the chunk have the mode's form.
static inline Words unplain(int mode, const uint16_t *w) {
    if (mode == 8)
        return not_bytes(load(w), load(w + 8)) | not_bytes(load(w + 16), load(w + 24));
    return ((load(w) - 0x100) | (load(w + 8) - 0x100) | (load(w + 16) - 0x100) | (load(w + 24) - 0x100)) & 0xFE00;
}

static inline int legal_in(int mode, int variable, const uint16_t *w, size_t n) {
    for (size_t i = 0; i < n; i += CHUNK) {
        const uint16_t *x = w + min(i, n - CHUNK);
        if (is_any(unplain(mode, x)) && !legal_chunk(mode, variable, x))
            return 0;
    }
    return 1;
}

// A loop for each mode.
static int legal_area(int mode, int variable, const uint16_t *w, size_t n) { return mode == 8 ? legal_in(8, variable, w, n) : legal_in(9, variable, w, n); }

// EAV and SAV stand there, and have the same F and V.
static int timed(const uint16_t *line) {
    const uint16_t *e = line, *s = line + START - 4;
    unsigned fv = e[3] >> 7 & 3;
    return e[0] == 0x3FF && !(e[1] | e[2]) && e[3] == EAV[fv] && s[0] == 0x3FF && !(s[1] | s[2]) && s[3] == SAV[fv];
}

// The lowest of 3 to 9 that holds, or 0.
static int head_fault(const uint16_t *line) {
    const uint16_t *h = line + 4;
    if (!timed(line))
        return 3;
    if (memcmp(h, FIRST_SIX, sizeof FIRST_SIX))
        return 4;
    if (!(is_byte(h[6]) & is_byte(h[7]) & is_data(h[8]) & is_data(h[9]) & is_data(h[50]) & is_data(h[51]) & is_data(h[52]) & all_byte(h + 10, 40)))
        return 5;
    if (h[52] != checksum(h + 3))
        return 6;
    if (!is_register((uint32_t)crc_rest(CRC_START, h + 3, 5), h + 8))
        return 7;
    if (!is_register(crc_few(CRC_START, h + 10, 40), h + 50))
        return 8;
    unsigned number = (h[6] & 0xFFu) | (h[7] & 0xFFu) << 8;
    return number < 1 || number > LINES ? 9 : 0;
}

static unsigned number_in(const uint16_t *line) { return (line[10] & 0xFFu) | (line[11] & 3u) << 8; }

static void bytes_in(const uint16_t *w, size_t n, uint8_t *out) {
    for (size_t i = 0; i < n; i++)
        out[i] = (uint8_t)w[i];
}

static void settings_in(const uint16_t *line, Settings *s) {
    const uint16_t *h = line + 4;
    s->code = h[10] & 15;
    s->aai = h[10] >> 4 & 15;
    bytes_in(h + 11, 16, s->to);
    bytes_in(h + 27, 16, s->from);
    s->block = (uint8_t)h[43];
    s->flag = (uint8_t)h[44];
    bytes_in(h + 45, 5, s->reserved);
}

// The lower of 15 and 16 that holds, or 0.
static int area_fault(int mode, const Settings *s, const uint16_t *line) {
    size_t area = area_of(s);
    if (!legal_area(mode, s->block == VARIABLE, line + START, area))
        return 15;
    if (s->flag != 1)
        return 0;
    if (!is_data(line[LENGTH - 2]) || !is_data(line[LENGTH - 1]))
        return 15;
    return is_register(crc_of(line + START, area), line + LENGTH - 2) ? 0 : 16;
}

// 01's number, or 0 with the number and settings.
static int check(unsigned system, int mode, const uint16_t *line, size_t length, unsigned *number, Settings *s) {
    *number = 0;
    if (unfit(system, mode, length))
        return 1;
    int fault = head_fault(line);
    if (fault)
        return fault;
    settings_in(line, s);
    fault = settings_fault(s);
    if (fault)
        return fault;
    fault = area_fault(mode, s, line);
    if (!fault)
        *number = number_in(line);
    return fault;
}

// ---- reading
enum { IDLE, TYPE, COUNT, DATA };
enum { BEGUN = 3, ENDED = 4, PAUSED = 5 }; // events beside 1, a block, and 2, a drop

typedef struct {
    unsigned system, last, place, phase, kind, bytes, count, got; // the kind of a null is NULL_WORD
    int mode;
    Settings settings;
} Reader;

// One word of a variable line that is not taken in a run; the number of an event: 0 none, 1 a block, 2 a drop.
static int step(Reader *r, unsigned w) {
    if (r->phase == IDLE) {
        if (w == SEPARATOR)
            r->phase = TYPE;
        return 0;
    }
    if (w == SEPARATOR) {
        r->phase = TYPE;
        return 2;
    }
    if (w == END_CODE) {
        int whole = r->phase == DATA && (r->count == 0 || r->count == r->got);
        r->phase = IDLE;
        return !whole ? 2 : r->kind == NULL_WORD ? 0 : 1;
    }
    if (r->phase != DATA && !is_byte(w) && !(r->phase == TYPE && w == NULL_WORD)) {
        r->phase = IDLE;
        return 2;
    }
    if (r->phase == TYPE) {
        r->kind = w == NULL_WORD ? NULL_WORD : w & 0xFF;
        r->bytes = r->count = 0;
        r->phase = COUNT;
        return 0;
    }
    if (r->phase == COUNT) {
        r->count |= (w & 0xFF) << 8 * r->bytes;
        if (++r->bytes < 4)
            return 0;
        r->got = 0;
        r->phase = r->count > ROOM ? IDLE : DATA;
        return r->phase == IDLE ? 2 : 0;
    }
    r->phase = IDLE; // past a met count, past the room, or 100h in 8-bit mode
    return 2;
}

// Values, their low bits, from one place to another.
static void copy_values(uint16_t mask, const uint16_t *w, size_t n, uint16_t *out) {
    for (; n >= 8; n -= 8, w += 8, out += 8)
        store(out, load(w) & mask);
    if (n & 4) {
        uint64_t x = four(w) & mask * 0x1000100010001;
        memcpy(out, &x, sizeof x);
        w += 4, out += 4;
    }
    for (n &= 3; n > 0; n--)
        *out++ = *w++ & mask;
}

// How many words stand before the first that ends a run, which are codes and, in 8-bit mode, 100h; and their values. In a chunk whose words are all from the
// least on and below 300h no run ends.
static size_t copy_run(int mode, const uint16_t *w, size_t n, uint16_t *out) {
    uint16_t least = mode == 8 ? 0x101 : 0x100, mask = mode == 8 ? 0xFF : 0x1FF;
    unsigned other = mode == 8 ? NULL_WORD : SEPARATOR;
    size_t i = 0;
    for (; i + CHUNK <= n; i += CHUNK) {
        Words a = load(w + i), b = load(w + i + 8), c = load(w + i + 16), d = load(w + i + 24);
        if (is_any(((a - least) | (b - least) | (c - least) | (d - least)) & 0xFE00))
            break;
        store(out + i, a & mask), store(out + i + 8, b & mask), store(out + i + 16, c & mask), store(out + i + 24, d & mask);
    }
    size_t from = i;
    for (; i + 8 <= n && !is_any((load(w + i) - least) & 0xFE00); i += 8)
        ;
    while (i < n && !is_code(w[i]) && w[i] != other)
        i++;
    copy_values(mask, w + from, i - from, out + from);
    return i;
}

// How many words stand before the first 309h.
static size_t gap_of(const uint16_t *w, size_t n) {
    size_t i = 0;
    if (n && w[0] == SEPARATOR)
        return 0;
    for (; i + CHUNK <= n; i += CHUNK) {
        const uint16_t *x = w + i;
        if (is_any((Words)((load(x) == SEPARATOR) | (load(x + 8) == SEPARATOR) | (load(x + 16) == SEPARATOR) | (load(x + 24) == SEPARATOR))))
            break;
    }
    while (i < n && w[i] != SEPARATOR)
        i++;
    return i;
}

// Six words that are a whole head of a block: its type and count are taken at once.
static int take_head(Reader *r, const uint16_t *w) {
    if (!is_byte(w[2]) | !is_byte(w[3]) | !is_byte(w[4]) | !is_byte(w[5]) | !(is_byte(w[1]) | (w[1] == NULL_WORD)))
        return 0;
    unsigned count = (w[2] & 0xFFu) | (w[3] & 0xFFu) << 8 | (w[4] & 0xFFu) << 16 | (w[5] & 0xFFu) << 24;
    if (count > ROOM)
        return 0;
    r->kind = w[1] == NULL_WORD ? NULL_WORD : w[1] & 0xFFu;
    r->bytes = 4;
    r->count = count;
    r->got = 0;
    r->phase = DATA;
    return 1;
}

// A run of values into the room: how many.
static size_t take_run(Reader *r, const uint16_t *w, size_t n, uint16_t *room) {
    size_t most = (r->count ? r->count : ROOM) - r->got;
    size_t many = copy_run(r->mode, w, min(n, most), room + r->got);
    r->got += (unsigned)many;
    return many;
}

// On from the place to the next event, or to before place end: then the place is there.
static int go_on(Reader *r, const uint16_t *line, size_t end, uint16_t *room) {
    const uint16_t *w = line + START;
    size_t i = r->place;
    int event = 0;
    while (!event) {
        if (r->phase == IDLE) {
            i += gap_of(w + i, end - i);
            if (end - i >= 6 && take_head(r, w + i))
                i += 6;
        }
        if (r->phase == DATA)
            i += take_run(r, w + i, end - i, room);
        event = i == end ? ENDED : step(r, w[i++]);
    }
    r->place = (unsigned)i;
    return event;
}

// One of the words is 100h: four at a time, because places have few.
static int has_null(const uint16_t *w, size_t n) {
    uint64_t found = 0, x;
    for (; n >= 4; n -= 4, w += 4) {
        x = four(w) ^ 0x100010001000100;
        found |= (x - 0x1000100010001) & ~x & 0x8000800080008000;
    }
    for (; n > 0; n--)
        found |= w[n - 1] == NULL_WORD;
    return found != 0;
}

static int next_place(Reader *r, const uint16_t *line, size_t size, size_t end, uint16_t *room) {
    while (r->place < end) {
        const uint16_t *w = line + START + r->place;
        r->place += (unsigned)size;
        if (w[0] == NULL_WORD || w[0] == FILLER)
            continue;
        if (!is_byte(w[0]) || (r->mode == 8 && has_null(w + 1, size - 1)))
            return 2;
        r->kind = w[0] & 0xFF;
        r->got = (unsigned)size - 1;
        copy_values(r->mode == 8 ? 0xFF : 0x1FF, w + 1, size - 1, room);
        return 1;
    }
    return ENDED;
}

static void begin(Reader *r, unsigned number, const Settings *s) {
    unsigned expected = r->last % LINES + 1;
    if (!r->last || number != expected || memcmp(s, &r->settings, sizeof *s))
        r->phase = IDLE;
    r->last = number;
    r->settings = *s;
    r->place = 0;
}

// 1 and 2, or 0.
static int read_fault(const Reader *r, size_t length, size_t words) {
    if (unfit(r->system, r->mode, length) || words != ROOM)
        return 1;
    int wrong_count = r->phase == COUNT ? r->bytes > 3 : r->phase == DATA && (r->count > ROOM || r->got > ROOM || (r->count && r->got > r->count));
    return wrong_count || !possible(r->last, &r->settings, r->place, r->phase != IDLE) ? 2 : 0;
}

// A line begun or refused.
static int start(Reader *r, const uint16_t *line, size_t length) {
    unsigned number;
    Settings s;
    int fault = check(r->system, r->mode, line, length, &number, &s);
    if (fault) {
        r->phase = IDLE;
        r->last = 0;
        return -fault;
    }
    begin(r, number, &s);
    return BEGUN;
}

// A reading call: below 0 a refusal, else an event.
static int read_call(Reader *r, const uint16_t *line, size_t length, uint16_t *room, size_t words) {
    int fault = read_fault(r, length, words);
    if (fault)
        return -fault;
    if (r->place == NONE)
        return start(r, line, length);
    int event = r->settings.block == VARIABLE ? go_on(r, line, area_of(&r->settings), room) : next_place(r, line, size_of(&r->settings), end_of(&r->settings), room);
    if (event == ENDED)
        r->place = NONE;
    return event;
}

// The same under an allowance: how many words (fixed: places) were consumed.
static int read_within(Reader *r, size_t allowance, const uint16_t *line, size_t length, uint16_t *room, size_t words, size_t *consumed) {
    *consumed = 0;
    int fault = read_fault(r, length, words);
    if (fault)
        return -fault;
    if (allowance == 0)
        return PAUSED;
    if (r->place == NONE)
        return start(r, line, length);
    size_t q = r->place, left = end_of(&r->settings) - q;
    int event;
    if (r->settings.block == VARIABLE) {
        event = go_on(r, line, q + min(allowance, left), room);
        *consumed = r->place - q;
    } else {
        size_t size = size_of(&r->settings), far = min(allowance, divided(left, &r->settings)) * size;
        event = next_place(r, line, size, q + far, room);
        *consumed = divided(r->place - q, &r->settings);
    }
    if (event != ENDED)
        return event;
    if (*consumed == allowance)
        return PAUSED;
    r->place = NONE;
    return ENDED;
}

#ifndef TWIN_WITHOUT_JOBS // twin_host.c has others
// ---- the jobs
static uint16_t lines[BATCH][LENGTH], room[ROOM], values[MOST];

static int by_list(int job) { return job == 'g' || job == 'i'; }

// How many values a block has; job d has no blocks, nor have those that are made of it.
static size_t count_of(int job) {
    static const uint16_t counts[] = {MOST, 100, 4, 0, 0, MOST, 0, 4, 0, 1, 10, 1000, 0, 0};
    return counts[job - 'a'];
}

static void write_round(Writer *w, const Settings *s, int job) {
    size_t n = count_of(job), many;
    for (int k = 0; k < BATCH; k++) {
        int finished = n != 0;
        if (open_line(w, s, w->number % LINES + 1, lines[k], LENGTH))
            return;
        if (by_list(job))
            add_blocks(w, values, 1800, lines[k], LENGTH, &many);
        while (finished && !add_block(w, 7, values, n, lines[k], LENGTH, &finished))
            ;
        if (close_line(w, lines[k], LENGTH))
            return;
    }
}

// Eight lines closed in the same state, but for the CRC, which is what the line closed before got.
static uint32_t close_round(const Writer *w, uint32_t c) {
    for (int k = 0; k < BATCH; k++) {
        Writer again = *w;
        again.crc = c;
        close_line(&again, lines[k], LENGTH);
        c = (lines[k][LENGTH - 2] & 0x1FFu) | (lines[k][LENGTH - 1] & 0x1FFu) << 9;
    }
    return c;
}

static void close_rounds(Writer *w, const Settings *s, int job, long rounds) {
    int finished = job == 'f';
    open_line(w, s, 1, lines[0], LENGTH);
    while (finished && !add_block(w, 7, values, MOST, lines[0], LENGTH, &finished))
        ;
    uint32_t c = w->crc;
    for (long i = 0; i < rounds; i++)
        c = close_round(w, c);
}

static uint32_t read_round(Reader *r, uint32_t digest) {
    for (int k = 0; k < BATCH; k++) {
        int event = BEGUN;
        while (event >= 0 && event != ENDED) {
            event = read_call(r, lines[k], LENGTH, room, ROOM);
            if (event == 1)
                digest = digest * 31 + 65536 + r->got + room[0];
            else if (event == 2)
                digest = digest * 31 + 131072 + room[0];
        }
    }
    return digest;
}

// Slices of 64: each report goes into the digest, with what was consumed and the room's first word.
static uint32_t slice_round(Reader *r, uint32_t digest) {
    for (int k = 0; k < BATCH; k++) {
        uint32_t number = 2;
        while (number > 1) {
            size_t consumed;
            int event = read_within(r, 64, lines[k], LENGTH, room, ROOM, &consumed);
            number = event < 0 ? 1 : event == 1 ? 65536 + r->got : event == 2 ? 3 : event == BEGUN ? 2 : event == PAUSED ? 4 : 0;
            digest = digest * 31 + number + (uint32_t)consumed + room[0];
        }
    }
    return digest;
}

static uint32_t check_round(int mode, uint32_t digest) {
    for (int k = 0; k < BATCH; k++) {
        unsigned number = 0;
        Settings s;
        digest = digest * 31 + (uint32_t)check(SYSTEM, mode, lines[k], LENGTH, &number, &s);
        digest += number;
    }
    return digest;
}

// A wrong word in the EAV, or in the payload CRC.
static void spoil(int job) {
    for (int k = 0; k < BATCH; k++) {
        if (job == 'm')
            lines[k][2] = 0x004;
        if (job == 'n')
            lines[k][LENGTH - 1] ^= 1;
    }
}

static void write_lines(int job, int mode, long rounds) {
    int fixed = job == 'c' || job == 'g';
    Settings s = {.code = 1, .block = fixed ? 0x21 : VARIABLE, .flag = !fixed};
    memset(s.to, 1, sizeof s.to);
    memset(s.from, 2, sizeof s.from);
    for (int i = 0; i < MOST; i++)
        values[i] = (uint16_t)(i * 7 + 3) % (mode == 8 ? 256 : 512);
    for (int i = MOST - 1; by_list(job) && i >= 0; i--)
        values[i] = i % 6 == 0 ? 7 : i % 6 == 1 ? 4 : values[i % 6 - 2];
    Writer w = {.place = NONE, .mode = mode, .crc = CRC_START};
    if (job == 'e' || job == 'f')
        close_rounds(&w, &s, job, rounds);
    else
        for (long i = 0; i < rounds; i++)
            write_round(&w, &s, job);
    spoil(job);
}

int main(int argc, char **argv) {
    if (argc != 5 || argv[2][0] < 'a' || argv[2][0] > 'n')
        return 1;
    int what = argv[1][0], job = argv[2][0], mode = atoi(argv[3]);
    long rounds = atol(argv[4]);
    write_lines(job, mode, what == 'w' ? rounds : 1);
    if (what == 'l')
        return fwrite(lines, sizeof lines, 1, stdout) != 1;
    uint32_t digest = 0;
    Reader r = {.place = NONE, .mode = mode};
    for (long i = 0; what != 'w' && i < rounds; i++)
        digest = what == 'r' ? read_round(&r, digest) : what == 's' ? slice_round(&r, digest) : check_round(mode, digest);
    printf("%u", crc_of(lines[0], BATCH * LENGTH));
    if (what != 'w')
        printf(" %u", digest);
    printf("\n");
    return 0;
}
#endif
