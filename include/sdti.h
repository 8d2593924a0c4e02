/* Nemzaburi from C: SDTI lines (ITU-R BT.1381-2) written, read and checked. Link libsdti.a, which ./lib builds.
 *
 * Every call is a plain function on numbers and buffers of bytes. A word of a line is two bytes, low byte first. The
 * library keeps nothing: a reader or a writer is an image of SDTI_STATE bytes that the caller holds, lends to each call
 * and may copy, store or send elsewhere. It asks for no memory, and of the C library for memcpy and its like alone.
 *
 * What a call answers: 0, SDTI_UNFINISHED, or the number of a refusal. Where several conditions hold, the lowest number
 * is answered.
 *    1  unknown system or mode; a buffer of the wrong length; words with an odd number of bytes
 *    2  bytes that are no image of a state, or the image of a state that no reader (writer) can have come into
 *    3  the timing words: EAV or SAV            10  code not the system's
 *    4  the first six words of the header       11  AAI
 *    5  a header word not in its form           12  block type
 *    6  the header's checksum                   13  flag
 *    7  the line number's CRC                   15  an area word not in its form
 *    8  the header's CRC                        16  the payload's CRC
 *    9  the line number
 *   17  a value above 255 (mode 8) or 511
 *   18  a block: more than 16,384 values, a type above 255, or not as the open fixed line has them;
 *       a packet: more than 255 values
 *   19  no room left in the open line
 *   20  not now: opening while a line is open, adding or closing while none is; or an unfinished block stands against it
 *   24  no room left in the gap
 *   28  the list of blocks breaks off in the middle of an entry
 * After 1 and 2 no byte of any buffer has changed. After 3 to 16 the reader's state has changed: see sdti_read. After
 * any other refusal of the writer, state and line are as they were.
 *
 * What the caller owes: each pointer is valid for as many bytes as the length behind it says, no two buffers of one call
 * overlap, and nobody else touches them during the call. Then no call ever does anything that is not written here,
 * whatever the bytes and numbers are. A pointer whose length is 0 is not looked at. Calls on different buffers may run
 * at the same time. A call wants less than 128 KB of stack.
 */
#ifndef SDTI_H
#define SDTI_H

#include <assert.h>
#include <stdbool.h>
#include <stddef.h>
#include <stdint.h>

#ifdef __cplusplus
extern "C" {
#endif

/* Lengths of buffers in bytes. */
#define SDTI_STATE 80u      /* the image of a reader's or a writer's state */
#define SDTI_SETTINGS 41u   /* settings */
#define SDTI_ROOM 32768u    /* the assembly room: 16,384 values of two bytes */
#define SDTI_EVENT 32u      /* what a reading call reports */
#define SDTI_HEADER 43u     /* what sdti_check finds: the line number in two bytes, then the settings */
#define SDTI_LISTED 16u     /* what sdti_list says of its list */
#define SDTI_LINE_MAX 4608u /* the longest line there is; sdti_line_bytes has each system's */
#define SDTI_GAP_MAX 646u   /* the longest list of a gap's packets; sdti_gap_bytes has each system's */

/* The answer where a block is laid as far as the line goes, and is not finished. It is above every refusal. */
#define SDTI_UNFINISHED 256u

/* The kinds of events. */
#define SDTI_REFUSED 0u /* the line is refused; number has the refusal, dropped says whether an open block was dropped */
#define SDTI_BEGUN 1u   /* the line is begun; number has its number, jump the lines missing before it if that is known */
#define SDTI_BLOCK 2u   /* a block stands in the room: its type, and how many values it has */
#define SDTI_DROP 3u    /* the open block was dropped; number has the reason, 1 to 7 */
#define SDTI_END 4u     /* the line is over; a block that is open goes on in the next line */
#define SDTI_PAUSED 5u  /* the allowance is used up, and nothing was met */

/* Where the settings stand in a state image and in a header. */
#define SDTI_SETTINGS_IN_STATE 37u
#define SDTI_SETTINGS_IN_HEADER 2u

static_assert(SDTI_SETTINGS_IN_STATE + SDTI_SETTINGS + 2u == SDTI_STATE, "two bytes behind the settings are not used");
static_assert(SDTI_SETTINGS_IN_HEADER + SDTI_SETTINGS == SDTI_HEADER, "a header is a number and settings");

/* ---- Making. A reader or a writer of a system (0 to 3) and a mode (8 or 9): its fresh state is written into `state`.
 * Answers 0; 1 where state_len is not SDTI_STATE. An unknown system or mode is taken here, and refused with 1 by every
 * call that gets the image. */
uint32_t sdti_reader(uint8_t system, uint8_t mode, uint8_t *state, size_t state_len);
uint32_t sdti_writer(uint8_t system, uint8_t mode, uint8_t *state, size_t state_len);

/* ---- Reading. A line is lent again and again, with the same state, until its end (SDTI_END) or its refusal
 * (SDTI_REFUSED) is reported. The first call begins the line or refuses it. Each later one goes on to the next block,
 * drop or end. Values fill `room` from its start, two bytes each, as they are read: a block that runs over lines is
 * gathered there, so the same room is lent until the block is reported.
 *   line     the words of a line, sdti_line_bytes(system) bytes; not changed
 *   room     SDTI_ROOM bytes; only those in which values are put change
 *   event    SDTI_EVENT bytes; what is reported, see sdti_event_of
 * Answers 0 for every event but a refusal; 1 and 2, which report nothing and change nothing; 3 to 13, 15, 16 for a line
 * that is refused: then state and event are written, the event is SDTI_REFUSED with that number, and the reader goes on
 * with the next line. The settings of a line that was begun stand in the state, see sdti_settings_in. */
uint32_t sdti_read(uint8_t *state, size_t state_len, const uint8_t *line, size_t line_len, uint8_t *room,
                   size_t room_len, uint8_t *event, size_t event_len);

/* The same under an allowance of words of the area (in a fixed line: of places, each counted as one). Where as many are
 * consumed and nothing was met, SDTI_PAUSED is reported; called again, it goes on. The event says how many were
 * consumed. Allowance 0 pauses at once and changes nothing but the event; beginning a line costs nothing. Answers as
 * sdti_read. */
uint32_t sdti_read_within(uint8_t *state, size_t state_len, uint64_t allowance, const uint8_t *line, size_t line_len,
                          uint8_t *room, size_t room_len, uint8_t *event, size_t event_len);

/* ---- Writing. A line is opened, blocks and packets are added, and it is closed; its words are then ready to be sent.
 * `line` has sdti_line_bytes(system) bytes. The state keeps the CRC of the words laid, so nobody else may write into an
 * open line. Any refusal leaves state and line as they were. */

/* Opens a line: timing words with the flags f and v, the header with the number and the settings, filler in gap and
 * payload. Settings are SDTI_SETTINGS bytes, see sdti_settings_to. Answers 0, 1, 2, 9 to 13, 20. */
uint32_t sdti_open(uint8_t *state, size_t state_len, bool f, bool v, uint32_t number, const uint8_t *settings,
                   size_t settings_len, uint8_t *line, size_t line_len);

/* Adds a block: a type (1 to 255 in a fixed line, else 0 to 255) and its values, two bytes each. Answers 0 where it is
 * finished; SDTI_UNFINISHED where the line is full: close it, open the next, and lend the same block again; 1, 2, 17 to
 * 20. */
uint32_t sdti_add(uint8_t *state, size_t state_len, uint32_t kind, const uint8_t *values, size_t values_len,
                  uint8_t *line, size_t line_len);

/* Adds many blocks: for each its type, its number of values and the values, two bytes each number. It stops at the first
 * that is unfinished or refused; those before it are laid. How many were finished is written into *finished. Answers 0
 * where all are finished; SDTI_UNFINISHED; 17 to 20 or 28, the refusal of the one that it stopped at; 1 and 2, which
 * leave *finished too. */
uint32_t sdti_add_many(uint8_t *state, size_t state_len, const uint8_t *blocks, size_t blocks_len, uint8_t *line,
                       size_t line_len, uint64_t *finished);

/* Adds a packet of BT.1364 in the gap of the open line: its DID, its second word (SDID, or a block number where the DID
 * is 128 or above) and up to 255 values of 0 to 511, two bytes each. Answers 0, 1, 2, 17, 18, 20, 24. */
uint32_t sdti_packet(uint8_t *state, size_t state_len, uint8_t did, uint8_t second, const uint8_t *values,
                     size_t values_len, uint8_t *line, size_t line_len);

/* Closes the line, and writes the payload's CRC where the flag asks for it. Answers 0, 1, 2; 20 where none is open, or
 * where a block is unfinished and the line is not full. */
uint32_t sdti_close(uint8_t *state, size_t state_len, uint8_t *line, size_t line_len);

/* ---- Looking at a line; no state is asked, and the line is not changed. */

/* Checks a line. `header` has SDTI_HEADER bytes; line number and settings are written there, zeros where the line is
 * refused with 3 to 16. Answers 0; 1, which writes nothing; 3 to 13, 15, 16. */
uint32_t sdti_check(uint8_t system, uint8_t mode, const uint8_t *line, size_t line_len, uint8_t *header,
                    size_t header_len);

/* Lists the packets in the gap of a line that the check accepts. `out` has sdti_gap_bytes(system) bytes: for each packet
 * its DID, its second word, its number of values and the values, two bytes each, one packet behind another; what is
 * behind the list is left. `listed` has SDTI_LISTED bytes, see sdti_listed_of; they are zeros where the line is refused.
 * A bad packet ends the list and is no refusal. Answers 0; 1, which writes nothing; 3 to 13, 15, 16. */
uint32_t sdti_list(uint8_t system, uint8_t mode, const uint8_t *line, size_t line_len, uint8_t *out, size_t out_len,
                   uint8_t *listed, size_t listed_len);

/* ---- Bytes read and written. These are compiled with the caller. */

/* The bytes of a system's line; 0 where there is no such system. */
static inline size_t sdti_line_bytes(uint8_t system) {
    return system == 0 ? 3432u : system == 1 ? 3456u : system == 2 ? 4576u : system == 3 ? 4608u : 0u;
}

/* The bytes of `out` in sdti_list; 0 where there is no such system. */
static inline size_t sdti_gap_bytes(uint8_t system) {
    return system == 0 ? 430u : system == 1 ? 454u : system == 2 ? 614u : system == 3 ? 646u : 0u;
}

/* A number of two, four or eight bytes, low byte first. */
static inline uint64_t sdti_number(const uint8_t *bytes, size_t count) {
    uint64_t n = 0;
    while (count > 0)
        n = n << 8 | bytes[--count];
    return n;
}

/* The word (or value) at an index of words in bytes; and one put there. */
static inline uint16_t sdti_word(const uint8_t *bytes, size_t index) {
    return (uint16_t)(bytes[2 * index] | (unsigned)bytes[2 * index + 1] << 8);
}

static inline void sdti_put_word(uint8_t *bytes, size_t index, uint16_t word) {
    bytes[2 * index] = (uint8_t)(word & 255u);
    bytes[2 * index + 1] = (uint8_t)(word >> 8);
}

/* What a reading call reports. What is not said of a kind is 0. */
struct sdti_event {
    uint32_t kind;     /* SDTI_REFUSED to SDTI_PAUSED */
    bool dropped;      /* refused, begun: an open block was dropped */
    bool jump_known;   /* begun: it is known which line came before */
    int32_t jump;      /* begun: how many lines are missing before it; below 0: how many lines it is behind */
    uint32_t number;   /* refused: the refusal; begun: the line; drop: the reason */
    uint32_t type;     /* block */
    uint64_t length;   /* block: how many values stand in the room */
    uint64_t consumed; /* sdti_read_within: how many words (fixed: places) were consumed */
};

/* The event in SDTI_EVENT bytes. */
static inline struct sdti_event sdti_event_of(const uint8_t *event) {
    struct sdti_event e;
    int64_t size = (int64_t)sdti_number(event + 8, 4);
    e.kind = event[0];
    e.dropped = event[1] != 0;
    e.jump_known = event[2] != 0;
    e.jump = (int32_t)(event[3] != 0 ? -size : size);
    e.number = (uint32_t)sdti_number(event + 4, 4);
    e.type = (uint32_t)sdti_number(event + 12, 4);
    e.length = sdti_number(event + 16, 8);
    e.consumed = sdti_number(event + 24, 8);
    return e;
}

/* Settings: those that a line is opened with, and those of a line that was begun or checked. */
struct sdti_settings {
    uint8_t code; /* 1: a payload of 1,440 words (systems 0 and 1); 2: of 1,920 */
    uint8_t aai;  /* 0 or 1 */
    uint8_t destination[16];
    uint8_t source[16];
    uint8_t block; /* C1h: variable blocks; else the type of fixed blocks */
    uint8_t flag;  /* 1: a CRC of the payload stands at its end; else 0 */
    uint8_t reserved[5];
};

/* The settings in SDTI_SETTINGS bytes; and the bytes of settings. */
static inline struct sdti_settings sdti_settings_of(const uint8_t *bytes) {
    struct sdti_settings s;
    size_t i;
    s.code = bytes[0];
    s.aai = bytes[1];
    for (i = 0; i < 16; i++) {
        s.destination[i] = bytes[2 + i];
        s.source[i] = bytes[18 + i];
    }
    s.block = bytes[34];
    s.flag = bytes[35];
    for (i = 0; i < 5; i++)
        s.reserved[i] = bytes[36 + i];
    return s;
}

static inline void sdti_settings_to(const struct sdti_settings *s, uint8_t *bytes) {
    size_t i;
    bytes[0] = s->code;
    bytes[1] = s->aai;
    for (i = 0; i < 16; i++) {
        bytes[2 + i] = s->destination[i];
        bytes[18 + i] = s->source[i];
    }
    bytes[34] = s->block;
    bytes[35] = s->flag;
    for (i = 0; i < 5; i++)
        bytes[36 + i] = s->reserved[i];
}

/* The settings of the line that was begun (opened) last, in a state image; and those in a header. */
static inline struct sdti_settings sdti_settings_in(const uint8_t *state) {
    return sdti_settings_of(state + SDTI_SETTINGS_IN_STATE);
}

static inline struct sdti_settings sdti_header_settings(const uint8_t *header) {
    return sdti_settings_of(header + SDTI_SETTINGS_IN_HEADER);
}

/* The line number in a header. */
static inline uint32_t sdti_header_number(const uint8_t *header) { return sdti_word(header, 0); }

/* What sdti_list says of its list. */
struct sdti_listed {
    uint32_t packets; /* how many packets */
    uint32_t words;   /* how many words of `out` the list has */
    uint32_t gap;     /* how many words of the gap they take */
    uint32_t stop;    /* 0, or why a bad packet ended the list: 21 runs past the gap, 22 a word's form, 23 checksum */
};

/* What SDTI_LISTED bytes say. */
static inline struct sdti_listed sdti_listed_of(const uint8_t *listed) {
    struct sdti_listed l;
    l.packets = (uint32_t)sdti_number(listed, 4);
    l.words = (uint32_t)sdti_number(listed + 4, 4);
    l.gap = (uint32_t)sdti_number(listed + 8, 4);
    l.stop = (uint32_t)sdti_number(listed + 12, 4);
    return l;
}

#ifdef __cplusplus
}
#endif

#endif
