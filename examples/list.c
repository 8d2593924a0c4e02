/* Lists the events of lines of system 0, 8-bit, two bytes a word, low byte first, through the calls of sdti.h: a row for each event, as ./list does.
 *   list [FILE]     a file, or standard input */
#include "sdti.h"
#include <inttypes.h>
#include <stdio.h>

static uint8_t state[SDTI_STATE], line[SDTI_LINE_MAX], room[SDTI_ROOM], event[SDTI_EVENT];

static void print_row(struct sdti_event e) {
    switch (e.kind) {
    case SDTI_REFUSED:
        printf("refused %" PRIu32, e.number);
        break;
    case SDTI_BEGUN:
        if (e.jump_known)
            printf("begun %" PRIu32 " %" PRId32, e.number, e.jump);
        else
            printf("begun %" PRIu32 " unknown", e.number);
        break;
    case SDTI_BLOCK:
        printf("block %" PRIu32 " %" PRIu64, e.type, e.length);
        break;
    case SDTI_DROP:
        printf("drop %" PRIu32, e.number);
        break;
    default:
        printf("end");
    }
    printf("%s\n", e.dropped ? " dropped" : "");
}

/* A line is lent until its end, or a refusal, is reported. After 1 and 2 there is no event. */
static void list_line(size_t bytes) {
    struct sdti_event e;
    do {
        uint32_t answer = sdti_read(state, sizeof state, line, bytes, room, sizeof room, event, sizeof event);
        if (answer == 1 || answer == 2) {
            printf("refused %" PRIu32 "\n", answer);
            return;
        }
        e = sdti_event_of(event);
        print_row(e);
    } while (e.kind != SDTI_END && e.kind != SDTI_REFUSED);
}

int main(int argc, char **argv) {
    FILE *from = argc > 1 ? fopen(argv[1], "rb") : stdin;
    size_t whole = sdti_line_bytes(0), n;
    if (!from) {
        perror(argv[1]);
        return 1;
    }
    sdti_reader(0, 8, state, sizeof state);
    while ((n = fread(line, 1, whole, from)) > 0)
        list_line(n);
    if (ferror(from) || fflush(stdout)) {
        perror("list");
        return 1;
    }
    return 0;
}
