/* Hands plain/ what nobody should: plain_hostile FILE TEXT.., under the sanitizers. The file is cut everywhere, is longer, has each byte of its
   header and many others changed, and its reader fails; its texts are cut, longer and changed; positions, moves and profiles are any numbers. Each is in memory
   of just its length, so that a sanitizer sees what is read or written beside it. Prints how many calls there were; status 1 where an answer is none. */

#include <stdio.h>
#include <stdlib.h>
#include <string.h>

#include "dobutsu_plain.h"

static unsigned long calls;

/* Numbers in an order that is the same each time. */
static uint32_t drawn(uint32_t below)
{
    static uint64_t state = 88;
    state = state * 6364136223846793005u + 1442695040888963407u;
    return (uint32_t)(state >> 33) % below;
}

static void *taken(size_t length)
{
    void *memory = malloc(length == 0 ? 1 : length);
    if (memory == NULL)
        exit(2);
    return memory;
}

/* Notes a call that answered a fault: it is one of docs/FAULTS.md. */
static uint32_t noted(uint32_t fault)
{
    calls++;
    if (fault != PLAIN_OK && plain_fault_text(fault)[0] != 'E') {
        printf("%u is no fault\n", (unsigned)fault);
        exit(1);
    }
    return fault;
}

/* A file whose reader fails after so many reads. */
typedef struct {
    const uint8_t *bytes;
    size_t length;
    unsigned reads;
} Source;

static int read_source(void *context, uint64_t offset, uint8_t *bytes, size_t length)
{
    Source *source = (Source *)context;
    if (offset > source->length || length > source->length - offset) {
        printf("%lu bytes are read at %lu of %lu\n", (unsigned long)length, (unsigned long)offset, (unsigned long)source->length);
        exit(1);
    }
    if (source->reads == 0)
        return 0;
    source->reads--;
    memcpy(bytes, source->bytes + offset, length);
    return 1;
}

/* Every call that takes a position, of any numbers. */
static void ask_position(const PlainTable *table, const PlainPosition *given, uint32_t profile)
{
    PlainPosition *position = (PlainPosition *)taken(sizeof *position), *after = (PlainPosition *)taken(sizeof *after);
    PlainMove *moves = (PlainMove *)taken(PLAIN_MOST_MOVES * sizeof *moves), move, read;
    PlainValuedMove *valued = (PlainValuedMove *)taken(PLAIN_MOST_MOVES * sizeof *valued), best;
    PlainValue value;
    char *text = (char *)taken(PLAIN_POSITION_TEXT), *move_text = (char *)taken(PLAIN_MOVE_TEXT);
    uint32_t count = 0, status, number, fault;
    *position = *given;
    fault = noted(plain_check(position, profile));
    if (noted(plain_write(position, text)) == PLAIN_OK &&
        (noted(plain_read(text, strlen(text), after)) != PLAIN_OK || memcmp(position, after, sizeof *after) != 0))
        exit(1);
    if (noted(plain_moves(position, profile, moves, &count, &status)) != fault)
        exit(1);
    for (number = 0; number < count; number++) {
        if (plain_write_move(&moves[number], move_text) != PLAIN_OK || plain_read_move(move_text, strlen(move_text), &read) != PLAIN_OK ||
            memcmp(&read, &moves[number], sizeof read) != 0)
            exit(1);
        fault = noted(plain_play(position, profile, &moves[number], after));
        if (fault != (status == PLAIN_OPEN ? PLAIN_OK : PLAIN_NO_MOVE) || (fault == PLAIN_OK && plain_check(after, profile) != PLAIN_OK))
            exit(1);
        if (fault == PLAIN_OK && (plain_play(position, profile, &moves[number], position) != PLAIN_OK || memcmp(position, after, sizeof *after) != 0))
            exit(1);
        *position = *given;
        if (fault == PLAIN_OK && (plain_play_listed(position, &moves[number], position) != PLAIN_OK || memcmp(position, after, sizeof *after) != 0))
            exit(1);
        *position = *given;
    }
    move.kind = (uint8_t)drawn(7);
    move.from = (uint8_t)drawn(drawn(9) == 0 ? 256 : 14);
    move.to = (uint8_t)drawn(drawn(9) == 0 ? 256 : 13);
    move.catches = (uint8_t)drawn(3);
    move.grows = (uint8_t)drawn(3);
    noted(plain_write_move(&move, move_text));
    noted(plain_play_listed(position, &move, after));
    noted(plain_play(position, profile, &move, after));
    if (table != NULL) {
        if (noted(plain_probe(table, position, &value)) == PLAIN_OK && table->classes == 0)
            exit(1);
        noted(plain_values(table, position, valued, &count));
        noted(plain_best(table, position, &best));
    }
    free(position), free(after), free(moves), free(valued), free(text), free(move_text);
}

static void ask_text(const PlainTable *table, const char *given, size_t length)
{
    char *text = (char *)taken(length);
    PlainPosition position;
    PlainValue value;
    memcpy(text, given, length);
    if (noted(plain_read(text, length, &position)) == PLAIN_OK)
        ask_position(table, &position, drawn(3));
    if (table != NULL)
        noted(plain_probe_text(table, text, length, &value));
    free(text);
}

/* Texts of 64 bytes at most that nobody writes. */
static void ask_texts(const PlainTable *table, const char *text)
{
    static const char usual[] = "./ -CEGHLceghl";
    char changed[64];
    size_t length = strlen(text), at;
    unsigned turn;
    for (at = 0; at <= length; at++)
        ask_text(table, text, at);
    for (turn = 0; turn < 400; turn++) {
        memset(changed, usual[drawn(14)], sizeof changed);
        memcpy(changed, text, length);
        for (at = drawn(4); at > 0; at--)
            changed[drawn((uint32_t)length)] = drawn(4) == 0 ? (char)drawn(256) : usual[drawn(14)];
        ask_text(table, changed, drawn(3) == 0 ? drawn(64) : length);
    }
}

static void ask_positions(const PlainTable *table)
{
    unsigned turn;
    for (turn = 0; turn < 3000; turn++) {
        PlainPosition position;
        unsigned at, kind;
        for (at = 0; at < 12; at++)
            position.board[at] = (uint8_t)(drawn(3) == 0 ? drawn(turn % 8 == 0 ? 256 : 11) : 0);
        if (turn % 8 > 1) {
            position.board[drawn(9)] = PLAIN_MOVER + PLAIN_LION;
            position.board[drawn(12)] = PLAIN_ENEMY + PLAIN_LION;
        }
        for (kind = 0; kind < 3; kind++) {
            position.mover[kind] = (uint8_t)(turn % 8 == 1 ? drawn(256) : drawn(2));
            position.enemy[kind] = (uint8_t)(turn % 8 == 2 ? drawn(256) : drawn(2));
        }
        ask_position(table, &position, turn % 16 == 3 ? drawn(0xffff) * 0x10001u : drawn(2));
    }
}

/* Opens a file of these bytes and asks it, by its bytes and by readers that fail sooner or later. */
static uint32_t ask_file(const uint8_t *given, size_t length, const char *text)
{
    uint8_t *bytes = (uint8_t *)taken(length);
    PlainTable table;
    Source source;
    uint32_t fault, by_reader, *words;
    unsigned reads;
    memcpy(bytes, given, length);
    /* what was refused has no class, and may be asked all the same */
    fault = noted(plain_open(&table, bytes, length));
    if ((fault == PLAIN_OK) != (table.classes > 0))
        exit(1);
    ask_text(&table, text, strlen(text));
    for (reads = 0; reads < 8; reads++) {
        source.bytes = bytes;
        source.length = length;
        source.reads = reads;
        by_reader = noted(plain_open_by(&table, read_source, &source, length));
        if (by_reader != fault && by_reader != PLAIN_IO)
            exit(1);
        if (by_reader != PLAIN_OK) {
            ask_text(&table, text, strlen(text));
            continue;
        }
        words = (uint32_t *)taken(plain_index_words(&table) * sizeof *words);
        if (noted(plain_index(&table, words, drawn(2))) != PLAIN_INDEX || noted(plain_index(&table, words, plain_index_words(&table))) != PLAIN_OK)
            exit(1);
        ask_text(&table, text, strlen(text));
        words[drawn((uint32_t)plain_index_words(&table))] = drawn(2) * 0xffffffffu;
        ask_text(&table, text, strlen(text));
        free(words);
    }
    free(bytes);
    return fault;
}

/* Texts of moves that are cut, longer and changed: what is read is written as it was. */
static void ask_move_texts(void)
{
    static const char *const texts[] = {"Cb3xb4+", "C*a2", "La2-a3", "Hb2xa1", "G*c4", "Ea1-b2"};
    static const char usual[] = "-x*+abc1234CEGHLld";
    PlainMove move;
    char written[PLAIN_MOVE_TEXT];
    unsigned turn;
    for (turn = 0; turn < 60000; turn++) {
        const char *text = texts[turn % 6];
        size_t length = strlen(text), at;
        char *changed = (char *)taken(length + 2);
        memcpy(changed, text, length);
        for (at = drawn(3); at > 0; at--)
            changed[drawn((uint32_t)length)] = drawn(9) == 0 ? (char)drawn(256) : usual[drawn(18)];
        changed[length] = changed[length + 1] = drawn(2) == 0 ? '+' : '\0';
        length = drawn(3) == 0 ? drawn((uint32_t)length + 3) : length;
        changed = (char *)realloc(changed, length == 0 ? 1 : length);
        if (changed == NULL)
            exit(2);
        if (noted(plain_read_move(changed, length, &move)) == PLAIN_OK &&
            (plain_write_move(&move, written) != PLAIN_OK || strlen(written) != length || memcmp(written, changed, length) != 0))
            exit(1);
        free(changed);
    }
}

int main(int argc, char **argv)
{
    static uint8_t whole[1 << 22], changed[1 << 22];
    FILE *file = argc < 3 ? NULL : fopen(argv[1], "rb");
    size_t length = file == NULL ? 0 : fread(whole, 1, sizeof whole - 2, file), at;
    PlainTable table;
    int number;
    unsigned turn;
    if (length == 0 || plain_open(&table, whole, length) != PLAIN_OK)
        return 2;
    for (at = 0; at < length; at += at < 60 || at > length - 40 ? 1 : length / 40 + 1)
        if (ask_file(whole, at, argv[2]) == PLAIN_OK)
            return 1;
    for (at = 1; at < 3; at++)
        if (ask_file(whole, length + at, argv[2]) != PLAIN_TRAILING)
            return 1;
    for (turn = 0; turn < 21 * 64 + 400; turn++) {
        memcpy(changed, whole, length);
        at = turn < 21 * 64 ? turn / 64 : drawn((uint32_t)length);
        changed[at] = (uint8_t)(turn % 64 < 8 ? changed[at] ^ 1u << turn % 64 : drawn(256));
        ask_file(changed, length, argv[2]);
    }
    for (number = 2; number < argc; number++) {
        ask_texts(&table, argv[number]);
        ask_texts(NULL, argv[number]);
    }
    ask_positions(&table);
    ask_positions(NULL);
    ask_move_texts();
    printf("%lu calls\n", calls);
    return 0;
}
