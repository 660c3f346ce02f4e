/* Looks for the value of positions by alpha-beta, DEPTH plies deep, and then asks the table of FILE: plain_search DEPTH FILE < POSITIONS. So it prints what
   `dobutsu probe --each` does.
   Build: cc examples/plain_search.c plain/dobutsu_plain.c plain/dobutsu_plain_classes.c -Iplain -o plain_search */
#include <stdio.h>
#include <stdlib.h>
#include <string.h>

#include "dobutsu_plain.h"

/* What a win at once is worth; each ply until it costs 1. A loss is worth as much less than nothing. */
enum { SURE = 100000 };

static int read_file(void *file, uint64_t offset, uint8_t *bytes, size_t length)
{
    return fseek(file, (long)offset, SEEK_SET) == 0 && fread(bytes, 1, length, file) == length;
}

/* What a move is worth by what the position after it is worth to the other side, with `step` 1; and the other way round for the window, with -1. */
static int across(int score, int step)
{
    return score > 0 ? step - score : score < 0 ? -step - score : 0;
}

/* What the position is worth, or as much as the window has of it. A fault of the table ends the program. */
static int search(const PlainTable *table, const PlainPosition *position, int depth, int alpha, int beta)
{
    PlainMove moves[PLAIN_MOST_MOVES];
    PlainPosition after;
    PlainValue value;
    uint32_t count, status, number;
    if (depth <= 0) {
        if (plain_probe(table, position, &value) != PLAIN_OK)
            exit(1);
        return value.kind == PLAIN_WIN ? SURE - (int)value.plies : value.kind == PLAIN_LOSS ? (int)value.plies - SURE : 0;
    }
    if (plain_moves(position, table->profile, moves, &count, &status) != PLAIN_OK || status != PLAIN_OPEN)
        return status == PLAIN_CAUGHT ? SURE - 1 : -SURE;
    for (number = 0; number < count && alpha < beta; number++) {
        int score;
        plain_play_listed(position, &moves[number], &after);
        score = across(search(table, &after, depth - 1, across(beta, -1), across(alpha, -1)), 1);
        alpha = score > alpha ? score : alpha;
    }
    return alpha;
}

int main(int argc, char **argv)
{
    static uint32_t words[PLAIN_MOST_INDEX_WORDS];
    FILE *file = argc == 3 ? fopen(argv[2], "rb") : NULL;
    PlainTable table;
    PlainPosition position;
    PlainValue value;
    char line[256];
    if (file == NULL || fseek(file, 0, SEEK_END) != 0 || plain_open_by(&table, read_file, file, (uint64_t)ftell(file)) != PLAIN_OK)
        return 2;
    plain_index(&table, words, PLAIN_MOST_INDEX_WORDS);
    while (fgets(line, sizeof line, stdin) != NULL) {
        uint32_t fault = plain_read(line, strcspn(line, "\n"), &position);
        int score = 0;
        if (fault == PLAIN_OK && (fault = plain_probe(&table, &position, &value)) == PLAIN_OK)
            score = search(&table, &position, atoi(argv[1]), -SURE, SURE);
        if (fault != PLAIN_OK || score == 0)
            puts(fault != PLAIN_OK ? plain_fault_text(fault) : "draw");
        else
            printf(score > 0 ? "win %d\n" : "loss %d\n", SURE - abs(score));
    }
    return 0;
}
