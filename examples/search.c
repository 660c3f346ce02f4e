/* Looks for the value of positions by alpha-beta: search DEPTH [FILE] < POSITIONS. A position stands on a line of standard input, its answer on a line: `win D`
   or `loss D`, in how many plies it can be forced; `draw`; or a fault's number. The search is DEPTH plies deep, 1 or more. What lies behind them is asked of a
   database's file, so that the answer is what `dobutsu probe` prints, by the file's rules; without one it is by rules A, and `unknown` where nothing is forced
   within so many plies. Build, beside libdobutsu.a of the archive or of tools/library:
   cc examples/search.c -Iinclude -I. libdobutsu.a -o search */

#include <stdio.h>
#include <stdlib.h>
#include <string.h>

#include "dobutsu.h"

/* A table's file, the index of its family, and by which rules it is. Without a file both are NULL. */
typedef struct {
    uint8_t *file;
    size_t file_len;
    uint64_t *words;
    size_t len;
    uint32_t profile;
} Table;

/* What a win at once is worth; each ply until it costs 1. A loss is worth as much less than nothing. */
enum { SURE = 1000 };

static int read_table(Table *table, const char *name)
{
    FILE *opened = fopen(name, "rb");
    uint8_t *of;
    if (opened == NULL || fseek(opened, 0, SEEK_END) != 0 || (table->file_len = (size_t)ftell(opened)) < 21)
        return 0;
    rewind(opened);
    of = table->file = malloc(table->file_len);
    if (of == NULL || fread(of, 1, table->file_len, opened) != table->file_len || fclose(opened) != 0)
        return 0;
    table->profile = of[7] == '1' ? 0 : of[12];
    table->len = dobutsu_index_words(of[8], of[9], of[10], table->profile);
    table->words = malloc(table->len * sizeof *table->words);
    return table->words != NULL && dobutsu_index(of[8], of[9], of[10], table->profile, table->words, table->len) == DOBUTSU_OK;
}

/* A fault within the search ends the program: memory ran out, or the file isn't of the position's set. */
static void must(uint32_t fault)
{
    if (fault != DOBUTSU_OK) {
        printf("E%u\n", (unsigned)fault);
        exit(1);
    }
}

/* What a move is worth to the side that makes it, by what the position after it is worth to the other side; and the other way round for the window. */
static int before_move(int score)
{
    return score > 0 ? 1 - score : score < 0 ? -1 - score : 0;
}

static int after_move(int score)
{
    return score > 0 ? -1 - score : score < 0 ? 1 - score : 0;
}

/* The best of the positions after the moves, by the file. */
static int best_by_file(const Table *table, const DobutsuPosition *after, size_t count)
{
    DobutsuAnswer answers[DOBUTSU_MOST_MOVES];
    size_t n;
    int best = -SURE;
    dobutsu_probe_positions(table->file, table->file_len, table->words, table->len, after, count, answers, count);
    for (n = 0; n < count; n++) {
        DobutsuValue value = answers[n].value;
        int score;
        must(answers[n].fault);
        score = before_move(value.kind == DOBUTSU_WIN ? SURE - (int)value.plies : value.kind == DOBUTSU_LOSS ? (int)value.plies - SURE : 0);
        best = score > best ? score : best;
    }
    return best;
}

static int search(const Table *table, const DobutsuPosition *position, int depth, int alpha, int beta)
{
    DobutsuStep steps[DOBUTSU_MOST_MOVES];
    DobutsuPosition after[DOBUTSU_MOST_MOVES];
    uint64_t count, n;
    uint32_t status;
    int best = -SURE;
    must(dobutsu_steps(position, table->profile, steps, DOBUTSU_MOST_MOVES, &count, &status));
    if (status == DOBUTSU_CAUGHT)
        return depth == 0 ? 0 : SURE - 1;
    if (status != DOBUTSU_OPEN)
        return -SURE;
    if (depth == 0)
        return 0;
    if (count > DOBUTSU_MOST_MOVES)
        exit(2);
    for (n = 0; n < count; n++)
        must(dobutsu_make(position, table->profile, &steps[n], &after[n]));
    if (depth == 1 && table->file != NULL)
        return best_by_file(table, after, (size_t)count);
    for (n = 0; n < count && alpha < beta; n++) {
        int score = before_move(search(table, &after[n], depth - 1, after_move(beta), after_move(alpha)));
        best = score > best ? score : best;
        alpha = best > alpha ? best : alpha;
    }
    return best;
}

int main(int argc, char **argv)
{
    Table table;
    char text[256];
    int depth = argc < 2 ? 0 : atoi(argv[1]);
    memset(&table, 0, sizeof table);
    if (depth < 1 || argc > 3 || (argc == 3 && !read_table(&table, argv[2])))
        return 2;
    while (fgets(text, sizeof text, stdin) != NULL) {
        DobutsuPosition position;
        uint32_t fault = dobutsu_read((const uint8_t *)text, strcspn(text, "\n"), &position);
        int score;
        if (fault != DOBUTSU_OK) {
            printf("E%u\n", (unsigned)fault);
            continue;
        }
        score = search(&table, &position, depth, -SURE, SURE);
        if (score == 0)
            puts(table.file == NULL ? "unknown" : "draw");
        else
            printf(score > 0 ? "win %d\n" : "loss %d\n", SURE - abs(score));
    }
    return 0;
}
