/* Draws puzzles as the program does: puzzles FILE PLIES COUNT SEED prints what `dobutsu puzzles --db FILE --plies PLIES --count COUNT --random SEED` prints:
   positions that one move alone wins soonest, in so many plies, each with that move; no two have as many pieces of each kind on the board and the lions on the
   same squares. Build, beside libdobutsu.a of the archive or of tools/library:
   cc examples/puzzles.c -Iinclude -I. libdobutsu.a -o puzzles */

#include <stdio.h>
#include <stdlib.h>

#include "dobutsu.h"

enum { MANY = 1024, OUTLINES = 27 * 12 * 12 };

/* A table's file, its family, and the family's index. */
typedef struct {
    uint8_t *file;
    size_t file_len;
    uint32_t chicks, elephants, giraffes, profile;
    uint64_t classes;
    uint64_t *words;
    size_t len;
} Table;

static int read_table(Table *table, const char *name)
{
    FILE *opened = fopen(name, "rb");
    uint8_t *of;
    uint64_t positions;
    if (opened == NULL || fseek(opened, 0, SEEK_END) != 0 || (table->file_len = (size_t)ftell(opened)) < 21)
        return 0;
    rewind(opened);
    of = table->file = malloc(table->file_len);
    if (of == NULL || fread(of, 1, table->file_len, opened) != table->file_len || fclose(opened) != 0)
        return 0;
    table->chicks = of[8];
    table->elephants = of[9];
    table->giraffes = of[10];
    table->profile = of[7] == '1' ? 0 : of[12];
    if (dobutsu_count(table->chicks, table->elephants, table->giraffes, table->profile, &positions, &table->classes) != DOBUTSU_OK
        || table->file_len < 52 + 2 * table->classes)
        return 0;
    table->len = dobutsu_index_words(table->chicks, table->elephants, table->giraffes, table->profile);
    table->words = malloc(table->len * sizeof *table->words);
    return table->words != NULL
        && dobutsu_index(table->chicks, table->elephants, table->giraffes, table->profile, table->words, table->len) == DOBUTSU_OK;
}

/* Whether the class is won in so many plies: its record, from the end of the file, is one more. */
static int is_won_in(const Table *table, uint64_t class_number, unsigned long plies)
{
    const uint8_t *record = table->file + (table->file_len - 32 - 2 * (table->classes - class_number));
    return record[0] + 256ul * record[1] == plies + 1;
}

/* How many pieces of each kind stand on the board, a hen being a chick, and where the lions stand. */
static unsigned outline_of(const DobutsuPosition *position)
{
    static const unsigned weights[] = {1, 3, 9, 1};
    unsigned outline = 0, square;
    for (square = 0; square < 12; square++) {
        unsigned cell = position->board[square], kind = (cell - 1) % 5;
        if (cell == DOBUTSU_MOVER + DOBUTSU_LION)
            outline += 27 * square;
        else if (cell == DOBUTSU_ENEMY + DOBUTSU_LION)
            outline += 27 * 12 * square;
        else if (cell != 0)
            outline += weights[kind];
    }
    return outline;
}

static void print_move(const DobutsuMove *move)
{
    putchar("CEGHL"[move->kind]);
    if (move->from == DOBUTSU_FROM_HAND)
        putchar('*');
    else
        printf("%c%u%c", "abc"[move->from % 3], (unsigned)move->from / 3 + 1, move->catches ? 'x' : '-');
    printf("%c%u%s\n", "abc"[move->to % 3], (unsigned)move->to / 3 + 1, move->grows ? "+" : "");
}

/* Prints the class's puzzle, where it is one and none with its outline was printed; how many it has printed. */
static int print_puzzle(const Table *table, uint64_t class_number, unsigned long plies, char *outlines)
{
    DobutsuPosition position;
    DobutsuText text;
    DobutsuMove moves[2];
    uint64_t count;
    char *outline;
    if (dobutsu_class_at(table->chicks, table->elephants, table->giraffes, table->profile, class_number, &position, 1) != DOBUTSU_OK
        || dobutsu_write(&position, &text) != DOBUTSU_OK
        || dobutsu_moves_by(table->file, table->file_len, table->words, table->len, text.bytes, text.length, moves, 2, &count) != DOBUTSU_OK)
        exit(3);
    outline = &outlines[outline_of(&position)];
    if (*outline || (count > 1 && moves[1].value.kind == DOBUTSU_WIN && moves[1].value.plies == plies))
        return 0;
    *outline = 1;
    printf("%.*s  ", (int)text.length, (const char *)text.bytes);
    print_move(&moves[0]);
    return 1;
}

int main(int argc, char **argv)
{
    static char outlines[OUTLINES];
    static uint64_t numbers[MANY];
    Table table;
    unsigned long plies;
    unsigned long long count, seed, printed = 0;
    uint64_t place = 0, written, n;
    if (argc != 5 || !read_table(&table, argv[1]))
        return 2;
    plies = strtoul(argv[2], NULL, 10);
    count = strtoull(argv[3], NULL, 10);
    seed = strtoull(argv[4], NULL, 10);
    if (plies < 3 || plies % 2 == 0)
        return 2;
    do {
        written = dobutsu_shuffled(seed, table.classes, &place, numbers, MANY);
        for (n = 0; n < written && printed < count; n++)
            if (is_won_in(&table, numbers[n], plies))
                printed += (unsigned)print_puzzle(&table, numbers[n], plies, outlines);
    } while (written == MANY && printed < count);
    if (printed == 0)
        puts("none");
    return 0;
}
