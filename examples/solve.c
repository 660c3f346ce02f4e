/* Tells the best move of positions and the line of best moves, by probes alone: solve FILE < POSITIONS. A position stands on a line of standard input, its
   answer on a line: the best move, its value, and behind a colon what `dobutsu line` prints; or `end` where the side to move has lost already, or a
   fault's number. The index of the file's family is made once. Build, beside libdobutsu.a of the archive or of tools/library:
   cc examples/solve.c -Iinclude -I. libdobutsu.a -o solve */

#include <ctype.h>
#include <stdio.h>
#include <stdlib.h>
#include <string.h>

#include "dobutsu.h"

/* A table's file and the index of its family. */
typedef struct {
    uint8_t *file;
    size_t file_len;
    uint64_t *words;
    size_t len;
} Table;

/* A position: square a1 is 0, c4 is 11, and the side to move, whose hand is the first, has capital letters. */
typedef struct {
    char board[12];
    char hands[2][8];
} Position;

static int read_table(Table *table, const char *name)
{
    FILE *opened = fopen(name, "rb");
    uint8_t *of;
    uint32_t profile;
    if (opened == NULL || fseek(opened, 0, SEEK_END) != 0 || (table->file_len = (size_t)ftell(opened)) < 21)
        return 0;
    rewind(opened);
    of = table->file = malloc(table->file_len);
    if (of == NULL || fread(of, 1, table->file_len, opened) != table->file_len || fclose(opened) != 0)
        return 0;
    profile = of[7] == '1' ? 0 : of[12];
    table->len = dobutsu_index_words(of[8], of[9], of[10], profile);
    table->words = malloc(table->len * sizeof *table->words);
    return table->words != NULL && dobutsu_index(of[8], of[9], of[10], profile, table->words, table->len) == DOBUTSU_OK;
}

/* Of a text that the library has found right. */
static void read_position(Position *position, const char *text)
{
    int square;
    for (square = 0; square < 12; square++)
        position->board[square] = text[4 * (3 - square / 3) + square % 3];
    sscanf(text + 16, "%7s %7s", position->hands[0], position->hands[1]);
}

static size_t write_position(const Position *position, char *text)
{
    const char *board = position->board;
    return (size_t)sprintf(text, "%.3s/%.3s/%.3s/%.3s %s %s", board + 9, board + 6, board + 3, board, position->hands[0], position->hands[1]);
}

static char other_side(int letter)
{
    return (char)(isupper(letter) ? tolower(letter) : toupper(letter));
}

/* Puts a piece into the mover's hand, or takes one out where `by` is -1; a hand without any is "-". */
static void change_hand(char *hand, char letter, int by)
{
    char changed[8] = "", *end = changed;
    const char *kind, *held;
    for (kind = "CEG"; *kind != '\0'; kind++) {
        int count = *kind == letter ? by : 0;
        for (held = hand; *held != '\0'; held++)
            count += *held == *kind;
        for (; count > 0; count--)
            *end++ = *kind;
    }
    strcpy(hand, *changed == '\0' ? "-" : changed);
}

/* Makes a move and turns the board, so that it is seen from the other side. */
static void make_move(Position *position, const DobutsuMove *move)
{
    char letter = "CEGHL"[move->kind], caught = (char)toupper(position->board[move->to]);
    Position before;
    int place;
    if (move->from == DOBUTSU_FROM_HAND)
        change_hand(position->hands[0], letter, -1);
    else
        position->board[move->from] = '.';
    if (move->catches)
        change_hand(position->hands[0], caught == 'H' ? 'C' : caught, 1);
    position->board[move->to] = move->grows ? 'H' : letter;
    before = *position;
    for (place = 0; place < 12; place++)
        position->board[place] = other_side(before.board[11 - place]);
    for (place = 0; place < 16; place++)
        position->hands[place / 8][place % 8] = other_side(before.hands[1 - place / 8][place % 8]);
}

/* A move as the side to move in the first position sees it; that of the other side has a small letter. */
static void print_move(const DobutsuMove *move, int second)
{
    unsigned from = second ? 11 - move->from : move->from, to = second ? 11 - move->to : move->to;
    putchar((second ? "ceghl" : "CEGHL")[move->kind]);
    if (move->from == DOBUTSU_FROM_HAND)
        putchar('*');
    else
        printf("%c%u%c", "abc"[from % 3], from / 3 + 1, move->catches ? 'x' : '-');
    printf("%c%u%s", "abc"[to % 3], to / 3 + 1, move->grows ? "+" : "");
}

static void solve(const Table *table, char *text, size_t text_len)
{
    DobutsuMove best;
    Position position;
    uint64_t count;
    int moves, caught = 0;
    for (moves = 0; !caught; moves++) {
        uint32_t fault = dobutsu_moves_by(table->file, table->file_len, table->words, table->len, (const uint8_t *)text, text_len, &best, 1, &count);
        if (fault != DOBUTSU_OK)
            printf("E%u", (unsigned)fault);
        else if (count == 0 && moves == 0)
            printf("end");
        if (fault != DOBUTSU_OK || count == 0)
            break;
        if (moves == 0) {
            read_position(&position, text);
            print_move(&best, 0);
            printf(best.value.kind == DOBUTSU_WIN ? " win %u: " : best.value.kind == DOBUTSU_LOSS ? " loss %u: " : " draw: draw", best.value.plies);
        } else
            putchar(' ');
        if (best.value.kind == DOBUTSU_DRAW)
            break;
        print_move(&best, moves % 2);
        caught = best.catches && toupper(position.board[best.to]) == 'L';
        make_move(&position, &best);
        text_len = write_position(&position, text);
    }
    putchar('\n');
}

int main(int argc, char **argv)
{
    Table table;
    char text[256];
    if (argc != 2 || !read_table(&table, argv[1]))
        return 2;
    while (fgets(text, sizeof text, stdin) != NULL)
        solve(&table, text, strcspn(text, "\n"));
    return 0;
}
