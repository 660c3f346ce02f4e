/* Asks plain/ as the program is asked: plain_ask texts|probe|moves|best bytes|index|reader FILE < POSITIONS. It prints what
   `--each` does, `texts` what `probe` does: by the file's bytes, mapped; by an index too; or by an index and a function that reads. Where the file is refused
   it prints its fault alone. plain_ask moves: prints the text of all numbers of a move that have one, each of which is read as it was. */

#include <fcntl.h>
#include <stdio.h>
#include <stdlib.h>
#include <string.h>
#include <sys/mman.h>
#include <sys/stat.h>
#include <unistd.h>

#include "dobutsu_plain.h"

static int read_file(void *context, uint64_t offset, uint8_t *bytes, size_t length)
{
    return pread(*(int *)context, bytes, length, (off_t)offset) == (ssize_t)length;
}

static void tell(PlainValue value)
{
    if (value.kind == PLAIN_DRAW)
        puts("draw");
    else
        printf("%s %u\n", value.kind == PLAIN_WIN ? "win" : "loss", (unsigned)value.plies);
}

static void tell_moves(const PlainTable *table, const PlainPosition *position)
{
    PlainValuedMove moves[PLAIN_MOST_MOVES];
    char text[PLAIN_MOVE_TEXT];
    uint32_t count, number, fault = plain_values(table, position, moves, &count);
    if (fault != PLAIN_OK)
        puts(plain_fault_text(fault));
    else if (count == 0)
        puts("end");
    for (number = 0; fault == PLAIN_OK && number < count; number++) {
        plain_write_move(&moves[number].move, text);
        printf("%s ", text);
        tell(moves[number].value);
    }
    puts("");
}

static void tell_best(const PlainTable *table, const PlainPosition *position)
{
    PlainValuedMove best;
    char text[PLAIN_MOVE_TEXT];
    uint32_t fault = plain_best(table, position, &best);
    if (fault == PLAIN_NO_MOVE) {
        puts("end");
    } else if (fault != PLAIN_OK) {
        puts(plain_fault_text(fault));
    } else {
        plain_write_move(&best.move, text);
        printf("%s ", text);
        tell(best.value);
    }
}

static void answer(const PlainTable *table, const char *word, const char *line)
{
    PlainPosition position;
    PlainValue value;
    char text[PLAIN_POSITION_TEXT];
    uint32_t fault = plain_read(line, strlen(line), &position);
    if (fault == PLAIN_OK && (plain_write(&position, text) != PLAIN_OK || strcmp(text, line) != 0))
        exit(3);
    if (strcmp(word, "texts") == 0)
        fault = plain_probe_text(table, line, strlen(line), &value);
    else if (strcmp(word, "probe") == 0 && fault == PLAIN_OK)
        fault = plain_probe(table, &position, &value);
    if (fault != PLAIN_OK)
        printf(strcmp(word, "moves") == 0 ? "%s\n\n" : "%s\n", plain_fault_text(fault));
    else if (strcmp(word, "moves") != 0 && strcmp(word, "best") != 0)
        tell(value);
    else if (strcmp(word, "moves") == 0)
        tell_moves(table, &position);
    else
        tell_best(table, &position);
}

/* Prints the texts of all moves, by numbers that go beyond them. */
static int tell_all_moves(void)
{
    unsigned number;
    for (number = 0; number < 7 * 14 * 14 * 3 * 3; number++) {
        PlainMove move, read;
        char text[PLAIN_MOVE_TEXT];
        move.grows = (uint8_t)(number % 3);
        move.catches = (uint8_t)(number / 3 % 3);
        move.to = (uint8_t)(number / 9 % 14);
        move.from = (uint8_t)(number / 9 / 14 % 14);
        move.kind = (uint8_t)(number / 9 / 14 / 14);
        if (plain_write_move(&move, text) != PLAIN_OK)
            continue;
        if (plain_read_move(text, strlen(text), &read) != PLAIN_OK || memcmp(&move, &read, sizeof read) != 0)
            return 3;
        puts(text);
    }
    return 0;
}

int main(int argc, char **argv)
{
    static uint32_t words[PLAIN_MOST_INDEX_WORDS];
    static char line[4096];
    PlainTable table;
    struct stat about;
    void *mapped = words;
    uint32_t fault;
    int opened = argc == 4 ? open(argv[3], O_RDONLY) : -1;
    if (argc == 2)
        return tell_all_moves();
    if (opened < 0 || fstat(opened, &about) != 0)
        return 2;
    if (about.st_size > 0)
        mapped = mmap(NULL, (size_t)about.st_size, PROT_READ, MAP_PRIVATE, opened, 0);
    if (mapped == MAP_FAILED)
        return 2;
    if (strcmp(argv[2], "reader") == 0)
        fault = plain_open_by(&table, read_file, &opened, (uint64_t)about.st_size);
    else
        fault = plain_open(&table, (const uint8_t *)mapped, (size_t)about.st_size);
    if (fault == PLAIN_OK && strcmp(argv[2], "bytes") != 0)
        fault = plain_index(&table, words, plain_index_words(&table));
    if (fault != PLAIN_OK) {
        puts(plain_fault_text(fault));
        return 1;
    }
    while (fgets(line, sizeof line, stdin) != NULL) {
        line[strcspn(line, "\n")] = '\0';
        answer(&table, argv[1], line);
    }
    return 0;
}
