/* Tells the values of positions, a line of standard input each, by a database's file: probe FILE < POSITIONS. A line is the program's own: "win 3",
   "loss 2", "draw", or the number of a fault. Build, beside libdobutsu.a of the archive or of tools/library:
   cc examples/probe.c -Iinclude -I. libdobutsu.a -o probe */

#include <fcntl.h>
#include <stdio.h>
#include <string.h>
#include <sys/mman.h>
#include <sys/stat.h>
#include <unistd.h>

#include "dobutsu.h"

static void tell(const uint8_t *file, size_t file_len, const char *text, size_t text_len)
{
    DobutsuValue value;
    uint32_t fault = dobutsu_probe(file, file_len, (const uint8_t *)text, text_len, &value);
    if (fault != DOBUTSU_OK)
        printf("E%u\n", (unsigned)fault);
    else if (value.kind == DOBUTSU_DRAW)
        puts("draw");
    else
        printf("%s %u\n", value.kind == DOBUTSU_WIN ? "win" : "loss", (unsigned)value.plies);
}

int main(int argc, char **argv)
{
    static const uint8_t nothing[1];
    const uint8_t *file = nothing;
    struct stat about;
    char line[256];
    int opened;

    if (argc != 2) {
        fprintf(stderr, "usage: %s FILE < POSITIONS\n", argv[0]);
        return 2;
    }
    opened = open(argv[1], O_RDONLY);
    if (opened < 0 || fstat(opened, &about) != 0) {
        perror(argv[1]);
        return 1;
    }
    if (about.st_size > 0) {
        void *mapped = mmap(NULL, (size_t)about.st_size, PROT_READ, MAP_PRIVATE, opened, 0);
        if (mapped == MAP_FAILED) {
            perror(argv[1]);
            return 1;
        }
        file = mapped;
    }
    while (fgets(line, sizeof line, stdin) != NULL)
        tell(file, (size_t)about.st_size, line, strcspn(line, "\n"));
    return 0;
}
