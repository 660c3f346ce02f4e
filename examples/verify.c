/* Whether certificates prove what they claim: verify CERT.. prints for each the claim, as "100 A class 686 loss 8", or the number of its fault.
   Build, beside libdobutsu.a of the archive or of tools/library:
   cc examples/verify.c -Iinclude -I. libdobutsu.a -o verify */
#include "dobutsu.h"

#include <inttypes.h>
#include <stdio.h>
#include <stdlib.h>

static const char *const KINDS[] = {"draw", "win", "loss"};

/* The file's bytes and how many there are; ends the program where it can't be read. */
static uint8_t *bytes_of(const char *path, size_t *len) {
    FILE *file = fopen(path, "rb");
    if (!file || fseek(file, 0, SEEK_END)) exit(3);
    long size = ftell(file);
    uint8_t *bytes = size < 0 ? NULL : malloc((size_t)size + 1);
    if (!bytes || fseek(file, 0, SEEK_SET) || fread(bytes, 1, (size_t)size, file) != (size_t)size) exit(3);
    fclose(file);
    *len = (size_t)size;
    return bytes;
}

int main(int count, char **paths) {
    for (int i = 1; i < count; i++) {
        size_t len;
        uint8_t *bytes = bytes_of(paths[i], &len);
        DobutsuClaim claim;
        uint64_t unsupported;
        uint32_t fault = dobutsu_verify(bytes, len, &claim, &unsupported);
        free(bytes);
        if (fault == DOBUTSU_UNSUPPORTED) {
            printf("E%u class %" PRIu64 "\n", fault, unsupported);
        } else if (fault) {
            printf("E%u\n", fault);
        } else {
            printf("%u%u%u %c class %u %s%s", claim.chicks, claim.elephants, claim.giraffes, "AB"[claim.profile], claim.root, KINDS[claim.kind],
                   claim.within ? " within" : "");
            if (claim.kind != DOBUTSU_DRAW) printf(" %u", claim.plies);
            printf("\n");
        }
    }
    return 0;
}
