/* Prints the version of dobutsu.h. The status is 1 where the library is of another one. */
#include "dobutsu.h"
#include <stdio.h>
int main(void)
{
    DobutsuVersion found = dobutsu_version();
    printf("dobutsu %d.%d.%d\n", DOBUTSU_VERSION_MAJOR, DOBUTSU_VERSION_MINOR, DOBUTSU_VERSION_PATCH);
    return found.major != DOBUTSU_VERSION_MAJOR || found.minor != DOBUTSU_VERSION_MINOR || found.patch != DOBUTSU_VERSION_PATCH;
}
