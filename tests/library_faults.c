/* Prints the text of each fault that the library names. The status is 1 where a length is not the one that was answered. */
#include "dobutsu.h"
#include <stdio.h>
int main(void)
{
    DobutsuText text;
    unsigned fault;
    for (fault = 0; fault < 100; fault++)
        if (dobutsu_fault_text(fault, &text) == text.length && text.length > 0)
            printf("%.*s\n", (int)text.length, (const char *)text.bytes);
    return dobutsu_fault_text(UINT32_MAX, &text) != 0 || text.length != 0;
}
