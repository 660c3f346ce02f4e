/* What dobutsu_plain.c and dobutsu_plain_classes.c share. A caller includes dobutsu_plain.h alone. */

#ifndef DOBUTSU_PLAIN_CLASSES_H
#define DOBUTSU_PLAIN_CLASSES_H

#include "dobutsu_plain.h"

#ifdef __cplusplus
extern "C" {
#endif

enum { SQUARES = 12 };

enum { FALSE = 0, TRUE = 1 };

/* As what each piece is counted: the kind as which it lies in a hand, a lion as one of its side's, and nothing. */
enum { OWN_LION = 3, ENEMY_LION = 4, NOTHING = 5 };
static const uint8_t COUNTED_AS[11] = {NOTHING, 0, 1, 2, 0, OWN_LION, 0, 1, 2, 0, ENEMY_LION};

/* How many classes the table's family has. */
uint32_t plain_class_count(const PlainTable *table);

/* The number of the class of a position of the table's family. */
uint32_t plain_class_number(const PlainTable *table, const PlainPosition *position);

#ifdef __cplusplus
}
#endif

#endif
