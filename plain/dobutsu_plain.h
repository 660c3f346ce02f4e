/* Dobutsu shogi for an engine: positions, their moves, and values by a database's file. Two files of C99 to compile in, dobutsu_plain.c
   and dobutsu_plain_classes.c; C++ too.

   Nothing is proved of it, it is only tested: it was written from docs/RULES.md, docs/FORMAT.md and docs/CLASSES.md. The proved library is
   include/dobutsu.h, whose numbers and positions these are.

   No call takes memory, keeps anything or has a state: it reads and writes what the caller hands in, and stack of some kilobytes. So any number of threads
   may call at once, and share a table that none of them opens or indexes meanwhile. No pointer may be null, and what is written to is no place that the
   call reads. A call that answers a fault has written nothing that says anything. Positions, moves, texts and files may be whatever they are. */

#ifndef DOBUTSU_PLAIN_H
#define DOBUTSU_PLAIN_H

#include <stddef.h>
#include <stdint.h>

#ifdef __cplusplus
extern "C" {
#endif

/* Faults, by the numbers of docs/FAULTS.md. */
enum {
    PLAIN_OK = 0,
    PLAIN_SHAPE = 1,         /* the text isn't a board, a space, a hand, a space and a hand */
    PLAIN_LETTER = 2,        /* a byte of the board is no piece */
    PLAIN_HAND = 3,          /* a hand is neither '-' nor letters C, E, G in order */
    PLAIN_LIONS = 4,         /* a side hasn't one lion */
    PLAIN_COUNT = 5,         /* there are more than two pieces of a kind */
    PLAIN_FAR_LION = 6,      /* the lion of the side to move stands on row 4 */
    PLAIN_OTHER_SET = 7,     /* the position isn't of the table's piece set */
    PLAIN_TRUNCATED = 15,    /* the file ends before its header, or before its records and its digest */
    PLAIN_MAGIC = 16,        /* it doesn't begin as a file does */
    PLAIN_SET_BYTE = 17,     /* its header names no piece set */
    PLAIN_CLASS_COUNT = 18,  /* its family hasn't that number of classes */
    PLAIN_TRAILING = 19,     /* it goes on behind its digest */
    PLAIN_IO = 24,           /* the caller's function didn't read */
    PLAIN_FAR_CHICK = 26,    /* by rules B no chick stands where one of the position does */
    PLAIN_PROFILE_BYTE = 27, /* the number is that of no profile of the rules */
    PLAIN_NO_MOVE = 28,      /* the position has no such move, or has ended */
    PLAIN_INDEX = 29         /* there are too few words for the index, or they aren't as they were written */
};

/* The fault as docs/FAULTS.md names it, "E7 OtherSet"; an empty text for another number. */
const char *plain_fault_text(uint32_t fault);

/* ---- Positions and moves, without a table */

/* The profiles of the rules: whether a chick may be dropped on its far row (A) or not (B). */
enum { PLAIN_RULES_A = 0, PLAIN_RULES_B = 1 };

/* Kinds of pieces, and what stands on a square: PLAIN_NOTHING, or PLAIN_MOVER or PLAIN_ENEMY and a kind. PLAIN_ENEMY + PLAIN_HEN is a hen of the side that
   isn't to move. They are of one type, so that C++ adds them without a warning. */
enum { PLAIN_CHICK = 0, PLAIN_ELEPHANT = 1, PLAIN_GIRAFFE = 2, PLAIN_HEN = 3, PLAIN_LION = 4,
       PLAIN_NOTHING = 0, PLAIN_MOVER = 1, PLAIN_ENEMY = 6 };

/* A position as the side to move sees it: what stands on a1, b1, c1, a2 and so on to c4, row 1 being its home row; and how many chicks, elephants and
   giraffes lie in its hand, and in the enemy's. */
typedef struct {
    uint8_t board[12];
    uint8_t mover[3];
    uint8_t enemy[3];
} PlainPosition;

/* A move: the kind of the piece before it, the numbers of the squares (a1 is 0, c4 is 11), from PLAIN_FROM_HAND where it is a drop; `catches` is 1 where a
   piece is caught, and `grows` where a chick becomes a hen. */
enum { PLAIN_FROM_HAND = 12 };
typedef struct {
    uint8_t kind;
    uint8_t from;
    uint8_t to;
    uint8_t catches;
    uint8_t grows;
} PlainMove;

/* No position has more moves. A lion has 8 at most; chicks and hens 12, or 6 and 10 drops; elephants and giraffes each 8, or 4 and 10 drops. */
enum { PLAIN_MOST_MOVES = 52 };

/* The status of a position: open, the enemy lion can be caught, the enemy lion has reached its far row (the side to move has lost), or there is no move (it
   has lost too). */
enum { PLAIN_OPEN = 0, PLAIN_CAUGHT = 1, PLAIN_TRIED = 2, PLAIN_STUCK = 3 };

/* How many bytes the longest text of a position and of a move has, with the zero byte at its end. */
enum { PLAIN_POSITION_TEXT = 25, PLAIN_MOVE_TEXT = 8 };

/* The position of a text of that length, as "gle/.c./.C./ELG - -". Answers the first of 1 to 6 that holds. */
uint32_t plain_read(const char *text, size_t length, PlainPosition *position);

/* Whether a position is one: answers 27 where there is no such profile, 2 where a number of the board is above 10, 4 to 6 as of a text, or 26. Each call
   below that takes a position answers these first. */
uint32_t plain_check(const PlainPosition *position, uint32_t profile);

/* The text of a position, by rules A. */
uint32_t plain_write(const PlainPosition *position, char text[PLAIN_POSITION_TEXT]);

/* The text of a move, as "Cb3xb4+" or "C*a2", and the move of a text of that length. Each answers 28 where no position has that move. */
uint32_t plain_write_move(const PlainMove *move, char text[PLAIN_MOVE_TEXT]);
uint32_t plain_read_move(const char *text, size_t length, PlainMove *move);

/* The status of a position, and its moves in the order of moves: where the enemy lion can be caught its first catch alone, and none where the game is lost. */
uint32_t plain_moves(const PlainPosition *position, uint32_t profile, PlainMove moves[PLAIN_MOST_MOVES], uint32_t *count, uint32_t *status);

/* The position after a move of an open one, as the other side sees it, which is then to move. Answers 28 where plain_moves doesn't list that very move, or
   the position isn't open: after the catch of a lion there is none. `after` may be `position`. */
uint32_t plain_play(const PlainPosition *position, uint32_t profile, const PlainMove *move, PlainPosition *after);

/* The same of a move that plain_moves listed of that very position, an open one, at a fraction of the cost: moves aren't listed again. Of anything else it
   answers 28 where its squares or its hand can't give that move, and else a position that may be none. */
uint32_t plain_play_listed(const PlainPosition *position, const PlainMove *move, PlainPosition *after);

/* ---- Values, by a table */

/* A value for the side to move: a kind, and in how many plies it can be forced at the least; 0 for a draw. */
enum { PLAIN_DRAW = 0, PLAIN_WIN = 1, PLAIN_LOSS = 2 };
typedef struct {
    uint32_t kind;
    uint32_t plies;
} PlainValue;

/* A move with the value that the side that makes it then has. */
typedef struct {
    PlainMove move;
    PlainValue value;
} PlainValuedMove;

/* Reads so many bytes of the file from an offset on, and answers 1; or 0 where it can't. Offsets and bytes lie in the length that plain_open_by was told. */
typedef int PlainReader(void *context, uint64_t offset, uint8_t *bytes, size_t length);

/* A table that is open: its family (the numbers of chicks, elephants and giraffes, and the profile of the rules) and its number of classes may be looked at.
   The caller has nothing to close. It may be copied. */
typedef struct {
    uint8_t pieces[3];
    uint8_t profile;
    uint32_t classes;
    uint32_t start;         /* where the records begin */
    const uint8_t *bytes;   /* the file, or a null pointer where `reader` reads it */
    PlainReader *reader;
    void *context;
    const uint32_t *index;  /* or a null pointer */
} PlainTable;

/* Opens the table of a file: all its bytes, read or mapped, which stay as they are; or a function that reads them, and how many they are. Answers the first
   of 15 to 19, 24 and 27 that holds of header and length, in the order of docs/FORMAT.md. Values and digest aren't tested: `dobutsu check` does. A table
   that was refused has no class, so whoever asks it all the same is answered 7 or 29. */
uint32_t plain_open(PlainTable *table, const uint8_t *bytes, size_t length);
uint32_t plain_open_by(PlainTable *table, PlainReader *reader, void *context, uint64_t length);

/* An index: words of the caller by which a probe takes 3,000 instructions at most; without them some 500,000. How many it has; and writes them, which are
   then read with the table as long as it is used. Answers 29 where there are too few. Another table of the family may take them too:
   `table.index = words`. */
enum { PLAIN_MOST_INDEX_WORDS = 2700 };
size_t plain_index_words(const PlainTable *table);
uint32_t plain_index(PlainTable *table, uint32_t *words, size_t count);

/* The value of a position, or of that of a text. Answers, after a position's faults (of a text those of plain_read), 7, 24 or 29. */
uint32_t plain_probe(const PlainTable *table, const PlainPosition *position, PlainValue *value);
uint32_t plain_probe_text(const PlainTable *table, const char *text, size_t length, PlainValue *value);

/* The moves of plain_moves with their values, best first: wins by the least distance, draws, losses by the greatest; equal ones in the order of moves. Faults
   as of plain_probe. */
uint32_t plain_values(const PlainTable *table, const PlainPosition *position, PlainValuedMove moves[PLAIN_MOST_MOVES], uint32_t *count);

/* The first of these. Answers 28 where there is none. */
uint32_t plain_best(const PlainTable *table, const PlainPosition *position, PlainValuedMove *best);

#ifdef __cplusplus
}
#endif

#endif
