/* Dobutsu shogi: positions and their moves; values and moves by a database's file; its check, and the sizes of families. C99, and C++ too.

   Link with libdobutsu.a or libdobutsu.so. A call keeps nothing, starts no thread and touches no file: the bytes of a database's file are the caller's, read
   or mapped as a whole. Only dobutsu_moves, dobutsu_moves_by, dobutsu_steps, dobutsu_make, dobutsu_class_at, dobutsu_check, dobutsu_verify and dobutsu_reply
   take memory, by malloc and realloc, and give all back by free. Files of both formats are read. examples/search.c finds values by these calls. Calls may be made by several
   threads at once, and none from a signal handler. Each pointer must be valid for as many items as its length says, aligned as its type is, and none may be
   null, also where a length is 0; what is written to is read and written by nobody else meanwhile, and a file's bytes stay as they are: where a mapped file
   is cut the system ends the program. */

#ifndef DOBUTSU_H
#define DOBUTSU_H

#include <stddef.h>
#include <stdint.h>

#ifdef __cplusplus
extern "C" {
#endif

/* The version that this header is of; dobutsu_version says the library's. Until 1.0 a program should compare them. */
#define DOBUTSU_VERSION_MAJOR 0
#define DOBUTSU_VERSION_MINOR 1
#define DOBUTSU_VERSION_PATCH 0

/* Faults, by the numbers that the program prints behind an E. A call that answers one has written nothing; but dobutsu_check writes at 21 and
   dobutsu_verify at 30, a class. The calls that answer many write each answer's fault. */
enum {
    DOBUTSU_OK = 0,
    DOBUTSU_SHAPE = 1,        /* the text isn't a board, a space, a hand, a space and a hand */
    DOBUTSU_LETTER = 2,       /* a byte of the board is no piece and no '.' */
    DOBUTSU_HAND = 3,         /* a hand is neither '-' nor letters C, E, G in order */
    DOBUTSU_LIONS = 4,        /* a side hasn't one lion */
    DOBUTSU_COUNT = 5,        /* there are more than two pieces of a kind */
    DOBUTSU_FAR_LION = 6,     /* the lion of the side to move stands on row 4 */
    DOBUTSU_OTHER_SET = 7,    /* the position isn't of the file's piece set */
    DOBUTSU_TRUNCATED = 15,   /* the bytes end before the header, or are too few for its family */
    DOBUTSU_MAGIC = 16,       /* they don't begin as a file does */
    DOBUTSU_SET_BYTE = 17,    /* the header names no piece set */
    DOBUTSU_CLASS_COUNT = 18, /* the family hasn't that number of classes */
    DOBUTSU_TRAILING = 19,    /* there are more bytes than the file has */
    DOBUTSU_DIGEST = 20,      /* the digest isn't that of the bytes before it */
    DOBUTSU_INCONSISTENT = 21, /* the value of a class doesn't follow from those of its successors */
    DOBUTSU_MEMORY = 23,      /* memory ran out */
    DOBUTSU_SET_TEXT = 25,    /* a number of pieces is above 2 */
    DOBUTSU_FAR_CHICK = 26,   /* the file's rules let no chick stand where one of the position does */
    DOBUTSU_PROFILE_BYTE = 27, /* the number is that of no profile of the rules */
    DOBUTSU_NO_MOVE = 28,     /* the position has no such move, or has ended */
    DOBUTSU_INDEX = 29, /* the numbers are no index of the family, or too few */
    DOBUTSU_UNSUPPORTED = 30, /* the other entries of a certificate don't show one of them */
    DOBUTSU_CLAIM = 31,       /* its entries don't show what it claims */
    DOBUTSU_VERSION = 32,     /* a certificate is of another version */
    DOBUTSU_ROOT_CLASS = 33,  /* the family has no class of the root's number */
    DOBUTSU_NO_CLASS = 33,    /* it has no class of a number that is asked for */
    DOBUTSU_CLAIM_BYTE = 34,  /* it claims nothing known */
    DOBUTSU_ENTRY_COUNT = 35, /* it counts more entries than the family has classes */
    DOBUTSU_ENTRY_NUMBER = 36, /* an entry doesn't begin with a number in its fewest bytes */
    DOBUTSU_ENTRY_ORDER = 37, /* an entry's class isn't above the one before it */
    DOBUTSU_ENTRY_CLASS = 38, /* the family has no class of an entry's number */
    DOBUTSU_UNLISTED = 41,    /* the certificate says nothing of the position */
    DOBUTSU_ENTRY_PLIES = 42  /* a lost entry is told for ever, 255, which says nothing there */
};

enum { DOBUTSU_DRAW = 0, DOBUTSU_WIN = 1, DOBUTSU_LOSS = 2 };

/* Kinds of pieces, and where a piece comes from that is dropped. What stands on a square: 0 where nothing does, else DOBUTSU_MOVER or DOBUTSU_ENEMY and the
   piece's kind: DOBUTSU_ENEMY + DOBUTSU_LION is the lion of the side that isn't to move. All are of one type, so that C++ adds them without a warning. */
enum { DOBUTSU_CHICK = 0, DOBUTSU_ELEPHANT = 1, DOBUTSU_GIRAFFE = 2, DOBUTSU_HEN = 3, DOBUTSU_LION = 4, DOBUTSU_FROM_HAND = 12,
       DOBUTSU_MOVER = 1, DOBUTSU_ENEMY = 6 };

/* The status of a position: open, the enemy lion can be caught, the enemy lion has reached its far row (the side to move has lost), or there is no move (it has
   lost too). */
enum { DOBUTSU_OPEN = 0, DOBUTSU_CAUGHT = 1, DOBUTSU_TRIED = 2, DOBUTSU_STUCK = 3 };

/* A hint for how much room to give dobutsu_moves and dobutsu_steps: no position was seen to have more moves, but nothing proves it. What `count` says
   decides. */
enum { DOBUTSU_MOST_MOVES = 38 };

/* A value for the side to move: a kind, and in how many plies it can be forced at the least; 0 for a draw. */
typedef struct {
    uint32_t kind;
    uint32_t plies;
} DobutsuValue;

/* A move with the value that the side that makes it then has. Squares are numbers: a1 is 0, b1 1, c1 2, a2 3 and so on to c4, 11, row 1 being the home row
   of the side to move; a drop comes from DOBUTSU_FROM_HAND. `kind` is the piece's before the move; `catches` is 1 where a piece is caught and `grows` where a
   chick becomes a hen, else 0. */
typedef struct {
    uint32_t kind;
    uint32_t from;
    uint32_t to;
    uint32_t catches;
    uint32_t grows;
    DobutsuValue value;
} DobutsuMove;

/* The same without a value: it is laid out as a DobutsuMove begins. */
typedef struct {
    uint32_t kind;
    uint32_t from;
    uint32_t to;
    uint32_t catches;
    uint32_t grows;
} DobutsuStep;

/* How many pieces of each kind lie in a hand. */
typedef struct {
    uint8_t chicks;
    uint8_t elephants;
    uint8_t giraffes;
} DobutsuHand;

/* A position as the side to move sees it: what stands on a1, b1, c1, a2 and so on to c4, and the hands. It has no room between its parts, so that two are the
   same where their bytes are. It needn't be a legal position: each call says what it answers then. */
typedef struct {
    uint8_t board[12];
    DobutsuHand mover;
    DobutsuHand enemy;
} DobutsuPosition;

/* One of many answers: the fault, and where it is 0 the value. */
typedef struct {
    uint32_t fault;
    DobutsuValue value;
} DobutsuAnswer;

/* A text: the first `length` of these bytes. No zero byte ends it. */
typedef struct {
    uint32_t length;
    uint8_t bytes[32];
} DobutsuText;

/* What a certificate claims: of the first position of class `root` of the family of these chicks, elephants and giraffes by profile 0 (A) or 1 (B), a
   value's kind in `plies` plies, or within them if `within` is 1; 0 plies for a draw. */
typedef struct {
    uint32_t chicks;
    uint32_t elephants;
    uint32_t giraffes;
    uint32_t profile;
    uint32_t root;
    uint32_t kind;
    uint32_t plies;
    uint32_t within;
} DobutsuClaim;

typedef struct {
    uint32_t major;
    uint32_t minor;
    uint32_t patch;
} DobutsuVersion;

/* What a file's header says: how many classes its family has, how many bytes stand before the first class's record (each has two), the numbers of chicks,
   elephants and giraffes, and the profile, 0 (A) or 1 (B). */
typedef struct {
    uint64_t classes;
    uint64_t first;
    uint32_t chicks;
    uint32_t elephants;
    uint32_t giraffes;
    uint32_t profile;
} DobutsuHeader;

/* The value that the bytes of a database's file give the position whose text that is, as "..l/.../L../... - -" (no zero byte ends it). Answers 0 and
   writes the value, or the first fault that holds: 1 to 6, then 15 to 19 or 27 of the file's header and length, then 26, then 7. One record is
   looked at, and no digest is read, so damage elsewhere isn't seen. The value is right where the file is the family's table. It takes microseconds for small
   sets, and some hundredths of a second for two pieces of each kind, where the classes before the position are counted: dobutsu_probe_by doesn't. */
uint32_t dobutsu_probe(const uint8_t *file, size_t file_len, const uint8_t *text, size_t text_len, DobutsuValue *answer);

/* The moves of the position, each with its value, best first: wins by the least distance, draws, losses by the greatest; equal ones in the order of moves.
   Where the enemy lion can be caught there is its first catch alone, and no move where the position is lost already. Answers 0, writes how many moves
   there are and the first of them, as many as there is room for; or a fault as dobutsu_probe does, or 23. A record a move is looked at, and no digest. */
uint32_t dobutsu_moves(const uint8_t *file, size_t file_len, const uint8_t *text, size_t text_len, DobutsuMove *moves, size_t moves_len,
                       uint64_t *count);

/* Whether the bytes are a database's file of a consistent table, which gives each position its right value, whoever made it. Answers 0 where they are;
   21 where the table isn't consistent, and writes the least class whose value doesn't follow from those of its successors; or 15 to 20, 27 or 23, and
   writes nothing. It takes 2 bytes of memory a class and some millions more, and time: it looks at all moves, by one thread. */
uint32_t dobutsu_check(const uint8_t *file, size_t file_len, uint64_t *broken);

/* Whether the bytes are a certificate's file whose lists prove what it claims, whoever made it: they need no database. Answers 0 where they are, and writes
   what is claimed, which then holds; 30 where an entry isn't supported, and writes the class of the first one; 31 where all are and don't show the claim; or
   15 to 17, 19, 20, 27, 32 to 38, 42 or 23, and writes nothing. It takes 8 bytes of memory an entry and some millions for two pieces of each kind. */
uint32_t dobutsu_verify(const uint8_t *file, size_t file_len, DobutsuClaim *claim, uint64_t *unsupported);

/* The move that the bytes of a certificate's file give the position whose text that is: the first that catches the lion, or the first after which the other
   side is lost within the fewest plies that the certificate says; `value` is a win within so many plies. Of a position that it says to be lost there is no
   move: the numbers are 0, and `value` is a loss within so many plies. Answers 0 and writes that, which is right whoever made the certificate, since each of
   its lost classes is looked at before, in the time and memory of dobutsu_verify. Or it writes nothing: 1 to 6 of the text, then a fault of the bytes as
   dobutsu_verify has them, then 26, then 7 of the position in the certificate, 30 where an entry of the lost classes isn't supported, 41 where the
   certificate says nothing of the position, or 23. */
uint32_t dobutsu_reply(const uint8_t *file, size_t file_len, const uint8_t *text, size_t text_len, DobutsuMove *reply);

/* What the header of a database's file says: which set and by which rules. Answers 0 and writes that, or 15 to 19 or 27, by the header and the length, and
   writes nothing. No digest is read. */
uint32_t dobutsu_header(const uint8_t *file, size_t file_len, DobutsuHeader *header);

/* How many positions and how many classes (positions with their mirror images) a family has: these chicks, elephants and giraffes, 0 to 2 each, by
   profile 0 (A) or 1 (B, where no chick is dropped on its far row). Answers 0 and writes both, or 25 or else 27. The two places are different. */
uint32_t dobutsu_count(uint32_t chicks, uint32_t elephants, uint32_t giraffes, uint32_t profile, uint64_t *positions, uint64_t *classes);

/* An index: numbers in the caller's memory, by which a position's class is found in microseconds, also with two pieces of each kind. It is written once for a
   family, as dobutsu_count names it, and read by any number of calls and threads. It holds no pointer, so that it may be copied or stored. How many numbers
   it has; 0 where there is no such family. For two pieces of each kind they are 2.2 million bytes. */
uint64_t dobutsu_index_words(uint32_t chicks, uint32_t elephants, uint32_t giraffes, uint32_t profile);

/* Writes the index of a family into the first of the numbers, and nothing behind it. Answers 0, or 25 or else 27 as dobutsu_count does, or 29 where there are
   fewer than dobutsu_index_words says. It takes some hundredths of a second for two pieces of each kind. */
uint32_t dobutsu_index(uint32_t chicks, uint32_t elephants, uint32_t giraffes, uint32_t profile, uint64_t *words, size_t words_len);

/* What dobutsu_probe and dobutsu_moves give, by an index. With the index of the file's family as dobutsu_index wrote it the answers are just theirs, and
   right where the file is the family's table. With any other numbers a call still returns and reads nothing outside of them. It answers the value of some
   record of the file, or all moves by the values of such records; or a fault that dobutsu_probe may answer, or 29: where the first number isn't that of an
   index of the file's family, where the third or how many there are isn't what it has, or where they lead outside of the file. */
uint32_t dobutsu_probe_by(const uint8_t *file, size_t file_len, const uint64_t *words, size_t words_len, const uint8_t *text, size_t text_len,
                          DobutsuValue *answer);
uint32_t dobutsu_moves_by(const uint8_t *file, size_t file_len, const uint64_t *words, size_t words_len, const uint8_t *text, size_t text_len,
                          DobutsuMove *moves, size_t moves_len, uint64_t *count);

/* The number of the position's class in a family, by its index: how many classes stand before it, so that its record is bytes 21 + 2 * class and the next of
   a file of format 2. Answers 0 and writes it, or 1 to 6 of the text, 25 or 27 of the family, 29, 26 or 7. Of other numbers holds what is said above. */
uint32_t dobutsu_class_by(uint32_t chicks, uint32_t elephants, uint32_t giraffes, uint32_t profile, const uint64_t *words, size_t words_len,
                          const uint8_t *text, size_t text_len, uint64_t *class_number);

/* What dobutsu_probe_by answers of many positions: the texts stand one behind the other in `texts`, and `ends` says for each where it ends and the next
   begins. (A text that ends before it begins is empty, and what lies behind the bytes isn't there, so that any numbers may be given.) For each text, as far
   as there are answers, the fault is written, and the value where that is 0; where it isn't the value is left as it was. Answers how many answers it has
   written: the less of `ends_len` and `answers_len`. The others are left as they were. */
uint64_t dobutsu_probe_many(const uint8_t *file, size_t file_len, const uint64_t *words, size_t words_len, const uint8_t *texts, size_t texts_len,
                            const uint64_t *ends, size_t ends_len, DobutsuAnswer *answers, size_t answers_len);

/* The same of positions: the fault is that of dobutsu_probe_by for the position's text, or 2 or 4 to 6 as dobutsu_write answers. */
uint64_t dobutsu_probe_positions(const uint8_t *file, size_t file_len, const uint64_t *words, size_t words_len, const DobutsuPosition *positions,
                                 size_t positions_len, DobutsuAnswer *answers, size_t answers_len);

/* ---- Positions, without a file. `profile` is 0 (A) or 1 (B). A call on a DobutsuPosition with a profile answers 27 where there is no such profile; else 2
   where a number of the board is above 10, 4 to 6 as of a text; else 26 where rules B don't let a chick stand where one does; and then writes nothing. */

/* The position of a text. Answers 0 and writes it; or the text's fault, 1 to 6, and writes nothing. */
uint32_t dobutsu_read(const uint8_t *text, size_t text_len, DobutsuPosition *position);

/* The text of a position. Answers 0 and writes it; or 2 or 4 to 6, and writes nothing. */
uint32_t dobutsu_write(const DobutsuPosition *position, DobutsuText *text);

/* The status of a position, and its moves in the order of moves. Where the enemy lion can be caught there is its first catch alone, and no move where the
   position is lost already. Answers 0, writes the status, how many moves there are, and the first of them, as many as there is room for; or a fault as
   above, or 23 where memory ran out, and writes nothing. */
uint32_t dobutsu_steps(const DobutsuPosition *position, uint32_t profile, DobutsuStep *steps, size_t steps_len, uint64_t *count, uint32_t *status);

/* The position after a move of an open position, as the side sees it that moves next. Answers 0 and writes it; or a fault as above, 28 where the position isn't
   open or dobutsu_steps doesn't list that very move, or 23; and writes nothing. The catch of a lion leads to no position, so it is
   never made. `after` is another place than `position`. */
uint32_t dobutsu_make(const DobutsuPosition *position, uint32_t profile, const DobutsuStep *step, DobutsuPosition *after);

/* The number of the position's class among those of its pieces. Answers 0 and writes it; or a fault as above, and writes nothing. It takes some hundredths of a
   second for two pieces of each kind: dobutsu_class_by doesn't. */
uint32_t dobutsu_class(const DobutsuPosition *position, uint32_t profile, uint64_t *class_number);

/* The first positions of the classes `first`, `first` + 1 and so on of a family, as many as there is room for: the position that stands for the class, of which
   the other one is the mirror image. Answers 0 and writes them all; or 25 or else 27 as dobutsu_count does, 33 where the family has fewer classes, or 23; and
   writes nothing. It takes some hundredths of a second for two pieces of each kind, and then less than a microsecond a class: ask for many at once. */
uint32_t dobutsu_class_at(uint32_t chicks, uint32_t elephants, uint32_t giraffes, uint32_t profile, uint64_t first, DobutsuPosition *positions,
                          size_t positions_len);

/* ---- Numbers in the order of a seed. */

/* The numbers below `count`, each once, in the order that the seed makes: that in which the program's `puzzles --random` goes over as many classes. `place` is 0
   at first. Writes the next numbers, as many as there is room for, and into `place` where the next call goes on, by the same seed and count. Answers how
   many numbers it has written: fewer than there is room for where none is left. What stands behind them is left as it was. A `count` of 2^63 or more isn't
   shuffled: 0 is answered, and nothing is written. `place` lies outside of `numbers`. examples/puzzles.c draws puzzles by it. */
uint64_t dobutsu_shuffled(uint64_t seed, uint64_t count, uint64_t *place, uint64_t *numbers, size_t numbers_len);

/* The text of a fault, as the program prints it: "E7 OtherSet". The class that it prints behind 21 and 30 isn't there. Answers how many bytes the text has;
   0 for a number that is none of the faults above, whose text is empty. */
uint32_t dobutsu_fault_text(uint32_t fault, DobutsuText *text);

/* The version, which is that of the program. */
DobutsuVersion dobutsu_version(void);

#ifdef __cplusplus
}
#endif

#endif
