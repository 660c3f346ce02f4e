/* Dobutsu shogi for an engine, as dobutsu_plain.h tells it; nothing is proved of this file. The rules are those of docs/RULES.md, the bytes of a file those of
   docs/FORMAT.md. Class numbers are counted in dobutsu_plain_classes.c. */

#include "dobutsu_plain_classes.h"

/* ---- Squares and pieces */

static int is_movers(unsigned piece)
{
    return piece >= PLAIN_MOVER && piece < PLAIN_ENEMY;
}

static unsigned kind_of(unsigned piece)
{
    return piece < PLAIN_ENEMY ? piece - PLAIN_MOVER : piece - PLAIN_ENEMY;
}

/* Tests a position, and counts its pieces, those in hand too, by what they are counted as. */
static uint32_t check(const PlainPosition *position, uint32_t profile, unsigned counts[6])
{
    unsigned square, kind;
    if (profile > PLAIN_RULES_B)
        return PLAIN_PROFILE_BYTE;
    counts[OWN_LION] = counts[ENEMY_LION] = counts[NOTHING] = 0;
    for (kind = 0; kind < 3; kind++)
        counts[kind] = (unsigned)position->mover[kind] + position->enemy[kind];
    for (square = 0; square < SQUARES; square++) {
        if (position->board[square] > PLAIN_ENEMY + PLAIN_LION)
            return PLAIN_LETTER;
        counts[COUNTED_AS[position->board[square]]]++;
    }
    if (counts[OWN_LION] != 1 || counts[ENEMY_LION] != 1)
        return PLAIN_LIONS;
    if (counts[0] > 2 || counts[1] > 2 || counts[2] > 2)
        return PLAIN_COUNT;
    for (square = 9; square < SQUARES; square++)
        if (position->board[square] == PLAIN_MOVER + PLAIN_LION)
            return PLAIN_FAR_LION;
    for (square = 9; square < SQUARES && profile == PLAIN_RULES_B; square++)
        if (position->board[square] == PLAIN_MOVER + PLAIN_CHICK || position->board[square - 9] == PLAIN_ENEMY + PLAIN_CHICK)
            return PLAIN_FAR_CHICK;
    return PLAIN_OK;
}

uint32_t plain_check(const PlainPosition *position, uint32_t profile)
{
    unsigned counts[6];
    return check(position, profile, counts);
}

/* ---- Texts */

/* The letters of what stands on a square, by its number. */
static const char LETTERS[] = ".CEGHLceghl";

/* Reads the word of a hand up to its end; FALSE where it isn't one. */
static int read_hand(const char *word, size_t length, const char *letters, size_t hand[3])
{
    size_t at = 0;
    unsigned kind;
    for (kind = 0; kind < 3; kind++)
        for (hand[kind] = 0; at < length && word[at] == letters[kind]; at++)
            hand[kind]++;
    return at == length || (length == 1 && word[0] == '-');
}

uint32_t plain_read(const char *text, size_t length, PlainPosition *position)
{
    PlainPosition found;
    size_t hands[2][3], at, middle = 0, spaces = 0;
    unsigned square, kind;
    uint32_t fault;
    for (at = 0; at < length; at++) {
        if ((unsigned char)text[at] > 127 || (at < 15 && (text[at] == ' ' || (text[at] == '/') != (at % 4 == 3))))
            return PLAIN_SHAPE;
        if (text[at] == ' ' && ++spaces == 2)
            middle = at;
    }
    if (length < 19 || spaces != 2 || text[15] != ' ' || middle == 16 || middle == length - 1)
        return PLAIN_SHAPE;
    for (square = 0; square < SQUARES; square++) {
        uint8_t piece = 0;
        while (LETTERS[piece] != '\0' && LETTERS[piece] != text[4 * (3 - square / 3) + square % 3])
            piece++;
        found.board[square] = piece;
        if (LETTERS[piece] == '\0')
            return PLAIN_LETTER;
    }
    if (!read_hand(text + 16, middle - 16, "CEG", hands[0]) || !read_hand(text + middle + 1, length - middle - 1, "ceg", hands[1]))
        return PLAIN_HAND;
    for (kind = 0; kind < 3; kind++) {
        found.mover[kind] = (uint8_t)(hands[0][kind] > 3 ? 3 : hands[0][kind]);
        found.enemy[kind] = (uint8_t)(hands[1][kind] > 3 ? 3 : hands[1][kind]);
    }
    fault = plain_check(&found, PLAIN_RULES_A);
    if (fault == PLAIN_OK)
        *position = found;
    return fault;
}

static char *write_hand(char *text, const uint8_t hand[3], const char *letters)
{
    char *begin = text;
    unsigned kind, number;
    for (kind = 0; kind < 3; kind++)
        for (number = 0; number < hand[kind]; number++)
            *text++ = letters[kind];
    if (text == begin)
        *text++ = '-';
    return text;
}

uint32_t plain_write(const PlainPosition *position, char text[PLAIN_POSITION_TEXT])
{
    uint32_t fault = plain_check(position, PLAIN_RULES_A);
    unsigned square;
    if (fault != PLAIN_OK)
        return fault;
    for (square = 0; square < SQUARES; square++) {
        text[4 * (3 - square / 3) + square % 3] = LETTERS[position->board[square]];
        text[4 * (square / 3) + 3] = '/';
    }
    text[15] = ' ';
    text = write_hand(text + 16, position->mover, "CEG");
    *text++ = ' ';
    text = write_hand(text, position->enemy, "ceg");
    *text = '\0';
    return PLAIN_OK;
}

const char *plain_fault_text(uint32_t fault)
{
    static const char texts[30][16] = {
        "", "E1 Shape", "E2 Letter", "E3 Hand", "E4 Lions", "E5 Count", "E6 FarLion", "E7 OtherSet", "", "", "", "", "", "", "", "E15 Truncated", "E16 Magic",
        "E17 SetByte", "E18 ClassCount", "E19 Trailing", "", "", "", "", "E24 Io", "", "E26 FarChick", "E27 ProfileByte", "E28 NoMove", "E29 Index"};
    return fault < 30 ? texts[fault] : "";
}

/* ---- Moves */

/* The steps of each kind: bit 3 * (1 + rows forward) + 1 + columns to the right. So the squares that are stepped to ascend with the bits. */
static const unsigned STEPS[5] = {0x080, 0x145, 0x0aa, 0x1ea, 0x1ef};

/* The square of a step that ends on the board, or SQUARES. */
static unsigned step_to(unsigned from, unsigned step)
{
    unsigned column = from % 3 + step % 3, row = from / 3 + step / 3;
    return column < 1 || column > 3 || row < 1 || row > 4 ? (unsigned)SQUARES : 3 * (row - 1) + column - 1;
}

static int grows(unsigned kind, unsigned from, unsigned to)
{
    return kind == PLAIN_CHICK && from != PLAIN_FROM_HAND && to >= 9;
}

static void add(PlainMove *moves, uint32_t *count, unsigned kind, unsigned from, unsigned to, int catches)
{
    PlainMove *move = &moves[(*count)++];
    move->kind = (uint8_t)kind;
    move->from = (uint8_t)from;
    move->to = (uint8_t)to;
    move->catches = (uint8_t)catches;
    move->grows = (uint8_t)grows(kind, from, to);
}

/* Whether some position has the move: a drop that catches nothing, or a step of the kind; no lion of the side to move stands on row 4. */
static int is_move(const PlainMove *move)
{
    unsigned step;
    if (move->kind > PLAIN_LION || move->to >= SQUARES || move->catches > 1 || move->grows != grows(move->kind, move->from, move->to))
        return FALSE;
    if (move->from == PLAIN_FROM_HAND)
        return move->kind < PLAIN_HEN && !move->catches;
    for (step = 0; step < 9 && move->from < (move->kind == PLAIN_LION ? 9 : SQUARES); step++)
        if ((STEPS[move->kind] >> step & 1) != 0 && step_to(move->from, step) == move->to)
            return TRUE;
    return FALSE;
}

uint32_t plain_write_move(const PlainMove *move, char text[PLAIN_MOVE_TEXT])
{
    if (!is_move(move))
        return PLAIN_NO_MOVE;
    *text++ = LETTERS[PLAIN_MOVER + move->kind];
    if (move->from == PLAIN_FROM_HAND) {
        *text++ = '*';
    } else {
        *text++ = "abc"[move->from % 3];
        *text++ = "1234"[move->from / 3];
        *text++ = move->catches ? 'x' : '-';
    }
    *text++ = "abc"[move->to % 3];
    *text++ = "1234"[move->to / 3];
    if (move->grows)
        *text++ = '+';
    *text = '\0';
    return PLAIN_OK;
}

/* The square that two letters name, or SQUARES. */
static uint8_t read_square(const char *text)
{
    return (uint8_t)(text[0] < 'a' || text[0] > 'c' || text[1] < '1' || text[1] > '4' ? (int)SQUARES : 3 * (text[1] - '1') + text[0] - 'a');
}

uint32_t plain_read_move(const char *text, size_t length, PlainMove *move)
{
    PlainMove found = {0, PLAIN_FROM_HAND, 0, 0, 0};
    char written[PLAIN_MOVE_TEXT];
    size_t at = length > 1 && text[1] == '*' ? 2 : 4;
    if (length < at + 2 || length >= PLAIN_MOVE_TEXT)
        return PLAIN_NO_MOVE;
    while (found.kind <= PLAIN_LION && LETTERS[PLAIN_MOVER + found.kind] != text[0])
        found.kind++;
    if (at == 4)
        found.from = read_square(text + 1);
    found.to = read_square(text + at);
    found.catches = at == 4 && text[3] == 'x';
    found.grows = length > at + 2;
    if (plain_write_move(&found, written) != PLAIN_OK)
        return PLAIN_NO_MOVE;
    /* what is read is written as it was */
    for (at = 0; at < length && written[at] == text[at] && text[at] != '\0'; at++)
        continue;
    if (at < length || written[at] != '\0')
        return PLAIN_NO_MOVE;
    *move = found;
    return PLAIN_OK;
}

/* Lists the steps in the order of moves; or, where a step catches the enemy lion, the first such step alone, and TRUE. */
static int list_steps(const PlainPosition *position, PlainMove *moves, uint32_t *count)
{
    unsigned from, step;
    for (from = 0; from < SQUARES; from++) {
        unsigned piece = position->board[from];
        if (!is_movers(piece))
            continue;
        for (step = 0; step < 9; step++) {
            unsigned to = (STEPS[kind_of(piece)] >> step & 1) != 0 ? step_to(from, step) : (unsigned)SQUARES;
            if (to == SQUARES || is_movers(position->board[to]))
                continue;
            if (position->board[to] == PLAIN_ENEMY + PLAIN_LION)
                *count = 0;
            add(moves, count, kind_of(piece), from, to, position->board[to] != PLAIN_NOTHING);
            if (position->board[to] == PLAIN_ENEMY + PLAIN_LION)
                return TRUE;
        }
    }
    return FALSE;
}

static void list_drops(const PlainPosition *position, uint32_t profile, PlainMove *moves, uint32_t *count)
{
    unsigned kind, to;
    for (kind = 0; kind < 3; kind++)
        for (to = 0; to < SQUARES && position->mover[kind] > 0; to++)
            if (position->board[to] == PLAIN_NOTHING && (profile == PLAIN_RULES_A || kind != PLAIN_CHICK || to < 9))
                add(moves, count, kind, PLAIN_FROM_HAND, to, FALSE);
}

/* The moves of a position that is one; answers its status. */
static uint32_t list_moves(const PlainPosition *position, uint32_t profile, PlainMove *moves, uint32_t *count)
{
    unsigned square;
    *count = 0;
    if (list_steps(position, moves, count))
        return PLAIN_CAUGHT;
    for (square = 0; square < 3; square++)
        if (position->board[square] == PLAIN_ENEMY + PLAIN_LION) {
            *count = 0;
            return PLAIN_TRIED;
        }
    list_drops(position, profile, moves, count);
    return *count == 0 ? PLAIN_STUCK : PLAIN_OPEN;
}

uint32_t plain_moves(const PlainPosition *position, uint32_t profile, PlainMove moves[PLAIN_MOST_MOVES], uint32_t *count, uint32_t *status)
{
    uint32_t fault = plain_check(position, profile);
    if (fault == PLAIN_OK)
        *status = list_moves(position, profile, moves, count);
    return fault;
}

/* The position after a move of an open position, seen from the other side. */
static void play(const PlainPosition *position, const PlainMove *move, PlainPosition *after)
{
    PlainPosition made = *position;
    unsigned square, kind;
    if (move->from == PLAIN_FROM_HAND) {
        made.mover[move->kind]--;
    } else {
        if (move->catches)
            made.mover[COUNTED_AS[made.board[move->to]]]++;
        made.board[move->from] = PLAIN_NOTHING;
    }
    made.board[move->to] = (uint8_t)(PLAIN_MOVER + (move->grows ? (unsigned)PLAIN_HEN : move->kind));
    for (square = 0; square < SQUARES; square++) {
        unsigned piece = made.board[SQUARES - 1 - square];
        if (piece != PLAIN_NOTHING)
            piece = is_movers(piece) ? piece - PLAIN_MOVER + PLAIN_ENEMY : piece - PLAIN_ENEMY + PLAIN_MOVER;
        after->board[square] = (uint8_t)piece;
    }
    for (kind = 0; kind < 3; kind++) {
        after->mover[kind] = made.enemy[kind];
        after->enemy[kind] = made.mover[kind];
    }
}

uint32_t plain_play(const PlainPosition *position, uint32_t profile, const PlainMove *move, PlainPosition *after)
{
    PlainMove moves[PLAIN_MOST_MOVES];
    uint32_t count, status, number, fault = plain_moves(position, profile, moves, &count, &status);
    if (fault != PLAIN_OK)
        return fault;
    for (number = 0; status == PLAIN_OPEN && number < count; number++) {
        const PlainMove *listed = &moves[number];
        if (listed->kind == move->kind && listed->from == move->from && listed->to == move->to && listed->catches == move->catches &&
            listed->grows == move->grows) {
            play(position, listed, after);
            return PLAIN_OK;
        }
    }
    return PLAIN_NO_MOVE;
}

uint32_t plain_play_listed(const PlainPosition *position, const PlainMove *move, PlainPosition *after)
{
    unsigned caught;
    if (move->kind > PLAIN_LION || move->to >= SQUARES || move->from > PLAIN_FROM_HAND)
        return PLAIN_NO_MOVE;
    caught = position->board[move->to];
    if (move->from == PLAIN_FROM_HAND ? move->kind > PLAIN_GIRAFFE || position->mover[move->kind] == 0
                                      : position->board[move->from] != PLAIN_MOVER + move->kind)
        return PLAIN_NO_MOVE;
    if (move->catches ? caught < PLAIN_ENEMY || caught >= PLAIN_ENEMY + PLAIN_LION : caught != PLAIN_NOTHING)
        return PLAIN_NO_MOVE;
    play(position, move, after);
    return PLAIN_OK;
}

/* ---- Files */

static int read_bytes(const PlainTable *table, uint64_t offset, uint8_t *bytes, size_t length)
{
    size_t at;
    if (table->bytes == NULL)
        return table->reader(table->context, offset, bytes, length);
    for (at = 0; at < length; at++)
        bytes[at] = table->bytes[(size_t)offset + at];
    return TRUE;
}

/* The number of that many bytes, the lowest first. */
static uint64_t number_of(const uint8_t *bytes, unsigned count)
{
    uint64_t number = 0;
    for (; count > 0; count--)
        number = number << 8 | bytes[count - 1];
    return number;
}

/* Reads and tests the header of a table whose file can be read. */
static uint32_t open_header(PlainTable *table, uint64_t length)
{
    static const char title[] = "DOBUTSU";
    uint8_t head[21], number;
    uint64_t end;
    if (length < 20)
        return PLAIN_TRUNCATED;
    if (!read_bytes(table, 0, head, 20))
        return PLAIN_IO;
    for (number = 0; number < 7; number++)
        if (head[number] != (uint8_t)title[number])
            return PLAIN_MAGIC;
    if (head[7] != '1' && head[7] != '2')
        return PLAIN_MAGIC;
    if (head[8] > 2 || head[9] > 2 || head[10] > 2 || head[11] != 2)
        return PLAIN_SET_BYTE;
    table->profile = PLAIN_RULES_A;
    table->start = 20;
    if (head[7] == '2') {
        if (length < 21)
            return PLAIN_TRUNCATED;
        if (!read_bytes(table, 20, head + 20, 1))
            return PLAIN_IO;
        if (head[12] > PLAIN_RULES_B)
            return PLAIN_PROFILE_BYTE;
        table->profile = head[12];
        table->start = 21;
    }
    for (number = 0; number < 3; number++)
        table->pieces[number] = head[8 + number];
    table->classes = plain_class_count(table);
    if (number_of(head + table->start - 8, 8) != table->classes)
        return PLAIN_CLASS_COUNT;
    end = table->start + 2 * (uint64_t)table->classes + 32;
    return length < end ? PLAIN_TRUNCATED : length > end ? PLAIN_TRAILING : PLAIN_OK;
}

static uint32_t open_table(PlainTable *table, const uint8_t *bytes, PlainReader *reader, void *context, uint64_t length)
{
    PlainTable opened = {{0, 0, 0}, PLAIN_RULES_A, 0, 0, bytes, reader, context, NULL};
    uint32_t fault = open_header(&opened, length);
    if (fault != PLAIN_OK)
        opened.classes = 0;
    *table = opened;
    return fault;
}

uint32_t plain_open(PlainTable *table, const uint8_t *bytes, size_t length)
{
    return open_table(table, bytes, NULL, NULL, length);
}

uint32_t plain_open_by(PlainTable *table, PlainReader *reader, void *context, uint64_t length)
{
    return open_table(table, NULL, reader, context, length);
}

/* ---- Values */

/* The record of a position of the table's family. */
static uint32_t find_record(const PlainTable *table, const PlainPosition *position, uint32_t *record)
{
    uint32_t number = plain_class_number(table, position);
    uint8_t bytes[2];
    if (number >= table->classes)
        return PLAIN_INDEX;
    if (!read_bytes(table, table->start + 2 * (uint64_t)number, bytes, 2))
        return PLAIN_IO;
    *record = (uint32_t)number_of(bytes, 2);
    return PLAIN_OK;
}

/* The value that a record of so many plies and one says, 0 being a draw. */
static PlainValue value_of(uint32_t record)
{
    PlainValue value;
    value.kind = record == 0 ? PLAIN_DRAW : record % 2 == 0 ? PLAIN_WIN : PLAIN_LOSS;
    value.plies = record == 0 ? 0 : record - 1;
    return value;
}

/* Whether the position is one of the table's family. */
static uint32_t check_family(const PlainTable *table, const PlainPosition *position)
{
    unsigned counts[6];
    uint32_t fault = check(position, table->profile, counts);
    if (fault != PLAIN_OK)
        return fault;
    return counts[0] != table->pieces[0] || counts[1] != table->pieces[1] || counts[2] != table->pieces[2] ? PLAIN_OTHER_SET : PLAIN_OK;
}

uint32_t plain_probe(const PlainTable *table, const PlainPosition *position, PlainValue *value)
{
    uint32_t record, fault = check_family(table, position);
    if (fault == PLAIN_OK)
        fault = find_record(table, position, &record);
    if (fault == PLAIN_OK)
        *value = value_of(record);
    return fault;
}

uint32_t plain_probe_text(const PlainTable *table, const char *text, size_t length, PlainValue *value)
{
    PlainPosition position;
    uint32_t fault = plain_read(text, length, &position);
    return fault != PLAIN_OK ? fault : plain_probe(table, &position, value);
}

/* A number that is the lower the better a value is. */
static uint32_t badness(PlainValue value)
{
    return value.kind == PLAIN_WIN ? value.plies : value.kind == PLAIN_DRAW ? 0x10000 : 0x30000 - value.plies;
}

uint32_t plain_values(const PlainTable *table, const PlainPosition *position, PlainValuedMove moves[PLAIN_MOST_MOVES], uint32_t *count)
{
    PlainMove listed[PLAIN_MOST_MOVES];
    uint32_t number, status, fault = check_family(table, position);
    if (fault != PLAIN_OK)
        return fault;
    status = list_moves(position, table->profile, listed, count);
    for (number = 0; number < *count; number++) {
        PlainValuedMove valued;
        PlainPosition after;
        uint32_t record = 1, place = number;
        if (status == PLAIN_OPEN) {
            play(position, &listed[number], &after);
            fault = find_record(table, &after, &record);
            if (fault != PLAIN_OK)
                return fault;
        }
        valued.move = listed[number];
        valued.value = value_of(record == 0 ? 0 : record + 1);
        for (; place > 0 && badness(moves[place - 1].value) > badness(valued.value); place--)
            moves[place] = moves[place - 1];
        moves[place] = valued;
    }
    return PLAIN_OK;
}

uint32_t plain_best(const PlainTable *table, const PlainPosition *position, PlainValuedMove *best)
{
    PlainValuedMove moves[PLAIN_MOST_MOVES];
    uint32_t count = 0, fault = plain_values(table, position, moves, &count);
    if (fault != PLAIN_OK)
        return fault;
    if (count == 0)
        return PLAIN_NO_MOVE;
    *best = moves[0];
    return PLAIN_OK;
}
