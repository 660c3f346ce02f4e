/* Asks a file for a position in each state that a caller may hand over: hostile FILE POSITION. Of the file the first n bytes are asked, for n from 0 to its
   length; then all of it with one byte changed, for each byte of the first 32 and of the last; with a header that claims each other set; and for the first n
   bytes of the position. It asks for the value, the moves into no room, into too little and into enough, and whether the file is consistent; for the value
   and the moves by the index of the file's family too. Then the file is asked by the first n numbers of the index, by all of them with one changed, and by
   the index of each other family; and for many texts at once, that end anywhere. Last comes the position with each of its numbers changed: its text, its
   moves into as much room, what comes of each move and of moves with each of their numbers changed, its class, and that class's position. And numbers are asked
   in the order of seeds, into as much room.

   All that is handed over lies against a page that nobody may touch, once behind it and once before it. What a call reads can't be written, and of what it
   writes all else must stay as it was. So a call that touches what isn't its own ends the program with status 20, whatever the library was built by. Prints
   how often each answer came. */

#define _DEFAULT_SOURCE /* for MAP_ANONYMOUS */

#include <signal.h>
#include <stdio.h>
#include <stdlib.h>
#include <string.h>
#include <sys/mman.h>
#include <unistd.h>

#include "dobutsu.h"

enum { BEHIND, BEFORE, FILL = 77, MOST_BYTES = 1 << 20 };

/* Pages between two that nobody may touch. */
typedef struct {
    uint8_t *pages;
    size_t size;
} Room;

static unsigned long answers[32], checks[32], by_index[32];
static uint64_t *index_words;
static size_t index_len;
static uint32_t index_set[3], index_profile;
static Room file_room, text_room, index_room, value_room, moves_room, number_room, status_room, answers_room, position_room, step_room;
static int guard; /* where the page lies against which all is put */

static void touched(int number)
{
    static const char said[] = "hostile: a call touched memory that isn't its own\n";
    (void)number;
    if (write(2, said, sizeof said - 1) != 0)
        _exit(20);
    _exit(20);
}

static Room room_for(size_t most)
{
    size_t page = (size_t)sysconf(_SC_PAGESIZE);
    Room room;
    uint8_t *all;
    room.size = (most / page + 1) * page;
    all = mmap(NULL, room.size + 2 * page, PROT_NONE, MAP_PRIVATE | MAP_ANONYMOUS, -1, 0);
    if (all == MAP_FAILED)
        exit(3);
    room.pages = all + page;
    return room;
}

static void *place(const Room *room, size_t len)
{
    return guard == BEHIND ? room->pages + room->size - len : room->pages;
}

/* The bytes, in memory that can only be read. */
static const void *lent(const Room *room, const void *bytes, size_t len)
{
    if (len > room->size || mprotect(room->pages, room->size, PROT_READ | PROT_WRITE) != 0)
        exit(3);
    memcpy(place(room, len), bytes, len);
    if (mprotect(room->pages, room->size, PROT_READ) != 0)
        exit(3);
    return place(room, len);
}

/* Memory for that many bytes, which a call may write. */
static void *blank(const Room *room, size_t len)
{
    if (len > room->size || mprotect(room->pages, room->size, PROT_READ | PROT_WRITE) != 0)
        exit(3);
    memset(room->pages, FILL, room->size);
    return place(room, len);
}

/* Whether of memory for `len` bytes only the first `written` were written. */
static int is_kept(const Room *room, size_t len, size_t written)
{
    const uint8_t *from = place(room, len), *byte;
    for (byte = room->pages; byte < room->pages + room->size; byte++)
        if ((byte < from || byte >= from + written) && *byte != FILL)
            return 0;
    return 1;
}

/* Into how much room moves are asked. */
static const size_t rooms[] = {0, 1, DOBUTSU_MOST_MOVES};

/* Whether a call for moves has written what it says: nothing at a fault, else the count and as many moves as there are and as there is room for. */
static int is_told(uint32_t fault, const uint64_t *count, size_t room)
{
    size_t len = room * sizeof(DobutsuMove), written;
    if (fault != DOBUTSU_OK)
        return fault < 32 && is_kept(&number_room, sizeof *count, 0) && is_kept(&moves_room, len, 0);
    written = *count < room ? (size_t)*count : room;
    return *count <= DOBUTSU_MOST_MOVES && is_kept(&number_room, sizeof *count, sizeof *count)
        && is_kept(&moves_room, len, written * sizeof(DobutsuMove));
}

/* How many moves the position has by the file without an index; none where that answers a fault. */
static uint64_t moves_without(const uint8_t *file, size_t length, const uint8_t *text, size_t text_len, uint64_t none)
{
    DobutsuMove first;
    uint64_t count = none;
    dobutsu_moves(file, length, text, text_len, &first, 1, &count);
    return count;
}

/* Asks by these numbers, of memory that is lent already. The value and the moves have one fault. Where none is, there are a value and as many moves as without
   the numbers. */
static uint32_t ask_by(const uint8_t *file, size_t length, const uint64_t *words, size_t len, const uint8_t *text, size_t text_len, DobutsuValue *found)
{
    const uint64_t *held = lent(&index_room, words, len * sizeof *words);
    DobutsuValue *value = blank(&value_room, sizeof *value);
    uint64_t *number, wanted = moves_without(file, length, text, text_len, FILL);
    uint32_t fault = dobutsu_probe_by(file, length, held, len, text, text_len, value), named;
    size_t n;
    if (fault >= 32 || !is_kept(&value_room, sizeof *value, fault == DOBUTSU_OK ? sizeof *value : 0) || (fault == DOBUTSU_OK && value->kind > DOBUTSU_LOSS))
        exit(9);
    *found = *value;
    for (n = 0; n < 3; n++) {
        DobutsuMove *moves = blank(&moves_room, rooms[n] * sizeof *moves);
        uint64_t *count = blank(&number_room, sizeof *count);
        uint32_t moved = dobutsu_moves_by(file, length, held, len, text, text_len, moves, rooms[n], count);
        if (!is_told(moved, count, rooms[n]) || (moved != fault && fault != DOBUTSU_INDEX && moved != DOBUTSU_INDEX))
            exit(10);
        if (moved == DOBUTSU_OK && wanted != FILL && *count != wanted)
            exit(18);
    }
    number = blank(&number_room, sizeof *number);
    named = dobutsu_class_by(index_set[0], index_set[1], index_set[2], index_profile, held, len, text, text_len, number);
    if (named >= 32 || !is_kept(&number_room, sizeof *number, named == DOBUTSU_OK ? sizeof *number : 0))
        exit(11);
    by_index[fault]++;
    return fault;
}

/* The index of a family, written into memory that ends where it does; into one number less it isn't. */
static uint64_t *index_of(uint32_t c, uint32_t e, uint32_t g, uint32_t profile, size_t *len)
{
    uint64_t *words, *copy;
    *len = (size_t)dobutsu_index_words(c, e, g, profile);
    words = blank(&index_room, (*len - 1) * sizeof *words);
    if (dobutsu_index(c, e, g, profile, words, *len - 1) != DOBUTSU_INDEX || !is_kept(&index_room, (*len - 1) * sizeof *words, 0))
        exit(14);
    words = blank(&index_room, *len * sizeof *words);
    copy = malloc(*len * sizeof *copy);
    if (copy == NULL)
        exit(3);
    if (dobutsu_index(c, e, g, profile, words, *len) != DOBUTSU_OK || !is_kept(&index_room, *len * sizeof *words, *len * sizeof *words))
        exit(14);
    memcpy(copy, words, *len * sizeof *copy);
    return copy;
}

/* Asks the whole file by numbers that all lead far outside. */
static void ask_far(const uint8_t *file, size_t length, const uint8_t *text, size_t text_len)
{
    uint64_t *far = malloc(index_len * sizeof *far);
    DobutsuValue value;
    uint32_t without = dobutsu_probe(file, length, text, text_len, &value);
    size_t n;
    if (far == NULL)
        exit(3);
    for (n = 0; n < index_len; n++)
        far[n] = n < 3 ? index_words[n] : (uint64_t)1 << 41;
    if (ask_by(file, length, far, index_len, text, text_len, &value) != (without == DOBUTSU_OK ? DOBUTSU_INDEX : without))
        exit(17);
    free(far);
}

/* Asks the whole file by spoilt numbers: the first n, all with one changed, all that lead far outside, and the index of each other family. */
static void ask_by_others(const uint8_t *bytes, size_t length, const char *text)
{
    static const uint64_t changes[] = {1, (uint64_t)1 << 20, (uint64_t)1 << 41, UINT64_MAX};
    const uint8_t *file = lent(&file_room, bytes, length), *words = lent(&text_room, text, strlen(text));
    DobutsuValue value;
    unsigned family;
    size_t n, k;
    for (n = 0; n < index_len; n++)
        if (ask_by(file, length, index_words, n, words, strlen(text), &value) != DOBUTSU_INDEX)
            exit(12);
    for (n = 0; n < index_len; n++)
        for (k = 0; k < sizeof changes / sizeof *changes; k++) {
            index_words[n] ^= changes[k];
            /* the first three are the mark, the classes and how many numbers there are */
            if (ask_by(file, length, index_words, index_len, words, strlen(text), &value) != DOBUTSU_INDEX && n < 3)
                exit(13);
            index_words[n] ^= changes[k];
        }
    ask_far(file, length, words, strlen(text));
    for (family = 0; family < 16; family++) {
        uint32_t c = family / 4 % 2, e = family / 2 % 2, g = family % 2, profile = family / 8;
        size_t len;
        uint64_t *other = index_of(c, e, g, profile, &len);
        if ((ask_by(file, length, other, len, words, strlen(text), &value) == DOBUTSU_INDEX)
            != (c != index_set[0] || e != index_set[1] || g != index_set[2] || profile != index_profile))
            exit(15);
        free(other);
    }
}

/* Asks for the moves, into that much room. */
static uint32_t ask_moves(const uint8_t *file, size_t length, const uint8_t *words, size_t text_len, size_t room)
{
    DobutsuMove *moves = blank(&moves_room, room * sizeof *moves);
    uint64_t *count = blank(&number_room, sizeof *count);
    uint32_t fault = dobutsu_moves(file, length, words, text_len, moves, room, count);
    if (!is_told(fault, count, room))
        exit(6);
    return fault;
}

/* Asks the bytes for the position. */
static void ask(const uint8_t *bytes, size_t length, const char *text, size_t text_len)
{
    const uint8_t *file = lent(&file_room, bytes, length), *words = lent(&text_room, text, text_len);
    DobutsuValue *value = blank(&value_room, sizeof *value), found;
    uint64_t *broken;
    uint32_t fault = dobutsu_probe(file, length, words, text_len, value), checked;
    size_t n;
    if (fault >= 32 || !is_kept(&value_room, sizeof *value, fault == DOBUTSU_OK ? sizeof *value : 0))
        exit(4);
    found = *value;
    for (n = 0; n < 3; n++)
        if (ask_moves(file, length, words, text_len, rooms[n]) != fault)
            exit(7);
    if (fault == DOBUTSU_OK || fault >= DOBUTSU_TRUNCATED) {
        DobutsuValue other;
        uint32_t by = ask_by(file, length, index_words, index_len, words, text_len, &other);
        if (by != fault ? by != DOBUTSU_INDEX || (fault != DOBUTSU_OK && fault != DOBUTSU_FAR_CHICK) : memcmp(&found, &other, sizeof other) != 0)
            exit(16);
    }
    broken = blank(&number_room, sizeof *broken);
    checked = dobutsu_check(file, length, broken);
    if (checked >= 32 || !is_kept(&number_room, sizeof *broken, checked == DOBUTSU_INCONSISTENT ? sizeof *broken : 0)
        || (fault >= DOBUTSU_TRUNCATED && fault <= DOBUTSU_TRAILING && checked != fault))
        exit(8);
    answers[fault]++;
    checks[checked]++;
}

/* Asks for many texts at once, whose ends lie anywhere: each answer is that of one call, a fault leaves the value, and nothing else is written. */
static void ask_many(const uint8_t *bytes, size_t length, const char *text)
{
    size_t text_len = strlen(text), room, n;
    const uint64_t ends[] = {text_len, 0, text_len, text_len / 2, UINT64_MAX, 3, text_len + 1, UINT64_MAX, UINT64_MAX - 1, text_len};
    const size_t most = sizeof ends / sizeof *ends;
    const uint8_t *file = lent(&file_room, bytes, length), *texts = lent(&text_room, text, text_len);
    const uint64_t *held = lent(&number_room, ends, sizeof ends), *words = lent(&index_room, index_words, index_len * sizeof *words);
    for (room = 0; room <= most + 1; room++) {
        DobutsuAnswer *answers = blank(&answers_room, room * sizeof *answers);
        size_t count = room < most ? room : most;
        if (dobutsu_probe_many(file, length, words, index_len, texts, text_len, held, most, answers, room) != count
            || !is_kept(&answers_room, room * sizeof *answers, count * sizeof *answers))
            exit(21);
        for (n = 0; n < count; n++) {
            uint64_t start = n == 0 ? 0 : ends[n - 1], end = ends[n] < text_len ? ends[n] : text_len;
            DobutsuValue value;
            memset(&value, FILL, sizeof value);
            start = start < end ? start : end;
            if (answers[n].fault != dobutsu_probe_by(file, length, words, index_len, texts + start, (size_t)(end - start), &value)
                || memcmp(&answers[n].value, &value, sizeof value) != 0)
                exit(21);
        }
    }
}

/* Makes a move that has these numbers; whether there is such a move. */
static int make(const DobutsuPosition *position, uint32_t profile, const DobutsuStep *numbers)
{
    const DobutsuStep *step = lent(&step_room, numbers, sizeof *step);
    DobutsuPosition *after = blank(&answers_room, sizeof *after);
    uint32_t fault = dobutsu_make(position, profile, step, after);
    DobutsuText text;
    if ((fault != DOBUTSU_OK && fault != DOBUTSU_NO_MOVE) || !is_kept(&answers_room, sizeof *after, fault == DOBUTSU_OK ? sizeof *after : 0)
        || (fault == DOBUTSU_OK && dobutsu_write(after, &text) != DOBUTSU_OK))
        exit(23);
    return fault == DOBUTSU_OK;
}

/* Each move of an open position can be made, no move of another one, and none with a number changed but one that is listed too. */
static void make_all(const DobutsuPosition *position, uint32_t profile, const DobutsuStep *steps, size_t count, int open)
{
    static const uint32_t changes[] = {1, 2, 12, UINT32_MAX};
    size_t n, k, m, part;
    for (n = 0; n < count; n++) {
        if (make(position, profile, &steps[n]) != open)
            exit(24);
        for (part = 0; part < 5; part++)
            for (k = 0; k < sizeof changes / sizeof *changes; k++) {
                DobutsuStep changed = steps[n];
                int listed = 0;
                ((uint32_t *)&changed)[part] ^= changes[k];
                for (m = 0; m < count; m++)
                    listed |= memcmp(&changed, &steps[m], sizeof changed) == 0;
                if (make(position, profile, &changed) != (listed && open))
                    exit(24);
            }
    }
}

/* Asks for the moves of a position without a file, and makes them. */
static void ask_steps(const DobutsuPosition *position, uint32_t profile, uint32_t wanted)
{
    DobutsuStep all[DOBUTSU_MOST_MOVES];
    size_t n, count = 0;
    for (n = 0; n < 3; n++) {
        DobutsuStep *steps = blank(&moves_room, rooms[n] * sizeof *steps);
        uint64_t *number = blank(&number_room, sizeof *number);
        uint32_t *status = blank(&status_room, sizeof *status);
        uint32_t fault = dobutsu_steps(position, profile, steps, rooms[n], number, status);
        int told = fault == DOBUTSU_OK;
        if (fault != wanted || !is_kept(&number_room, sizeof *number, told ? sizeof *number : 0)
            || !is_kept(&status_room, sizeof *status, told ? sizeof *status : 0) || (told && (*number > DOBUTSU_MOST_MOVES || *status > DOBUTSU_STUCK)))
            exit(22);
        count = !told ? 0 : *number < rooms[n] ? (size_t)*number : rooms[n];
        if (!is_kept(&moves_room, rooms[n] * sizeof *steps, count * sizeof *steps))
            exit(22);
        memcpy(all, steps, count * sizeof *steps);
        if (told && n == 2)
            make_all(position, profile, all, count, *status == DOBUTSU_OPEN);
    }
}

/* The position's class has a position of that class, in a room for three or behind the last. */
static void ask_class(const DobutsuPosition *position, uint32_t profile, uint32_t wanted)
{
    uint64_t *number = blank(&number_room, sizeof *number), class_number, again, positions, classes;
    uint32_t fault = dobutsu_class(position, profile, number);
    size_t room;
    if (fault != wanted || !is_kept(&number_room, sizeof *number, fault == DOBUTSU_OK ? sizeof *number : 0))
        exit(25);
    class_number = fault == DOBUTSU_OK ? *number : 0;
    if (dobutsu_count(index_set[0], index_set[1], index_set[2], profile, &positions, &classes) != DOBUTSU_OK)
        return;
    for (room = 0; room < 4; room++) {
        DobutsuPosition *found = blank(&answers_room, room * sizeof *found);
        fault = dobutsu_class_at(index_set[0], index_set[1], index_set[2], profile, class_number, found, room);
        if (fault != (class_number + room > classes ? DOBUTSU_NO_CLASS : DOBUTSU_OK)
            || !is_kept(&answers_room, room * sizeof *found, fault == DOBUTSU_OK ? room * sizeof *found : 0))
            exit(26);
        if (fault == DOBUTSU_OK && room > 0 && (dobutsu_class(&found[room - 1], profile, &again) != DOBUTSU_OK || again != class_number + room - 1))
            exit(26);
        if (dobutsu_class_at(index_set[0], index_set[1], index_set[2], profile, UINT64_MAX, found, room) != DOBUTSU_NO_CLASS)
            exit(26);
    }
}

/* Asks for a position by its numbers. */
static void ask_position(const uint8_t *file, size_t length, const uint64_t *words, const DobutsuPosition *numbers)
{
    const DobutsuPosition *position = lent(&position_room, numbers, sizeof *position);
    DobutsuText *text = blank(&value_room, sizeof *text);
    DobutsuPosition again;
    DobutsuAnswer *answer = blank(&answers_room, sizeof *answer);
    DobutsuValue value;
    uint32_t fault = dobutsu_write(position, text), profile;
    if (!is_kept(&value_room, sizeof *text, fault == DOBUTSU_OK ? sizeof *text : 0)
        || (fault == DOBUTSU_OK
            && (dobutsu_read(text->bytes, text->length, &again) != DOBUTSU_OK || memcmp(&again, position, sizeof again) != 0)))
        exit(27);
    memset(&value, FILL, sizeof value);
    if (dobutsu_probe_positions(file, length, words, index_len, position, 1, answer, 1) != 1 || !is_kept(&answers_room, sizeof *answer, sizeof *answer)
        || answer->fault != (fault != DOBUTSU_OK ? fault : dobutsu_probe_by(file, length, words, index_len, text->bytes, text->length, &value))
        || memcmp(&answer->value, &value, sizeof value) != 0)
        exit(28);
    for (profile = 0; profile < 3; profile++) {
        uint64_t class_number;
        uint32_t wanted = dobutsu_class(position, profile, &class_number);
        if (profile == 2 ? wanted != DOBUTSU_PROFILE_BYTE : wanted != fault && (fault != DOBUTSU_OK || wanted != DOBUTSU_FAR_CHICK || profile == 0))
            exit(29);
        ask_steps(position, profile, wanted);
        ask_class(position, profile, wanted);
    }
}

/* Asks for the text of each fault and of what is none. */
static void ask_names(void)
{
    uint32_t fault;
    for (fault = 0; fault < 60; fault++) {
        DobutsuText *text = blank(&value_room, sizeof *text);
        if (dobutsu_fault_text(fault < 50 ? fault : UINT32_MAX - fault, text) != text->length || text->length > sizeof text->bytes
            || !is_kept(&value_room, sizeof *text, sizeof *text))
            exit(30);
    }
}

/* Asks for the numbers below a count in the order of a seed, into that much room again and again: each comes once, as into room for all. */
static void ask_order(uint64_t seed, uint64_t count, size_t room)
{
    uint64_t order[8], begun = 0, next = 0, seen = 0;
    size_t all = (size_t)dobutsu_shuffled(seed, count, &begun, order, sizeof order / sizeof *order), drawn = 0, written, n;
    do {
        uint64_t *place = blank(&number_room, sizeof *place), *numbers = blank(&moves_room, room * sizeof *numbers);
        *place = next;
        written = (size_t)dobutsu_shuffled(seed, count, place, numbers, room);
        if (!is_kept(&number_room, sizeof *place, sizeof *place) || !is_kept(&moves_room, room * sizeof *numbers, written * sizeof *numbers))
            exit(31);
        for (n = 0; n < written; n++, drawn++) {
            if (drawn >= all || numbers[n] >= count || numbers[n] != order[drawn] || (seen >> numbers[n] & 1) != 0)
                exit(31);
            seen |= (uint64_t)1 << numbers[n];
        }
        next = *place;
    } while (written == room && room > 0);
    if (all != count || (room > 0 && drawn != all))
        exit(31);
}

static void ask_orders(void)
{
    static const uint64_t seeds[] = {0, 7, UINT64_MAX}, many[] = {(uint64_t)1 << 63, UINT64_MAX};
    size_t seed, room, n;
    uint64_t count;
    for (seed = 0; seed < sizeof seeds / sizeof *seeds; seed++)
        for (count = 0; count < 8; count++)
            for (room = 0; room < 10; room++)
                ask_order(seeds[seed], count, room);
    for (n = 0; n < sizeof many / sizeof *many; n++) {
        uint64_t *place = blank(&number_room, sizeof *place), *numbers = blank(&moves_room, sizeof *numbers);
        if (dobutsu_shuffled(7, many[n], place, numbers, 1) != 0 || !is_kept(&number_room, sizeof *place, 0)
            || !is_kept(&moves_room, sizeof *numbers, 0))
            exit(32);
    }
}

/* Asks for the position, and for it with each of its numbers changed. */
static void ask_positions(const uint8_t *bytes, size_t length, const char *text)
{
    const uint8_t *file = lent(&file_room, bytes, length);
    const uint64_t *words = lent(&index_room, index_words, index_len * sizeof *words);
    DobutsuPosition read, changed;
    unsigned number;
    size_t part;
    if (dobutsu_read((const uint8_t *)text, strlen(text), &read) != DOBUTSU_OK)
        exit(27);
    for (part = 0; part < sizeof read; part++)
        for (number = 0; number < 256; number = number == 12 ? 254 : number + 1) {
            changed = read;
            ((uint8_t *)&changed)[part] = (uint8_t)number;
            ask_position(file, length, words, &changed);
        }
}

/* Asks the file in each state. */
static void ask_all(uint8_t *bytes, size_t length, const char *text)
{
    uint8_t header[21];
    size_t text_len = strlen(text), n;
    unsigned set;
    memcpy(header, bytes, sizeof header);
    ask_by_others(bytes, length, text);
    ask_many(bytes, length, text);
    ask_positions(bytes, length, text);
    ask_names();
    ask_orders();
    for (n = 0; n <= length; n++)
        ask(bytes, n, text, text_len);
    for (n = 0; n < text_len; n++)
        ask(bytes, length, text, n);
    for (n = 0; n < length; n++) {
        if (n >= 32 && n + 32 < length)
            continue;
        bytes[n] ^= 0x55;
        ask(bytes, length, text, text_len);
        bytes[n] ^= 0x55;
    }
    for (set = 0; set < 27; set++) {
        uint64_t positions, classes;
        unsigned place;
        bytes[8] = (uint8_t)(set / 9);
        bytes[9] = (uint8_t)(set / 3 % 3);
        bytes[10] = (uint8_t)(set % 3);
        if (dobutsu_count(bytes[8], bytes[9], bytes[10], 0, &positions, &classes) != DOBUTSU_OK)
            exit(5);
        for (place = 0; place < 8; place++)
            bytes[(bytes[7] == '1' ? 12 : 13) + place] = (uint8_t)(classes >> 8 * place);
        ask(bytes, length, text, text_len);
    }
    memcpy(bytes, header, sizeof header);
}

int main(int argc, char **argv)
{
    static uint8_t bytes[MOST_BYTES];
    struct sigaction caught;
    size_t length, n;
    FILE *opened;

    if (argc != 3 || (opened = fopen(argv[1], "rb")) == NULL)
        return 2;
    length = fread(bytes, 1, sizeof bytes, opened);
    fclose(opened);
    memset(&caught, 0, sizeof caught);
    caught.sa_handler = touched;
    if (sigaction(SIGSEGV, &caught, NULL) != 0 || sigaction(SIGBUS, &caught, NULL) != 0)
        return 3;
    file_room = room_for(MOST_BYTES);
    text_room = room_for(strlen(argv[2]));
    index_room = room_for(MOST_BYTES);
    value_room = room_for(sizeof(DobutsuText));
    moves_room = room_for(DOBUTSU_MOST_MOVES * sizeof(DobutsuMove));
    number_room = room_for(10 * sizeof(uint64_t));
    status_room = room_for(sizeof(uint32_t));
    answers_room = room_for(11 * sizeof(DobutsuAnswer));
    position_room = room_for(sizeof(DobutsuPosition));
    step_room = room_for(sizeof(DobutsuStep));
    for (n = 0; n < 3; n++)
        index_set[n] = bytes[8 + n];
    index_profile = bytes[7] == '1' ? 0 : bytes[12];
    for (guard = BEHIND; guard <= BEFORE; guard++) {
        index_words = index_of(index_set[0], index_set[1], index_set[2], index_profile, &index_len);
        ask_all(bytes, length, argv[2]);
        free(index_words);
    }
    for (n = 0; n < 32; n++)
        if (answers[n] != 0 || checks[n] != 0 || by_index[n] != 0)
            printf("E%u %lu %lu %lu\n", (unsigned)n, answers[n], checks[n], by_index[n]);
    return 0;
}
