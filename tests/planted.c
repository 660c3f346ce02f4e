/* A library with a bug, which examples/hostile.c has to find: linked between it and libdobutsu.a by `-Wl,--wrap=CALL`, with PLANTED saying which bug. */

#include "dobutsu.h"

enum { READ_PAST_FILE = 1, READ_PAST_INDEX, WRITE_PAST_MOVES, WRITE_FILE, READ_BEFORE_TEXT, WRITE_PAST_ANSWERS, READ_PAST_POSITION, WRITE_PAST_NUMBERS };

uint32_t __real_dobutsu_probe(const uint8_t *, size_t, const uint8_t *, size_t, DobutsuValue *);
uint32_t __real_dobutsu_probe_by(const uint8_t *, size_t, const uint64_t *, size_t, const uint8_t *, size_t, DobutsuValue *);
uint32_t __real_dobutsu_moves(const uint8_t *, size_t, const uint8_t *, size_t, DobutsuMove *, size_t, uint64_t *);
uint64_t __real_dobutsu_probe_many(const uint8_t *, size_t, const uint64_t *, size_t, const uint8_t *, size_t, const uint64_t *, size_t, DobutsuAnswer *,
                                   size_t);
uint32_t __real_dobutsu_write(const DobutsuPosition *, DobutsuText *);
uint64_t __real_dobutsu_shuffled(uint64_t, uint64_t, uint64_t *, uint64_t *, size_t);

static volatile uint64_t seen;

uint32_t __wrap_dobutsu_probe(const uint8_t *file, size_t file_len, const uint8_t *text, size_t text_len, DobutsuValue *answer)
{
    uint32_t fault = __real_dobutsu_probe(file, file_len, text, text_len, answer);
    if (PLANTED == READ_PAST_FILE && fault == DOBUTSU_TRUNCATED)
        seen = ((const volatile uint8_t *)file)[file_len];
    if (PLANTED == READ_BEFORE_TEXT && fault == DOBUTSU_OK)
        seen = ((const volatile uint8_t *)text)[-1];
    if (PLANTED == WRITE_FILE && fault == DOBUTSU_OK)
        ((volatile uint8_t *)file)[0] = 'D';
    return fault;
}

uint32_t __wrap_dobutsu_probe_by(const uint8_t *file, size_t file_len, const uint64_t *words, size_t words_len, const uint8_t *text, size_t text_len,
                                 DobutsuValue *answer)
{
    if (PLANTED == READ_PAST_INDEX && words_len > 0)
        seen = ((const volatile uint64_t *)words)[words_len];
    return __real_dobutsu_probe_by(file, file_len, words, words_len, text, text_len, answer);
}

uint32_t __wrap_dobutsu_moves(const uint8_t *file, size_t file_len, const uint8_t *text, size_t text_len, DobutsuMove *moves, size_t moves_len,
                              uint64_t *count)
{
    uint32_t fault = __real_dobutsu_moves(file, file_len, text, text_len, moves, moves_len, count);
    if (PLANTED == WRITE_PAST_MOVES && fault == DOBUTSU_OK && *count > moves_len)
        moves[moves_len].kind = 1;
    return fault;
}

uint64_t __wrap_dobutsu_probe_many(const uint8_t *file, size_t file_len, const uint64_t *words, size_t words_len, const uint8_t *texts, size_t texts_len,
                                   const uint64_t *ends, size_t ends_len, DobutsuAnswer *answers, size_t answers_len)
{
    uint64_t count = __real_dobutsu_probe_many(file, file_len, words, words_len, texts, texts_len, ends, ends_len, answers, answers_len);
    if (PLANTED == WRITE_PAST_ANSWERS && ends_len > answers_len)
        answers[answers_len].fault = 1;
    return count;
}

uint32_t __wrap_dobutsu_write(const DobutsuPosition *position, DobutsuText *text)
{
    if (PLANTED == READ_PAST_POSITION)
        seen = ((const volatile uint8_t *)(position + 1))[0];
    return __real_dobutsu_write(position, text);
}

uint64_t __wrap_dobutsu_shuffled(uint64_t seed, uint64_t count, uint64_t *place, uint64_t *numbers, size_t numbers_len)
{
    uint64_t written = __real_dobutsu_shuffled(seed, count, place, numbers, numbers_len);
    if (PLANTED == WRITE_PAST_NUMBERS && written == numbers_len)
        numbers[numbers_len] = 0;
    return written;
}
