/* The numbers of classes, as dobutsu_plain_classes.h tells; nothing is proved of this file. The order of positions is that of docs/FORMAT.md. It is counted as
   docs/CLASSES.md tells, by blocks, runs and places, but without lists of stretches: how many representatives come before a place is found digit by digit. */

#include "dobutsu_plain_classes.h"

/* A set of squares has bit s for square s. */
enum { BOARD = 0xfff, COLUMN_A = 0x249, COLUMN_B = 0x492, FAR_ROWS = 0xe07 };

/* How many pairs of squares the lions have, and the words of a block in an index. */
enum { LIONS = 99, BLOCK_WORDS = 100 };

/* The squares of the mirror image, by those of the position. */
static const uint8_t MIRRORED[SQUARES] = {2, 1, 0, 5, 4, 3, 8, 7, 6, 11, 10, 9};

static unsigned ones(unsigned set)
{
    static const uint8_t counts[64] = {0, 1, 1, 2, 1, 2, 2, 3, 1, 2, 2, 3, 2, 3, 3, 4, 1, 2, 2, 3, 2, 3, 3, 4, 2, 3, 3, 4, 3, 4, 4, 5,
                                       1, 2, 2, 3, 2, 3, 3, 4, 2, 3, 3, 4, 3, 4, 4, 5, 2, 3, 3, 4, 3, 4, 4, 5, 3, 4, 4, 5, 4, 5, 5, 6};
    return (unsigned)counts[set & 63] + counts[set >> 6];
}

/* The form of each piece among those of what it is counted as. */
static const uint8_t FORM[11] = {0, 0, 0, 0, 1, 0, 2, 1, 1, 3, 0};

/* The key of a position: the squares of both lions, then those of chicks with hens, elephants and giraffes, two numbers each, then their forms. What a kind
   hasn't is 0. How many of a kind stand on the board, and what the mover has in hand, is the same in a position and its mirror image. */
enum { KEY_SQUARES = 2, KEY_FORMS = 8, KEY = 14 };

static void find_key(const PlainPosition *position, unsigned key[KEY], unsigned on[3])
{
    unsigned square, at;
    for (at = 0; at < KEY; at++)
        key[at] = 0;
    on[0] = on[1] = on[2] = 0;
    for (square = 0; square < SQUARES; square++) {
        unsigned piece = position->board[square], kind = COUNTED_AS[piece];
        if (kind == NOTHING)
            continue;
        if (kind >= OWN_LION) {
            key[kind - OWN_LION] = square;
            continue;
        }
        at = 2 * kind + on[kind]++;
        key[KEY_SQUARES + at] = square;
        key[KEY_FORMS + at] = FORM[piece];
    }
}

/* The key of the mirror image, where two pieces of a kind in one row change places. */
static void mirror_key(const unsigned key[KEY], const unsigned on[3], unsigned image[KEY])
{
    unsigned at, kind;
    image[0] = MIRRORED[key[0]];
    image[1] = MIRRORED[key[1]];
    for (kind = 0, at = KEY_SQUARES; kind < 3; kind++, at += 2) {
        unsigned first = MIRRORED[key[at]], second = MIRRORED[key[at + 1]], is_turned = on[kind] == 2 && second < first;
        image[at] = on[kind] == 0 ? 0 : is_turned ? second : first;
        image[at + 1] = on[kind] < 2 ? 0 : is_turned ? first : second;
        image[at + KEY_FORMS - KEY_SQUARES] = key[at + KEY_FORMS - KEY_SQUARES + is_turned];
        image[at + KEY_FORMS - KEY_SQUARES + 1] = key[at + KEY_FORMS - KEY_SQUARES + 1 - is_turned];
    }
}

/* How many forms a piece of a kind has on a square. */
static unsigned forms_on(uint32_t profile, unsigned kind, unsigned square)
{
    return kind != PLAIN_CHICK ? 2 : profile == PLAIN_RULES_B && (square < 3 || square >= 9) ? 3 : 4;
}

/* The number of a form among those that the piece may have on its square. */
static unsigned form_number(uint32_t profile, unsigned kind, unsigned square, unsigned form)
{
    if (kind == PLAIN_CHICK && profile == PLAIN_RULES_B && (square >= 9 || (square < 3 && form == 3)))
        return form - 1;
    return form;
}

/* The choices of squares for the pieces of a kind that come before one of them; each choice counts as often as its pieces have forms. Where the lions and
   the kinds before lie as in the mirror image: `sooner` those that come before their own mirror image; `middle` those on column b, and `pairs` those of two
   squares that are each other's mirror image, which are their own; `even_pairs` these with the same form on both squares. */
typedef struct {
    uint32_t all;
    uint32_t sooner;
    uint32_t middle;
    uint32_t pairs;
    uint32_t even_pairs;
} Before;

/* How many forms pieces of a kind have, one each on the squares of a set. */
static uint32_t forms_in(unsigned set, unsigned most, unsigned fewer)
{
    return fewer == 0 ? most * ones(set) : most * ones(set) - ones(set & fewer);
}

/* What comes before the choice of these ascending squares, of those that are free; by squares that are SQUARES all choices there are. */
static Before before_choice(uint32_t profile, unsigned kind, unsigned count, unsigned unoccupied, const unsigned squares[2])
{
    Before before = {0, 0, 0, 0, 0};
    unsigned most = kind == PLAIN_CHICK ? 4 : 2, fewer = kind == PLAIN_CHICK && profile == PLAIN_RULES_B ? FAR_ROWS : 0;
    unsigned set = unoccupied & ((1u << squares[0]) - 1), first;
    if (count == 0)
        before.all = before.middle = squares[0] == SQUARES;
    if (count == 1) {
        before.all = forms_in(set, most, fewer);
        before.sooner = forms_in(set & COLUMN_A, most, fewer);
        before.middle = forms_in(set & COLUMN_B, most, fewer);
    }
    for (first = 0; count == 2 && first < SQUARES && first <= squares[0]; first++) {
        uint32_t forms = most - (fewer >> first & 1), all;
        if ((unoccupied >> first & 1) == 0)
            continue;
        /* the squares of a second piece */
        set = unoccupied >> (first + 1) << (first + 1);
        if (first == squares[0])
            set &= (1u << squares[1]) - 1;
        all = forms * forms_in(set, most, fewer);
        before.all += all;
        if ((COLUMN_A >> first & 1) != 0) {
            uint32_t pair = (set >> (first + 2) & 1) * forms;
            before.sooner += all - pair * forms;
            before.pairs += pair * forms;
            before.even_pairs += pair;
        } else if ((COLUMN_B >> first & 1) != 0) {
            before.sooner += forms * forms_in(set & COLUMN_A, most, fewer);
            before.middle += forms * forms_in(set & COLUMN_B, most, fewer);
        }
    }
    return before;
}

/* In how many ways the kinds from one on have squares and forms, where so many squares are left for them. Only elephants and giraffes are asked for. */
static uint32_t ways_from(unsigned kind, const unsigned on[3], unsigned left)
{
    uint32_t ways = 1;
    for (; kind < 3; kind++) {
        ways *= on[kind] == 2 ? 2 * left * (left - 1) : on[kind] == 1 ? 2 * left : 1;
        left -= on[kind];
    }
    return ways;
}

/* How many of these ways are their own mirror image, where so many squares of column b are left, and pairs of columns a and c: of one kind, and of the kinds
   from one on. */
static uint32_t even_ways(unsigned count, unsigned middles, unsigned pairs)
{
    return count == 0 ? 1 : count == 1 ? 2 * middles : 2 * pairs + (middles == 2 ? 4 : 0);
}

static uint32_t even_ways_from(unsigned kind, const unsigned on[3], unsigned middles, unsigned pairs)
{
    if (kind == 3)
        return 1;
    if (kind == 2 || on[1] == 0)
        return even_ways(on[2], middles, pairs);
    if (on[1] == 1)
        return middles == 0 ? 0 : 2 * middles * even_ways(on[2], middles - 1, pairs);
    return 2 * pairs * even_ways(on[2], middles, pairs - 1) + (middles == 2 ? 4 * even_ways(on[2], 0, pairs) : 0);
}

/* How often the forms of a kind differ on chosen squares; how often they are as in the mirror image, where the squares are. */
typedef struct {
    uint32_t all;
    uint32_t even;
    int is_pair;
} Forms;

static Forms forms_of(uint32_t profile, unsigned kind, unsigned count, const unsigned squares[2])
{
    Forms forms = {1, 1, FALSE};
    if (count > 0)
        forms.all = forms.even = forms_on(profile, kind, squares[0]);
    if (count > 1) {
        forms.is_pair = squares[1] == MIRRORED[squares[0]];
        forms.all *= forms_on(profile, kind, squares[1]);
        forms.even = forms.is_pair ? forms.even : forms.all;
    }
    return forms;
}

/* A place is six digits: the choices of squares of the three kinds, and then their forms. Representatives before a representative's place begin with the same
   digits and go on with an earlier one. All that follows such a digit counts; or, as long as the digits before are the mirror image's too, so much as comes no
   later than its own image: all, none, or, where that digit is the image's too, half of what isn't its own image and all that is. The key is the same as its
   image's up to `differs`. */

/* How many come before by their forms, the squares being the same; the forms of all kinds together are `all`, of which so many are their own image. */
static uint32_t before_by_forms(uint32_t profile, const unsigned key[KEY], const unsigned on[3], unsigned differs, const Forms forms[3], uint32_t all,
                                uint32_t even)
{
    uint32_t before = 0;
    unsigned kind;
    for (kind = 0; kind < 3; kind++) {
        const unsigned *squares = &key[KEY_SQUARES + 2 * kind], *form = &key[KEY_FORMS + 2 * kind];
        unsigned first = form_number(profile, kind, squares[0], form[0]), second = form_number(profile, kind, squares[1], form[1]);
        unsigned most = forms_on(profile, kind, squares[1]), number = on[kind] == 2 ? first * most + second : first;
        all /= forms[kind].all;
        even /= forms[kind].even;
        if (differs < KEY_FORMS + 2 * kind) {
            before += number * all;
        } else if (!forms[kind].is_pair) {
            before += number * ((all + even) / 2);
        } else {
            /* the first form of a pair is below the second one, or the same */
            unsigned same = first + (second > first), sooner = first * most - first * (first + 1) / 2 + (second > first ? second - first - 1 : 0);
            before += sooner * all + same * ((all + even) / 2);
        }
    }
    return before;
}

/* How many come before in the run. */
static uint32_t before_in_run(uint32_t profile, const unsigned key[KEY], const unsigned on[3], unsigned differs)
{
    unsigned unoccupied = BOARD & ~(1u << key[0] | 1u << key[1]), left = 10, middles = 2, pairs = 4, kind, number;
    uint32_t before = 0, all = 1, even = 1;
    Forms forms[3];
    for (kind = 0; kind < 3; kind++) {
        const unsigned *squares = &key[KEY_SQUARES + 2 * kind];
        Before earlier = before_choice(profile, kind, on[kind], unoccupied, squares);
        uint32_t ways, even_rest;
        left -= on[kind];
        ways = all * ways_from(kind + 1, on, left);
        if (differs < KEY_SQUARES + 2 * kind) {
            before += earlier.all * ways;
        } else {
            even_rest = earlier.middle == 0 ? 0 : earlier.middle * even_ways_from(kind + 1, on, middles - on[kind], pairs);
            even_rest += earlier.even_pairs == 0 ? 0 : earlier.even_pairs * even_ways_from(kind + 1, on, middles, pairs - 1);
            before += earlier.sooner * ways + ((earlier.middle + earlier.pairs) * ways + even * even_rest) / 2;
        }
        forms[kind] = forms_of(profile, kind, on[kind], squares);
        all *= forms[kind].all;
        even *= forms[kind].even;
        if (forms[kind].is_pair)
            pairs--;
        else
            middles -= middles < on[kind] ? middles : on[kind];
        for (number = 0; number < on[kind]; number++)
            unoccupied &= ~(1u << squares[number]);
    }
    return before + before_by_forms(profile, key, on, differs, forms, all, even);
}

/* How many representatives a run with these lions has. */
static uint32_t in_run(uint32_t profile, const unsigned on[3], unsigned mover, unsigned enemy)
{
    static const unsigned none[2] = {SQUARES, SQUARES};
    unsigned image = MIRRORED[mover] != mover ? MIRRORED[mover] : MIRRORED[enemy], own = MIRRORED[mover] != mover ? mover : enemy;
    Before run;
    uint32_t ways = ways_from(1, on, 10 - on[0]), even;
    if (image < own)
        return 0;
    run = before_choice(profile, PLAIN_CHICK, on[0], BOARD & ~(1u << mover | 1u << enemy), none);
    if (image > own)
        return run.all * ways;
    even = run.middle * even_ways_from(1, on, 2 - on[0], 4) + run.even_pairs * even_ways_from(1, on, 2, 3);
    return (run.all * ways + even) / 2;
}

/* The number of a pair of lions. */
static unsigned lions_number(unsigned mover, unsigned enemy)
{
    return 11 * mover + enemy - (enemy > mover);
}

static unsigned block_count(const PlainTable *table)
{
    return (table->pieces[0] + 1u) * (table->pieces[1] + 1u) * (table->pieces[2] + 1u);
}

/* Writes the words of a block: how many classes stand before its first run with each pair of lions, of all in the file, and last how many a hand of the
   mover has. Answers how many stand before the next block. */
static uint32_t write_block(const PlainTable *table, unsigned block, uint32_t before, uint32_t words[BLOCK_WORDS])
{
    unsigned on[3], mover, enemy, kind, hands = 1;
    uint32_t in_hand = 0;
    on[2] = block % (table->pieces[2] + 1u);
    on[1] = block / (table->pieces[2] + 1u) % (table->pieces[1] + 1u);
    on[0] = block / (table->pieces[2] + 1u) / (table->pieces[1] + 1u);
    for (mover = 0; mover < 9; mover++)
        for (enemy = 0; enemy < SQUARES; enemy++)
            if (enemy != mover) {
                words[lions_number(mover, enemy)] = before + in_hand;
                in_hand += in_run(table->profile, on, mover, enemy);
            }
    words[LIONS] = in_hand;
    for (kind = 0; kind < 3; kind++)
        hands *= table->pieces[kind] - on[kind] + 1;
    return before + hands * in_hand;
}

size_t plain_index_words(const PlainTable *table)
{
    return (size_t)BLOCK_WORDS * block_count(table);
}

uint32_t plain_index(PlainTable *table, uint32_t *words, size_t count)
{
    unsigned block;
    uint32_t before = 0;
    if (count < plain_index_words(table))
        return PLAIN_INDEX;
    for (block = 0; block < block_count(table); block++)
        before = write_block(table, block, before, words + (size_t)BLOCK_WORDS * block);
    table->index = words;
    return PLAIN_OK;
}

uint32_t plain_class_count(const PlainTable *table)
{
    unsigned block;
    uint32_t before = 0, words[BLOCK_WORDS];
    for (block = 0; block < block_count(table); block++)
        before = write_block(table, block, before, words);
    return before;
}

uint32_t plain_class_number(const PlainTable *table, const PlainPosition *position)
{
    unsigned keys[2][KEY], on[3], differs = 0, hand = 0, kind, block;
    const unsigned *key;
    uint32_t counted[BLOCK_WORDS], before = 0;
    const uint32_t *words = counted;
    find_key(position, keys[0], on);
    mirror_key(keys[0], on, keys[1]);
    while (differs < KEY && keys[0][differs] == keys[1][differs])
        differs++;
    key = differs == KEY || keys[0][differs] < keys[1][differs] ? keys[0] : keys[1];
    for (kind = 0; kind < 3; kind++)
        hand = hand * (table->pieces[kind] - on[kind] + 1) + position->mover[kind];
    block = (on[0] * (table->pieces[1] + 1u) + on[1]) * (table->pieces[2] + 1u) + on[2];
    if (table->index != NULL) {
        words = table->index + (size_t)BLOCK_WORDS * block;
    } else {
        unsigned number;
        for (number = 0; number <= block; number++)
            before = write_block(table, number, before, counted);
    }
    return words[lions_number(key[0], key[1])] + hand * words[LIONS] + before_in_run(table->profile, key, on, differs);
}
