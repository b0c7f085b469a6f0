/* Every call of include/siren.h from C, with answers worked out by hand: on table A of the rules (slices 3; 3; 7; 11; 24), as a list and in thresholds, on journals of none to 4,096
 * calls, and on tables, rooms, lists, states and journals that are refused. Each call finds `out` full of old numbers between two guards, and must write
 * its four cells and no other. Then the stack that the calls use, measured on a painted stack; a word given leaves that out. */
#define _GNU_SOURCE
#include <stdio.h>
#include <stdlib.h>
#include <string.h>
#include <ucontext.h>

#include "siren.h"

#define SITES 5
#define TABLE (63 * SITES)
#define STATE (4 * SITES + 6)
#define OLD 0x5a5a5a5a5a5a5a5au
#define OLD_BYTE 0x5au
#define PAINT 0xa5
#define STACK 262144
#define STACK_ALLOWED 1024
#define STACK_OF_ROUNDS 1536
#define STACK_OF_LISTS 10240
#define STACK_OF_VERDICTS 11264
#define STACK_OF_RECORDS 26624
#define STACK_OF_ROWS 45056
#define STACK_OF_BOTH 60416
/* The limits are those of include/siren.h. A copy of the lent table, 2,520 bytes for table A, is refused. */
#define COUNT(a) (sizeof(a) / sizeof *(a))

static unsigned tried;
static uint64_t cells[6];
static uint64_t *const out = cells + 1;

static void fail(const char *what, const char *why)
{
    printf("capi: %s: %s\n", what, why);
    exit(1);
}

/* `out` before a call: old numbers in every cell. */
static uint64_t *fresh(void)
{
    for (size_t i = 0; i < COUNT(cells); i++)
        cells[i] = OLD;
    return out;
}

static void says(const char *what, uint64_t answer, uint64_t number, uint64_t place, uint64_t a, uint64_t b, uint64_t c)
{
    tried++;
    if (answer != number)
        fail(what, "another number");
    if (out[0] != place || out[1] != a || out[2] != b || out[3] != c)
        fail(what, "other cells of out");
    if (cells[0] != OLD || cells[5] != OLD)
        fail(what, "a cell beside out was written");
}

static void same_numbers(const char *what, const uint64_t *got, const uint64_t *want, size_t length)
{
    if (memcmp(got, want, length * sizeof *got) != 0)
        fail(what, "other numbers in lent memory");
}

static void same_bytes(const char *what, const uint8_t *got, const uint8_t *want, size_t length)
{
    if (memcmp(got, want, length) != 0)
        fail(what, "other bytes in lent memory");
}

static void old_numbers(uint64_t *room, size_t length)
{
    for (size_t i = 0; i < length; i++)
        room[i] = OLD;
}

/* A table whose sites have one slice each. */
static void make_table(uint64_t *table, const uint64_t *slices, size_t sites)
{
    memset(table, 0, 63 * sites * sizeof *table);
    for (size_t v = 0; v < sites; v++) {
        table[63 * v] = 1;
        table[63 * v + 1] = slices[v];
    }
}

static uint64_t a[TABLE], bad[TABLE], apart[63 * 4], alone[63 * 13];

static void tables(void)
{
    const uint64_t slices_a[SITES] = {3, 3, 7, 11, 24};
    const uint64_t slices_apart[4] = {3, 3, 12, 12};
    uint64_t slices_alone[13];
    make_table(a, slices_a, SITES);
    make_table(bad, slices_a, SITES);
    bad[63 * 2 + 1] = 3; /* site 2 has a slice without itself */
    make_table(apart, slices_apart, 4);
    for (size_t v = 0; v < 13; v++)
        slices_alone[v] = (uint64_t)1 << v;
    make_table(alone, slices_alone, 13);

    says("table A", siren_table_check(a, TABLE, fresh()), 0, 0, 0, 0, 0);
    says("table with a wrong slice", siren_table_check(bad, TABLE, fresh()), 5, 2, 0, 0, 0);
    says("table cut short", siren_table_check(a, TABLE - 1, fresh()), 1, 0, 0, 0, 0);
    says("no table", siren_table_check(NULL, 0, fresh()), 1, 0, 0, 0, 0);
}

static void images(void)
{
    static uint8_t image[512 * SITES + 7], kept[512 * SITES + 7];
    static uint64_t room[TABLE + 3], old[TABLE + 3];
    old_numbers(room, COUNT(room));
    old_numbers(old, COUNT(old));
    memset(image, OLD_BYTE, sizeof image);
    memset(kept, OLD_BYTE, sizeof kept);

    says("write, room too short", siren_image_write(a, TABLE, image, 512 * SITES - 1, fresh()), 9, 0, 0, 0, 0);
    says("write, no room", siren_image_write(a, TABLE, NULL, 0, fresh()), 9, 0, 0, 0, 0);
    says("write, a wrong slice", siren_image_write(bad, TABLE, image, sizeof image, fresh()), 5, 2, 0, 0, 0);
    same_bytes("write refused", image, kept, sizeof image);
    says("write", siren_image_write(a, TABLE, image, sizeof image, fresh()), 0, 0, SITES, 0, 0);
    same_bytes("room beyond the image", image + 512 * SITES, kept, 7);
    /* block 3: site 3, n = 5, one slice 11; s is the sum of the words 0x00050003, 1 and 11, and each word counts once for every word from it on */
    if (image[1536] != 3 || image[1538] != 5 || image[1540] != 1 || image[1544] != 11)
        fail("write", "other bytes in block 3");
    const uint32_t s = 0x00050003u + 1 + 11, t = 126u * 0x00050003u + 125u * 1 + 124u * 11;
    for (int i = 0; i < 4; i++)
        if (image[1536 + 504 + i] != (uint8_t)(s >> 8 * i) || image[1536 + 508 + i] != (uint8_t)(t >> 8 * i))
            fail("write", "other sums in block 3");

    memcpy(kept, image, sizeof image);
    says("read, room too short", siren_image_read(image, 512 * SITES, room, TABLE - 1, fresh()), 9, 0, 0, 0, 0);
    says("read, no image", siren_image_read(NULL, 0, room, COUNT(room), fresh()), 1, 0, 0, 0, 0);
    image[512 * 4 + 8] ^= 1;
    says("read, a damaged block", siren_image_read(image, 512 * SITES, room, COUNT(room), fresh()), 2, 4, 0, 0, 0);
    image[512 * 4 + 8] ^= 1;
    same_numbers("read refused", room, old, COUNT(room));
    says("read", siren_image_read(image, 512 * SITES, room, COUNT(room), fresh()), 0, 0, SITES, 0, 0);
    same_numbers("table read", room, a, TABLE);
    same_numbers("room beyond the table", room + TABLE, old, 3);
    same_bytes("image lent to be read", image, kept, sizeof image);
}

static void questions(void)
{
    says("quorum 7", siren_quorum(a, TABLE, 7, fresh()), 0, 0, 1, 0, 0);
    says("quorum 24", siren_quorum(a, TABLE, 24, fresh()), 0, 0, 0, 0, 0);
    says("quorum, site 5", siren_quorum(a, TABLE, 32, fresh()), 10, 0, 0, 0, 0);
    says("quorum, a wrong slice", siren_quorum(bad, TABLE, 32, fresh()), 5, 2, 0, 0, 0);
    says("largest in 23", siren_largest(a, TABLE, 23, fresh()), 0, 0, 7, 1, 0);
    says("largest in 20", siren_largest(a, TABLE, 20, fresh()), 0, 0, 0, 1, 0);
    says("largest, site 5", siren_largest(a, TABLE, 32, fresh()), 10, 0, 0, 0, 0);
    says("8 blocks 4", siren_blocks(a, TABLE, 8, 4, fresh()), 0, 0, 1, 0, 0);
    says("4 blocks 4", siren_blocks(a, TABLE, 4, 4, fresh()), 0, 0, 0, 0, 0);
    says("blocks, site 5", siren_blocks(a, TABLE, 8, 5, fresh()), 11, 0, 0, 0, 0);
    says("0 does not block itself", siren_blocks(a, TABLE, 1, 0, fresh()), 0, 0, 0, 0, 0);
    says("0 and 1 block 0", siren_blocks(a, TABLE, 3, 0, fresh()), 0, 0, 1, 0, 0);
    says("blocks, set 32 and site 5", siren_blocks(a, TABLE, 32, 5, fresh()), 10, 0, 0, 0, 0);
}

static void verdicts(void)
{
    says("shared", siren_shared(a, TABLE, fresh()), 0, 0, 1, 0, 0);
    says("shared, not meeting", siren_shared(apart, COUNT(apart), fresh()), 0, 0, 0, 3, 12);
    says("shared, 13 sites", siren_shared(alone, COUNT(alone), fresh()), 16, 0, 0, 0, 0);
    says("intact, 3 faulty", siren_intact(a, TABLE, 8, fresh()), 0, 0, 7, 0, 0);
    says("intact, 13 sites and site 13", siren_intact(alone, COUNT(alone), 8192, fresh()), 10, 0, 0, 0, 0);
    says("intact, 13 sites", siren_intact(alone, COUNT(alone), 0, fresh()), 16, 0, 0, 0, 0);
}

static void voting(void)
{
    uint64_t state[STATE] = {0}, want[STATE] = {0};
    says("fresh state", siren_sound(a, TABLE, 8, state, STATE, fresh()), 0, 0, 0, 0, 0);
    says("state too short", siren_sound(a, TABLE, 8, state, STATE - 1, fresh()), 18, 0, 0, 0, 0);
    says("no state", siren_sound(a, TABLE, 8, NULL, 0, fresh()), 18, 0, 0, 0, 0);
    says("sound, site 5 faulty", siren_sound(a, TABLE, 32, state, STATE, fresh()), 10, 0, 0, 0, 0);

    /* site 0 votes drill: its own vote is heard by itself, and its one slice 3 is not inside that */
    says("propose", siren_step(a, TABLE, 8, state, STATE, 0, 0, 0, 0, fresh()), 0, 0, 0, 0, 0);
    want[0] = 1;
    want[4 * SITES] = 1;
    same_numbers("propose", state, want, STATE);
    says("kind 3", siren_step(a, TABLE, 8, state, STATE, 3, 0, 0, 0, fresh()), 11, 0, 0, 0, 0);
    says("proposal from 0 to 3", siren_step(a, TABLE, 8, state, STATE, 0, 0, 3, 0, fresh()), 13, 0, 0, 0, 0);
    says("proposal to faulty 3", siren_step(a, TABLE, 8, state, STATE, 0, 3, 3, 0, fresh()), 12, 0, 0, 0, 0);
    says("proposal of live", siren_step(a, TABLE, 8, state, STATE, 0, 0, 0, 1, fresh()), 14, 0, 0, 0, 0);
    says("vote not sent", siren_step(a, TABLE, 8, state, STATE, 1, 1, 0, 0, fresh()), 15, 0, 0, 0, 0);
    same_numbers("refused steps", state, want, STATE);
    state[1] = want[1] = 16;
    says("step on an unsound state", siren_step(a, TABLE, 8, state, STATE, 0, 0, 0, 0, fresh()), 18, 0, 0, 0, 0);
    same_numbers("unsound state", state, want, STATE);
}

/* Sites 0 and 1 propose drill, hear each other's votes, then each other's accepts: both confirm. Site 2 has not voted, so the last call is refused. The
 * second pass changes nothing. */
static const siren_call list[7] = {{0, 0, 0, 0}, {0, 1, 1, 0}, {1, 0, 1, 0}, {1, 1, 0, 0}, {2, 0, 1, 0}, {2, 1, 0, 0}, {1, 2, 0, 0}};

static uint64_t state_room[STATE + 2], old_state[STATE + 2];
static uint8_t answer_room[9], old_answers[9];

static void old_rooms(void)
{
    old_numbers(state_room, COUNT(state_room));
    old_numbers(old_state, COUNT(old_state));
    memset(answer_room, OLD_BYTE, sizeof answer_room);
    memset(old_answers, OLD_BYTE, sizeof old_answers);
}

static void rooms_kept(const char *what)
{
    same_numbers(what, state_room, old_state, COUNT(old_state));
    same_bytes(what, answer_room, old_answers, sizeof old_answers);
}

/* The rooms after the list above: what sites 0 and 1 heard, the masks voted, accepted and confirmed drill, and the answers of the calls. */
static void rooms_filled(const char *what)
{
    static const uint64_t state[STATE] = {3, 0, 3, 0, 3, 0, 3, 0, [4 * SITES] = 3, 0, 3, 0, 3, 0};
    static const uint8_t answers[7] = {0, 0, 0, 0, 0, 0, 15};
    same_numbers(what, state_room, state, STATE);
    same_numbers(what, state_room + STATE, old_state, 2);
    same_bytes(what, answer_room, answers, 7);
    same_bytes(what, answer_room + 7, old_answers, 2);
}

static void runs(void)
{
    static const uint64_t zeros[STATE];
    static uint8_t bytes[28];
    for (size_t i = 0; i < 7; i++) {
        bytes[4 * i] = list[i].kind;
        bytes[4 * i + 1] = list[i].from;
        bytes[4 * i + 2] = list[i].to;
        bytes[4 * i + 3] = list[i].side;
    }
    old_rooms();
    says("27 bytes", siren_run(a, TABLE, 8, bytes, 27, state_room, 0, answer_room, 0, fresh()), 17, 0, 0, 0, 0);
    says("state room too short", siren_run(a, TABLE, 8, bytes, 28, state_room, STATE - 1, answer_room, 9, fresh()), 9, 0, 0, 0, 0);
    says("answer room too short", siren_run(a, TABLE, 8, bytes, 28, state_room, STATE, answer_room, 6, fresh()), 9, 0, 0, 0, 0);
    says("site 5 faulty", siren_run(a, TABLE, 32, bytes, 27, state_room, STATE, answer_room, 9, fresh()), 10, 0, 0, 0, 0);
    rooms_kept("run refused");
    says("run", siren_run(a, TABLE, 8, bytes, 28, state_room, STATE + 2, answer_room, 9, fresh()), 0, 0, 2, 0, 0);
    rooms_filled("run");
    says("empty list", siren_run(a, TABLE, 8, NULL, 0, state_room, STATE, NULL, 0, fresh()), 0, 0, 1, 0, 0);
    same_numbers("empty list", state_room, zeros, STATE);
}

static void runs_of_records(void)
{
    static const uint64_t zeros[STATE];
    static siren_call many[4097];
    old_rooms();
    says("records, state room too short", siren_run_records(a, TABLE, 8, list, 7, state_room, STATE - 1, answer_room, 9, fresh()), 9, 0, 0, 0, 0);
    says("4,097 records", siren_run_records(a, TABLE, 8, many, 4097, state_room, STATE, answer_room, 0, fresh()), 17, 0, 0, 0, 0);
    says("4,096 records, no answer room", siren_run_records(a, TABLE, 8, many, 4096, state_room, STATE, NULL, 0, fresh()), 9, 0, 0, 0, 0);
    rooms_kept("run of records refused");
    says("run of records", siren_run_records(a, TABLE, 8, list, 7, state_room, STATE + 2, answer_room, 9, fresh()), 0, 0, 2, 0, 0);
    rooms_filled("run of records");
    says("no records", siren_run_records(a, TABLE, 8, NULL, 0, state_room, STATE, NULL, 0, fresh()), 0, 0, 1, 0, 0);
    same_numbers("no records", state_room, zeros, STATE);
}

/* ---- the journal */

#define BLOCKS 33
#define CALLS 4096
#define JOURNAL (512 * BLOCKS)

static uint8_t whole_list[4 * CALLS + 4], journal[JOURNAL + 512], journal_room[JOURNAL + 7], list_room[4 * CALLS + 7];

static void old_journal_rooms(void)
{
    memset(journal_room, OLD_BYTE, sizeof journal_room);
    memset(list_room, OLD_BYTE, sizeof list_room);
}

static void all_old(const char *what, const uint8_t *room, size_t length)
{
    for (size_t i = 0; i < length; i++)
        if (room[i] != OLD_BYTE)
            fail(what, "room changed that was to be kept");
}

static void put32(uint8_t *at, uint32_t number)
{
    for (int i = 0; i < 4; i++)
        at[i] = (uint8_t)(number >> 8 * i);
}

/* The check of a block: each of its first 126 words counts once in s, and in t once for every word from it on. */
static void seal(uint8_t *block)
{
    uint32_t s = 0, t = 0;
    for (uint32_t i = 0; i < 126; i++) {
        const uint8_t *w = block + 4 * i;
        const uint32_t word = w[0] | (uint32_t)w[1] << 8 | (uint32_t)w[2] << 16 | (uint32_t)w[3] << 24;
        s += word;
        t += (126 - i) * word;
    }
    put32(block + 504, s);
    put32(block + 508, t);
}

/* The four bytes of the call at a place of the list, all different: the place in two bytes, then a kind that no run takes, then 7. */
static uint32_t word_at(size_t place)
{
    return (uint32_t)place | 255u << 16 | 7u << 24;
}

/* A block of the list's calls from place 125 k on, as many as told. */
static void make_block(uint8_t *block, size_t k, size_t count)
{
    memset(block, 0, 512);
    put32(block, (uint32_t)(k | count << 16));
    for (size_t i = 0; i < count; i++)
        put32(block + 4 + 4 * i, word_at(125 * k + i));
    seal(block);
}

static void make_journal(size_t blocks, size_t last)
{
    for (size_t k = 0; k < blocks; k++)
        make_block(journal + 512 * k, k, k + 1 < blocks ? 125 : last);
}

/* Every reader refuses the journal in the same way, whatever the room and the place. */
static void refuses(const char *what, size_t length, uint64_t number, uint64_t place)
{
    old_journal_rooms();
    says(what, siren_journal_check(journal, length, fresh()), number, place, 0, 0, 0);
    says(what, siren_journal_list(journal, length, list_room, sizeof list_room, fresh()), number, place, 0, 0, 0);
    says(what, siren_journal_list(journal, length, NULL, 0, fresh()), number, place, 0, 0, 0);
    says(what, siren_journal_next(journal, length, 0, fresh()), number, place, 0, 0, 0);
    says(what, siren_journal_next(journal, length, UINT64_MAX, fresh()), number, place, 0, 0, 0);
    all_old(what, list_room, sizeof list_room);
}

/* A list of `calls` calls is written as `blocks` blocks, the last with `last` calls, and read again: whole, and at the places around its ends. */
static void keeps(const char *what, size_t calls, size_t blocks, size_t last)
{
    const uint64_t none[] = {calls, calls + 1, 4096, (uint64_t)1 << 32, (uint64_t)1 << 62, UINT64_MAX};
    make_journal(blocks, last);
    old_journal_rooms();
    if (blocks > 0) {
        says(what, siren_journal_write(whole_list, 4 * calls, journal_room, 512 * blocks - 1, fresh()), 9, 0, 0, 0, 0);
        says(what, siren_journal_list(journal, 512 * blocks, list_room, 4 * calls - 1, fresh()), 9, 0, 0, 0, 0);
        all_old(what, journal_room, sizeof journal_room);
        all_old(what, list_room, sizeof list_room);
    }
    says(what, siren_journal_write(whole_list, 4 * calls, journal_room, sizeof journal_room, fresh()), 0, 0, blocks, 0, 0);
    same_bytes(what, journal_room, journal, 512 * blocks);
    all_old(what, journal_room + 512 * blocks, sizeof journal_room - 512 * blocks);
    says(what, siren_journal_check(journal, 512 * blocks, fresh()), 0, 0, blocks, calls, 0);
    says(what, siren_journal_list(journal, 512 * blocks, list_room, sizeof list_room, fresh()), 0, 0, 4 * calls, 0, 0);
    same_bytes(what, list_room, whole_list, 4 * calls);
    all_old(what, list_room + 4 * calls, sizeof list_room - 4 * calls);
    for (size_t place = 0; place < calls; place += calls < 300 || place % 125 == 124 ? 1 : 31)
        says(what, siren_journal_next(journal, 512 * blocks, place, fresh()), 0, 0, 1, word_at(place), place + 1);
    if (calls > 0)
        says(what, siren_journal_next(journal, 512 * blocks, calls - 1, fresh()), 0, 0, 1, word_at(calls - 1), calls);
    for (size_t i = 0; i < COUNT(none); i++)
        if (none[i] >= calls)
            says(what, siren_journal_next(journal, 512 * blocks, none[i], fresh()), 0, 0, 0, 0, 0);
}

static void journals(void)
{
    static const uint8_t zeros[4], two[8] = {1, 0, 1, 0, 0, 0, 0, 0}; /* propose 0 drill; vote 0 to 1 drill, propose 0 drill */
    static uint8_t sums[8];
    for (size_t i = 0; i <= CALLS; i++)
        put32(whole_list + 4 * i, word_at(i));

    /* one call of zeros: the only word that is not 0 is the first, 65536, and t counts it 126 times; then words 2 * 65536 and 65537, 126 and 125 times */
    old_journal_rooms();
    says("one call", siren_journal_write(zeros, 4, journal_room, 512, fresh()), 0, 0, 1, 0, 0);
    put32(sums, 65536);
    put32(sums + 4, 8257536);
    same_bytes("one call", journal_room + 504, sums, 8);
    says("two calls", siren_journal_write(two, 8, journal_room, 512, fresh()), 0, 0, 1, 0, 0);
    put32(sums, 196609);
    put32(sums + 4, 24707197);
    same_bytes("two calls", journal_room + 504, sums, 8);
    same_bytes("two calls", journal_room + 4, two, 8);

    keeps("no call", 0, 0, 0);
    says("no call, no room", siren_journal_write(NULL, 0, NULL, 0, fresh()), 0, 0, 0, 0, 0);
    says("empty file", siren_journal_check(NULL, 0, fresh()), 0, 0, 0, 0, 0);
    says("empty file, no room", siren_journal_list(NULL, 0, NULL, 0, fresh()), 0, 0, 0, 0, 0);
    says("empty file, none left", siren_journal_next(NULL, 0, 0, fresh()), 0, 0, 0, 0, 0);
    keeps("1 call", 1, 1, 1);
    keeps("124 calls", 124, 1, 124);
    keeps("125 calls", 125, 1, 125);
    keeps("126 calls", 126, 2, 1);
    keeps("4,000 calls", 4000, 32, 125);
    keeps("4,096 calls", 4096, 33, 96);

    old_journal_rooms();
    says("4,097 calls", siren_journal_write(whole_list, 4 * 4097, journal_room, sizeof journal_room, fresh()), 17, 0, 0, 0, 0);
    says("4,097 calls, no room", siren_journal_write(whole_list, 4 * 4097, NULL, 0, fresh()), 17, 0, 0, 0, 0);
    says("part of a call", siren_journal_write(whole_list, 7, journal_room, sizeof journal_room, fresh()), 17, 0, 0, 0, 0);
    all_old("list refused", journal_room, sizeof journal_room);

    make_journal(33, 97);
    refuses("33 blocks, 97 calls in the last", JOURNAL, 17, 0);
    journal[512 * 20 + 100] ^= 1;
    refuses("a damaged block before too many calls", JOURNAL, 2, 20);
    refuses("a part of a block", JOURNAL - 1, 19, 0);
    make_block(journal + JOURNAL, 33, 1);
    refuses("34 blocks", JOURNAL + 512, 19, 0);
    memset(journal, 0, 512);
    refuses("512 zero bytes", 512, 20, 0);
    make_journal(2, 1);
    make_block(journal, 0, 124);
    refuses("the first of two with 124", 1024, 20, 0);
    make_journal(3, 9);
    make_block(journal + 1024, 2, 126 - 1);
    journal[1024 + 2] = 126;
    seal(journal + 1024);
    refuses("126 calls in the last block", 1536, 20, 2);
    make_block(journal + 1024, 2, 9);
    journal[1024 + 503] = 1;
    seal(journal + 1024);
    refuses("filler at byte 503", 1536, 8, 2);
    journal[1024] = 1;
    seal(journal + 1024);
    refuses("number and filler", 1536, 20, 2);
    journal[1024 + 511] ^= 1;
    refuses("check, number and filler", 1536, 2, 2);
    journal[512 + 1] = 1;
    seal(journal + 512);
    refuses("the number of the block before", 1536, 20, 1);
}

/* ---- tables of thresholds */

static uint8_t groups[512 * SITES], image_a[512 * SITES];

/* A set of a block: threshold, number of inner sets, mask of plain sites. */
typedef struct {
    uint8_t threshold, inner;
    uint64_t plain;
} set;

static void make_sets(uint8_t *image, size_t sites, size_t site, const set *sets, size_t many)
{
    uint8_t *const block = image + 512 * site;
    memset(block, 0, 512);
    block[0] = (uint8_t)site;
    block[2] = (uint8_t)sites;
    block[4] = (uint8_t)many;
    for (size_t i = 0; i < many; i++) {
        block[8 + 10 * i] = sets[i].threshold;
        block[9 + 10 * i] = sets[i].inner;
        for (size_t j = 0; j < 8; j++)
            block[10 + 10 * i + j] = (uint8_t)(sets[i].plain >> (8 * j));
    }
    seal(block);
}

/* Block 1 of the groups with other sets is refused so. */
static void refuses_sets(const char *what, const set *sets, size_t many, uint64_t number)
{
    make_sets(groups, SITES, 1, sets, many);
    says(what, siren_threshold_check(groups, sizeof groups, fresh()), number, number == 0 ? 0 : 1, 0, 0, 0);
}

static void threshold_images(void)
{
    const set rows_a[SITES] = {{2, 0, 3}, {2, 0, 3}, {3, 0, 7}, {3, 0, 11}, {2, 0, 24}};
    const set nested[3] = {{2, 2, 1}, {1, 0, 6}, {2, 0, 24}};
    const set none[1] = {{0, 0, 31}}, above[1] = {{6, 0, 31}}, strange[2] = {{1, 1, 1}, {1, 0, 32}}, second[2] = {{1, 0, 1}, {1, 0, 2}}, owed[1] = {{1, 1, 1}};
    const set four[4] = {{1, 1, 0}, {1, 1, 0}, {1, 1, 0}, {1, 0, 2}}, five[5] = {{1, 1, 0}, {1, 1, 0}, {1, 1, 0}, {1, 1, 0}, {1, 0, 2}};
    for (size_t v = 0; v < SITES; v++) {
        make_sets(image_a, SITES, v, rows_a + v, 1);
        make_sets(groups, SITES, v, nested, 3);
    }
    says("table A in thresholds", siren_threshold_check(image_a, sizeof image_a, fresh()), 0, 0, 0, 0, 0);
    says("groups", siren_threshold_check(groups, sizeof groups, fresh()), 0, 0, 0, 0, 0);
    says("no image", siren_threshold_check(NULL, 0, fresh()), 1, 0, 0, 0, 0);
    says("half a block", siren_threshold_check(groups, 256, fresh()), 1, 0, 0, 0, 0);
    refuses_sets("no set", nested, 0, 4);
    refuses_sets("a threshold of zero", none, 1, 21);
    refuses_sets("a threshold that nobody reaches", above, 1, 21);
    refuses_sets("site 5 in an inner set", strange, 2, 5);
    refuses_sets("a second root", second, 2, 22);
    refuses_sets("an inner set that is missing", owed, 1, 22);
    refuses_sets("four levels", four, 4, 0);
    refuses_sets("five levels", five, 5, 22);
    make_sets(groups, SITES, 1, nested, 3);
    groups[512 + 8 + 30] = 1;
    seal(groups + 512);
    says("a byte behind the last set", siren_threshold_check(groups, sizeof groups, fresh()), 8, 1, 0, 0, 0);
    groups[512 + 8 + 30] = 0;
    says("a check that differs", siren_threshold_check(groups, sizeof groups, fresh()), 2, 1, 0, 0, 0);
    make_sets(groups, SITES, 1, nested, 3);
}

/* Of the groups 2 of (0, 1 of (1, 2), 2 of (3, 4)): {0, 1, 3, 4} is a quorum; {1, 2, 3, 4} meets the root of every site, and site 0 is not in it. */
static void threshold_calls(void)
{
    says("a quorum of the groups", siren_threshold_quorum(groups, sizeof groups, 27, fresh()), 0, 0, 1, 0, 0);
    says("no quorum of the groups", siren_threshold_quorum(groups, sizeof groups, 9, fresh()), 0, 0, 0, 0, 0);
    says("the others of site 0", siren_threshold_quorum(groups, sizeof groups, 30, fresh()), 0, 0, 1, 0, 0);
    says("who blocks site 0", siren_threshold_blocks(groups, sizeof groups, 30, 0, fresh()), 0, 0, 1, 0, 0);
    says("who does not", siren_threshold_blocks(groups, sizeof groups, 6, 0, fresh()), 0, 0, 0, 0, 0);
    says("table A, a quorum", siren_threshold_quorum(image_a, sizeof image_a, 3, fresh()), 0, 0, 1, 0, 0);
    says("table A, the largest", siren_threshold_largest(image_a, sizeof image_a, 24, fresh()), 0, 0, 0, 2, 0);
    says("table A, site 5", siren_threshold_largest(image_a, sizeof image_a, 32, fresh()), 10, 0, 0, 0, 0);
    says("table A, 0 blocks 1", siren_threshold_blocks(image_a, sizeof image_a, 1, 1, fresh()), 0, 0, 1, 0, 0);
    says("table A, site 5 asked for", siren_threshold_blocks(image_a, sizeof image_a, 1, 5, fresh()), 11, 0, 0, 0, 0);
    says("table A meets", siren_threshold_shared(image_a, sizeof image_a, fresh()), 0, 0, 1, 0, 0);
    says("table A, 3 faulty", siren_threshold_intact(image_a, sizeof image_a, 8, fresh()), 0, 0, 7, 0, 0);
}

static void threshold_runs(void)
{
    static const uint64_t zeros[STATE];
    static uint64_t state[STATE];
    static uint8_t bytes[28];
    memset(state, 0, sizeof state);
    for (size_t i = 0; i < 7; i++) {
        bytes[4 * i] = list[i].kind;
        bytes[4 * i + 1] = list[i].from;
        bytes[4 * i + 2] = list[i].to;
        bytes[4 * i + 3] = list[i].side;
    }
    says("thresholds, fresh state", siren_threshold_sound(image_a, sizeof image_a, 8, state, STATE, fresh()), 0, 0, 0, 0, 0);
    says("thresholds, short state", siren_threshold_sound(image_a, sizeof image_a, 8, state, STATE - 1, fresh()), 18, 0, 0, 0, 0);
    says("thresholds, step refused", siren_threshold_step(image_a, sizeof image_a, 8, state, STATE, 1, 0, 1, 0, fresh()), 15, 0, 0, 0, 0);
    same_numbers("thresholds, step refused", state, zeros, STATE);
    says("thresholds, step", siren_threshold_step(image_a, sizeof image_a, 8, state, STATE, 0, 0, 0, 0, fresh()), 0, 0, 0, 0, 0);
    if (state[0] != 1 || state[4 * SITES] != 1)
        fail("thresholds, step", "another state");
    old_rooms();
    says("thresholds, state room too short", siren_threshold_run(image_a, sizeof image_a, 8, bytes, 28, state_room, STATE - 1, answer_room, 9, fresh()), 9, 0, 0, 0, 0);
    rooms_kept("thresholds, run refused");
    says("thresholds, run", siren_threshold_run(image_a, sizeof image_a, 8, bytes, 28, state_room, STATE + 2, answer_room, 9, fresh()), 0, 0, 2, 0, 0);
    rooms_filled("thresholds, run");
}

static void threshold_records(void)
{
    old_rooms();
    says("thresholds, records", siren_threshold_run_records(image_a, sizeof image_a, 8, list, 7, state_room, STATE + 2, answer_room, 9, fresh()), 0, 0, 2, 0, 0);
    rooms_filled("thresholds, records");
}

/* ---- the stack: each part above runs on a stack painted beforehand, and what it touched is no longer painted. The figures hold the parts' own frames. */

static uint8_t painted[STACK];
static ucontext_t here;

static size_t touched(void)
{
    size_t i = 0;
    while (i < STACK && painted[i] == PAINT)
        i++;
    return STACK - i;
}

static void on_painted(const char *what, void (*part)(void), size_t allowed)
{
    ucontext_t there;
    memset(painted, PAINT, STACK);
    if (getcontext(&there) != 0)
        fail(what, "no context");
    there.uc_stack.ss_sp = painted;
    there.uc_stack.ss_size = STACK;
    there.uc_link = &here;
    makecontext(&there, part, 0);
    if (swapcontext(&here, &there) != 0)
        fail(what, "no context");
    printf("stack of the %s: %zu bytes\n", what, touched());
    if (touched() > allowed)
        fail(what, "more stack than the header says");
}

int main(int count, char **words)
{
    (void)words;
    if (sizeof(siren_call) != 4)
        fail("siren_call", "not four bytes");
    tables();
    images();
    questions();
    verdicts();
    voting();
    runs();
    runs_of_records();
    journals();
    threshold_images();
    threshold_calls();
    threshold_runs();
    threshold_records();
    if (count == 1) {
        on_painted("tables", tables, STACK_ALLOWED);
        on_painted("images", images, STACK_ALLOWED);
        on_painted("set questions", questions, STACK_OF_ROUNDS);
        on_painted("verdicts", verdicts, STACK_OF_VERDICTS);
        on_painted("voting", voting, STACK_OF_ROUNDS);
        on_painted("runs", runs, STACK_OF_LISTS);
        on_painted("runs of records", runs_of_records, STACK_OF_RECORDS);
        on_painted("journals", journals, STACK_ALLOWED);
        on_painted("images of thresholds", threshold_images, STACK_ALLOWED);
        on_painted("set questions and verdicts of thresholds", threshold_calls, STACK_OF_ROWS);
        on_painted("voting and runs over thresholds", threshold_runs, STACK_OF_ROWS);
        on_painted("runs of records over thresholds", threshold_records, STACK_OF_BOTH);
    }
    printf("capi: %u calls, every function of include/siren.h, as worked out by hand\n", tried);
    return 0;
}
