/* generate_calls.c: seeded calls in the stored form (docs/CALLS.md).
 *   second generatecalls SEED COUNT FILE    COUNT calls into FILE, and to standard output how many there are of each
 *                                           kind and how many of each number come back
 * Cards are of three sorts: reached by a session's events; sound ones that mostly no events reach; and ones about each
 * bound of sound, on both sides of it. The same seed and count give the same bytes on every machine. */
#define _POSIX_C_SOURCE 200809L
#include <stdio.h>
#include <stdlib.h>
#include <string.h>
#include "calls.h"
#include "generate.h"

enum { ROW_5 = 0x10, ROW_11 = 0x400, ALL_ROWS = 0x7FF, LONGEST_TABLE = TABLE * DESCRIPTOR, ENOUGH = 1000 };

static struct call call;            /* the call at hand */
static struct card at;              /* its card, as far as the model can hold it */
static u32 first;                   /* the session's event that comes next on it */
static u8 rest[AREA];               /* what is still to come of its open value */
static u32 rest_length;

static void broken(const char *what, u32 turn)
{
    fprintf(stderr, "generatecalls: the model is at odds with itself: %s (turn %u)\n", what, turn);
    exit(1);
}

/* Bytes that aren't zero, so that an untouched one is seen. */
static void junk(u8 *to, u32 n)
{
    while (n-- > 0)
        *to++ = (u8)between(1, 255);
}

static void lend(enum part_name part, u32 length)
{
    call.lent[part].length = length;
    junk(call.lent[part].bytes, length);
}

static void lend_bytes(enum part_name part, const u8 *bytes, u32 length)
{
    call.lent[part].length = length;
    memcpy(call.lent[part].bytes, bytes, length);
}

/* ---------------------------------------------------------------- cards that a session reaches */

/* How the session's event ends; a refused record is none, and ends as one without a word. */
static enum outcome play_one(struct card *c, u32 e)
{
    static u8 scratch[AREA];
    u8 bytes[ANSWER];
    struct answer a = { bytes, 0 };
    return record_form(record_at(e)) == 0 ? event(c, scratch, record_at(e), &a) : NO_WORD;
}

/* How much such a card is wanted: with files (for shown records); in the midst of a load. */
static u32 weight_of(const struct card *c, flag files)
{
    if (files)
        return c->descriptors > 1 ? 40 : 1;
    if (c->gp == 0x07 && c->internal == 0x5A)
        return c->open_tag != 0 ? 20 : 12;
    return c->gp == 0x87 && c->internal == 0x5A ? 1 : 4;
}

/* A session played to a random place. */
static void reach(u32 turn, flag files)
{
    struct card c;
    u32 e, total = 0, place = 0;
    (void)make_session(turn);
    (void)fresh(&c, session, CHIP);
    for (e = 0; e <= events; e++) {
        u32 weight = weight_of(&c, files);
        enum outcome o = e < events ? play_one(&c, e) : PASSED;
        if (!files && o >= A_TORN)                  /* a rule refuses what comes next */
            weight += 30;
        total += weight;
        if (below(total) < weight)
            place = e;
    }
    (void)fresh(&at, session, CHIP);
    for (e = 0; e < place; e++)
        (void)play_one(&at, e);
    first = place;
}

/* ---------------------------------------------------------------- cards that are built */

static void some_facts(void)
{
    u32 i;
    fill(at.serial, 8);
    fill(at.startup, 7);
    at.counter = below(0xFFFFFFFF);
    if (chance(20))
        at.counter = chance(50) ? 0 : 0xFFFFFFFF;
    for (i = 0; i < SECRETS; i++) {
        at.secrets[i].length = (u8)(chance(20) ? 0 : chance(20) ? SECRET : below(SECRET + 1));
        fill(at.secrets[i].bytes, at.secrets[i].length);
    }
}

/* A sound card in this state: no rows, no table, nothing open. The session is empty, the list is an order. */
static void base_with(u8 gp, u8 internal, u32 files, enum total total)
{
    u32 percent = any_percent();
    const u8 *name;
    u8 n;
    new_session();
    make_order(files, total, percent);
    first = rest_length = 0;
    (void)fresh(&at, session, CHIP);
    some_facts();
    at.gp = gp;
    at.internal = internal;
    at.selected = gp == 0x07 && (internal == 0x5A || chance(70));
    if (gp == 0x00)
        return;
    name = session_name(&n);
    memcpy(at.name, name, n);
    at.name_length = n;
}

static void base(u8 gp, u8 internal)
{
    u32 files = any_files();
    base_with(gp, internal, files, chance(30) ? EXACT_TOTAL : ANY_TOTAL);
}

static void give_table(u32 count)
{
    memcpy(at.table, table, count * DESCRIPTOR);
    at.descriptors = (u8)count;
}

/* The same, as far as its total allows. */
static void give_passing(void)
{
    u32 count = 0;
    while (count < table_count && judge_descriptor(&at, count, descriptor(count)) == PASSED)
        give_table(++count);
    at.rows |= ROW_5;
}

static flag is_ssnn(u32 tag)
{
    return tag >= 0x0100 && tag <= 0x1EFF;
}

static u32 row_of_tag(u32 tag)
{
    static const u16 tags[10] = { 0x9484, 0x2000, 0x2100, 0x2200, 0x3100, 0x3800, 0x4101, 0x4102, 0x4103, 0x4104 };
    u32 row = 0;
    while (row < 10 && tags[row] != tag)
        row++;
    return row + 1;
}

/* The rows of '9484' and of the list's first groupings. */
static void take_items(u32 count)
{
    u32 i;
    at.rows = 1;
    for (i = 0; i < count; i++) {
        at.rows = (u16)(at.rows | 1u << (row_of_tag(items[i].tag) - 1));
        if (is_ssnn(items[i].tag))
            at.last_tag = items[i].tag;
    }
}

static void drop_items(u32 count)
{
    item_count -= count;
    memmove(items, items + count, item_count * sizeof items[0]);
}

/* '3100' open behind this many descriptors and held bytes of the table at hand. */
static void open_table(u32 count, u32 held)
{
    u32 from = count * DESCRIPTOR + held;
    give_table(count);
    at.rows &= (u16)~ROW_5;
    at.open_tag = 0x3100;
    at.open_count = held;
    at.open_missing = rest_length = table_count * DESCRIPTOR - from;
    memcpy(at.held, table + from - held, held);
    memcpy(rest, table + from, rest_length);
}

/* An 'ssnn' of this length open. */
static void open_record(u32 tag, u32 length)
{
    u32 written = chance(30) ? 0 : chance(30) ? length - 1 : below(length);
    give_table(table_count);
    at.rows |= ROW_5;
    at.open_tag = (u16)tag;
    at.open_count = written;
    at.open_missing = rest_length = length - written;
    fill(rest, rest_length);
}

/* An 'ssnn' that rule e passes, and its size; 0 if the table has none. */
static u32 some_record(u32 *size)
{
    u32 i, found = 0, tag = 0;
    for (i = 1; i < table_count; i++) {
        const u8 *d = descriptor(i);
        u32 nn = d[D_EF] == BINARY ? 0 : chance(30) ? 1 : chance(30) ? d[D_NUM] : between(1, d[D_NUM]);
        if (d[D_SFI] == 0 || d[D_EF] == SIMULATED || below(++found) != 0)
            continue;
        tag = (u32)d[D_SFI] << 8 | nn;
        *size = record_size(d);
    }
    return tag;
}

/* '3100' or an 'ssnn' open, or nothing; how many groupings of the list are behind it. */
static u32 open_some(u32 kind, u32 from)
{
    u32 count = below(table_count), held = below(DESCRIPTOR), tag, size;
    if (kind == 1) {
        if (chance(70))
            take_items(find(0x3100));
        open_table(count, chance(25) ? 0 : chance(25) ? 17 : held);
        return find(0x3100) + 1;
    }
    if (kind == 2 && from < item_count && is_ssnn(items[from].tag)) {
        open_record(items[from].tag, items[from].length > 0 ? items[from].length : 1);
        return from + 1;
    }
    if (kind == 2 && (tag = some_record(&size)) != 0) {
        open_record(tag, between(1, size));
        return item_count;
    }
    return from;
}

/* Rows as a load up to this grouping takes them, or any; and the table that goes with them. */
static void some_rows(u32 from)
{
    take_items(from);
    if (chance(35))
        at.rows = (u16)below(ALL_ROWS + 1);
    if (at.internal == 0xCC && chance(40))
        at.rows = (u16)below(2);
    if ((at.rows & ROW_5) != 0)
        give_table(chance(10) ? 0 : chance(15) ? below(table_count + 1) : table_count);
    else if (at.gp == 0x87 && at.internal == 0x5A)
        give_table(below(table_count + 1));
}

/* Events that do something on the card at hand; then what is left of the order; then others. */
static void follow(void)
{
    u32 n = below(4);
    if (at.gp == 0x00)
        add_install(chance(50) ? 0x04 : 0x0C);
    if (at.gp == 0x03)
        add_install(0x08);
    if ((at.gp & 0x80) != 0 && at.internal != 0x5A && chance(70))
        add_kind(UNLOCK);
    if (at.internal == 0xA5 && chance(70))
        add_kind(between(1, 8));
    if (at.internal != 0x5A && !at.selected && chance(80))
        add_select();
    if (at.internal == 0xCC && at.rows == 0 && chance(70))
        add_query(0x9484, 0x01);
    set_cutting();
    if (at.internal == 0x5A || chance(80))
        cut_rest(rest, rest_length);
    if (events == 0)
        n++;
    for (; n > 0; n--)
        add_noise();
}

/* A sound card of each state in turn, and what may come next on it. */
static void build(u32 turn)
{
    static const u8 states[14][2] = {
        { 0x07, 0x5A }, { 0x07, 0xCC }, { 0x00, 0xCC }, { 0x07, 0x5A }, { 0x03, 0xCC }, { 0x87, 0x5A }, { 0x07, 0x5A },
        { 0x07, 0xA5 }, { 0x83, 0xCC }, { 0x07, 0x5A }, { 0x87, 0xCC }, { 0x07, 0xCC }, { 0x87, 0xA5 }, { 0x07, 0x5A }
    };
    const u8 *state = states[turn % 14];
    u32 from;
    base(state[0], state[1]);
    if (chance(15))
        damage_table(below(24));                    /* of what is still to come: table itself stays */
    from = chance(15) ? 0 : below(item_count + 1);
    if (at.gp != 0x00)
        some_rows(from);
    if (at.internal == 0xCC && at.rows <= 1 && chance(80))
        from = 0;
    if (at.gp == 0x07 && at.internal == 0x5A)
        from = open_some(turn % 3, from);
    drop_items(from);
    if (item_count > 0 && chance(30))
        damage_grouping(below(1000));
    if (rest_length > 0 && chance(20))
        flip_bit(rest, rest_length);
    follow();
}

/* ---------------------------------------------------------------- bytes of which sound asks nothing */

static void junk_past(void)
{
    u32 i, held = at.open_tag == 0x3100 ? at.open_count : 0;
    if (chance(70))
        junk(at.name + at.name_length, sizeof at.name - at.name_length);
    for (i = 0; i < SECRETS; i++)
        if (chance(70))
            junk(at.secrets[i].bytes + at.secrets[i].length, SECRET - (u32)at.secrets[i].length);
    if (chance(70))
        junk(at.held + held, DESCRIPTOR - held);
    if (chance(50))
        junk(at.table[0] + at.descriptors * DESCRIPTOR, (TABLE - (u32)at.descriptors) * DESCRIPTOR);
    else if (chance(50))                    /* descriptors that would pass */
        memcpy(at.table[0] + at.descriptors * DESCRIPTOR, table + at.descriptors * DESCRIPTOR,
               (TABLE - (u32)at.descriptors) * DESCRIPTOR);
    if (chance((at.rows & ROW_11) != 0 ? 15 : 50))
        at.last_tag = (u16)below(65536);
}

/* The card's bytes; also what their form leaves free: how yes and none are written, and what stands behind none. */
static void seal(void)
{
    u8 *c = call.card;
    if (chance(65))
        junk_past();
    store_card(c, &at);
    if (at.selected && chance(30))
        c[C_SELECTED] = (u8)between(1, 255);
    if (at.open_tag == 0 && chance(20)) {
        c[C_OPEN] = (u8)(chance(50) ? 0 : between(3, 255));
        junk(c + C_OPEN_TAG, C_HELD - C_OPEN_TAG);
    }
    if (at.open_tag == 0x3100 && chance(30))
        junk(c + C_OPEN_TAG, 2);
}

/* ---------------------------------------------------------------- cards about a bound of sound: whether it is kept */

static const u8 other_gps[] = {
    0x01, 0x02, 0x04, 0x05, 0x06, 0x08, 0x0F, 0x43, 0x47, 0x7F, 0x80, 0x81, 0x82, 0x84, 0x86, 0x88, 0xC3, 0xC7, 0xFF
};
static const u8 other_internals[] = { 0x00, 0x59, 0x5B, 0x85, 0xA4, 0xA6, 0xCB, 0xCD, 0xDA, 0xFF };

static flag edge_bytes(u32 v)
{
    base((u8)(v % 4 < 2 ? 0x07 : 0x87), 0xCC);
    if (v % 2 == 0) {
        at.gp = other_gps[v / 2 % sizeof other_gps];
        at.selected = 0;
    } else {
        at.internal = other_internals[v / 2 % sizeof other_internals];
    }
    seal();
    return 0;
}

static flag edge_state(u32 v)
{
    static const struct { u8 gp, internal; flag selected, sound; } list[] = {
        { 0x00, 0xCC, 0, 1 }, { 0x00, 0xCC, 1, 0 }, { 0x00, 0x5A, 0, 0 }, { 0x00, 0xA5, 0, 0 },
        { 0x03, 0xCC, 0, 1 }, { 0x03, 0xCC, 1, 0 }, { 0x03, 0x5A, 0, 0 }, { 0x03, 0xA5, 0, 0 },
        { 0x83, 0xCC, 0, 1 }, { 0x83, 0xCC, 1, 0 }, { 0x83, 0x5A, 0, 0 }, { 0x83, 0xA5, 0, 0 },
        { 0x07, 0xCC, 0, 1 }, { 0x07, 0xCC, 1, 1 }, { 0x07, 0x5A, 0, 0 }, { 0x07, 0x5A, 1, 1 },
        { 0x07, 0xA5, 0, 1 }, { 0x07, 0xA5, 1, 1 }, { 0x87, 0xCC, 0, 1 }, { 0x87, 0xCC, 1, 0 },
        { 0x87, 0x5A, 0, 1 }, { 0x87, 0x5A, 1, 0 }, { 0x87, 0xA5, 0, 1 }, { 0x87, 0xA5, 1, 0 },
    };
    u32 i = v % (sizeof list / sizeof list[0]);
    base(list[i].gp, list[i].internal);
    at.selected = list[i].selected;
    seal();
    return list[i].sound;
}

/* Numbers that look like n, or like nothing much, where they are cut to fewer bits. */
static u64 wide(u32 v, u64 n)
{
    switch (v % 8) {
    case 0: return 256 + n;
    case 1: return 65536 + n;
    case 2: return (1ull << 31) + n;
    case 3: return (1ull << 32) + n;
    case 4: return 1ull << 63;
    case 5: return (1ull << 63) + n;
    case 6: return (1ull << 40) + n;
    default: return ~0ull;
    }
}

static flag edge_name(u32 v)
{
    static const u8 states[4] = { 0x03, 0x07, 0x83, 0x87 };
    static const u8 lengths[8] = { 0, 1, 4, 5, 16, 17, 255, 15 };
    flag absent = v % 3 == 0;
    u64 n = v / 3 % 16 < 8 ? lengths[v / 3 % 8] : wide(v / 3, absent ? 0 : between(5, 16));
    base(absent ? 0x00 : states[v % 4], 0xCC);
    seal();
    set_number(call.card + C_NAME_LENGTH, 8, n);
    return absent ? n == 0 : n >= 5 && n <= 16;
}

static flag edge_rows(u32 v)
{
    static const u16 sets[4] = { 0x07FF, 0x0FFF, 0xF800, 0xFFFF };
    flag absent = v % 5 == 4;
    u32 i = v / 5 % 20, set = i < 16 ? 1u << i : sets[i - 16];
    base(absent ? 0x00 : v % 5 < 2 ? 0x07 : 0x87, v % 5 == 1 ? 0xA5 : v % 5 == 3 ? 0x5A : 0xCC);
    at.rows = (u16)set;
    seal();
    return !absent && set <= ALL_ROWS;
}

static flag edge_secret(u32 v)
{
    static const u8 lengths[8] = { 64, 65, 0, 1, 63, 66, 128, 255 };
    u64 n = v / 5 % 16 < 8 ? lengths[v / 5 % 8] : wide(v / 5, below(65));
    u32 state = below(3);
    base(state == 0 ? 0x00 : 0x07, state == 2 ? 0x5A : 0xCC);
    seal();
    set_number(call.card + C_SECRETS + v % 5 * C_SECRET_SIZE + SECRET, 8, n);
    return n <= SECRET;
}

/* How many descriptors count; one more than there are is one of zeros. */
static flag edge_count(u32 v)
{
    u32 kind = v % 16, all;
    u64 n;
    base_with(0x07, v / 16 % 2 == 0 ? 0xCC : 0x5A, kind < 4 ? 30 : between(1, 30), ANY_TOTAL);
    at.rows = ROW_5;
    all = table_count;
    give_table(all);
    seal();
    if (all < TABLE)
        memset(call.card + C_TABLE + all * DESCRIPTOR, 0, DESCRIPTOR);
    n = kind == 0 ? 31 : kind == 1 ? 32 : kind == 2 ? 33 : kind == 3 ? 30 : kind == 4 ? all + 1
      : kind == 5 ? 0 : kind == 6 ? 1 : kind == 7 ? all : wide(kind, all);
    set_number(call.card + C_DESCRIPTORS, 8, n);
    return n <= all;
}

/* Descriptors where they may stand and where not. */
static flag edge_table_place(u32 v)
{
    static const u8 states[8][2] = {
        { 0x03, 0xCC }, { 0x83, 0xCC }, { 0x07, 0xCC }, { 0x87, 0xCC }, { 0x07, 0x5A }, { 0x87, 0x5A }, { 0x07, 0xA5 },
        { 0x87, 0xA5 }
    };
    u32 i = v % 9, size, tag;
    flag row = v / 9 % 2 == 0;
    base(i == 8 ? 0x00 : states[i][0], i == 8 ? 0xCC : states[i][1]);
    at.rows = (u16)(i == 8 ? 0 : row ? below(ALL_ROWS + 1) | ROW_5 : below(ALL_ROWS + 1) & ~(u32)ROW_5);
    give_table(chance(30) ? 1 : table_count);
    if (i == 4 && !row && chance(50) && (tag = some_record(&size)) != 0) {
        open_record(tag, size);             /* an open 'ssnn' is no reason for descriptors */
        at.rows &= (u16)~ROW_5;
    }
    seal();
    return i != 8 && (row || i == 5);
}

/* A table that breaks one rule (mostly: the model tells), or whose total is exact or one over. */
static flag edge_descriptor(u32 v)
{
    static const u8 states[4][2] = { { 0x07, 0xCC }, { 0x07, 0x5A }, { 0x87, 0x5A }, { 0x07, 0xA5 } };
    const u8 *state = states[v % 4];
    u32 kind = v / 2 % 32, files = between(2, chance(30) ? 30 : 8), i;
    enum total total = kind == 24 || kind == 25 ? EXACT_TOTAL : kind == 26 || kind == 27 ? OVER_TOTAL : ANY_TOTAL;
    flag good = 1;
    base_with(state[0], state[1], files, total);
    if (kind < 24)
        damage_table(kind);
    else if (kind > 27)
        damage_reference(v);
    at.rows = ROW_5;
    at.descriptors = (u8)table_count;
    memcpy(at.table, value_of(&items[find(0x3100)]), table_count * DESCRIPTOR);
    for (i = 0; i < table_count; i++)
        good = good && judge_descriptor(&at, i, at.table[i]) == PASSED;
    if ((total == EXACT_TOTAL && !good) || (total == OVER_TOTAL && good))
        broken("a size total", v);
    seal();
    return good;
}

/* An open value where it may be and where not. */
static flag edge_open_place(u32 v)
{
    static const u8 states[7][2] = {
        { 0x07, 0x5A }, { 0x07, 0xCC }, { 0x07, 0xA5 }, { 0x87, 0x5A }, { 0x87, 0xCC }, { 0x03, 0xCC }, { 0x00, 0xCC }
    };
    const u8 *state = states[v % 7];
    u32 size, tag;
    do
        base(state[0], state[1]);
    while ((tag = some_record(&size)) == 0);
    if (v % 7 == 6 || v / 7 % 2 == 0)
        open_table(0, below(DESCRIPTOR));
    else
        open_record(tag, size);
    seal();
    return v % 7 == 0;
}

static void set_open(u64 count, u64 still)
{
    set_number(call.card + C_OPEN_COUNT, 8, count);
    set_number(call.card + C_OPEN_MISSING, 8, still);
}

static flag edge_open_table(u32 v)
{
    u32 files = between(1, chance(20) ? 30 : 8), kind = v % 18, count, held, before;
    u64 still;
    base_with(0x07, 0x5A, files, ANY_TOTAL);
    count = below(table_count - (kind == 5));
    held = kind == 4 ? 17 : below(DESCRIPTOR);
    open_table(count, held);
    if (kind == 4)
        rest_length = 1;
    if (kind == 8)
        at.rows |= ROW_5;
    if (kind == 15)
        give_table(count = TABLE - 1 < table_count ? TABLE - 1 : count);
    seal();
    before = count * DESCRIPTOR + held;
    still = at.open_missing;
    switch (kind) {
    case 0: set_open(held, LONGEST_TABLE - before); return 1;
    case 1: set_open(held, LONGEST_TABLE + DESCRIPTOR - before); return 0;
    case 2: set_open(held, still + 1); return 0;
    case 3: set_open(held, still - 1); return 0;
    case 4: set_open(17, 1); return 1;
    case 5: set_open(18, 18); return 0;
    case 6: set_open(0, 0); return 0;
    case 7: set_open(18, 0); return 0;
    case 8: return 0;
    case 9: set_open(held, 0ull - before); return 0;
    case 10: set_open(held, 18ull - before); return before <= 17;
    case 11: set_open(held, (1ull << 32) + still); return 0;
    case 12: set_open((1ull << 32) + held, still); return 0;
    case 13: set_open(256 + held, still); return 0;
    case 14: set_open(held, ~0ull); return 0;
    case 15: set_open(0, 18); return 1;
    case 16: set_open(0ull - 18, still + held + 18); return 0;
    default: set_open(1ull << 63, (1ull << 63) + DESCRIPTOR); return 0;
    }
}

static flag edge_open_record(u32 v)
{
    u32 size, tag, part;
    do
        base(0x07, 0x5A);
    while ((tag = some_record(&size)) == 0);
    open_record(tag, size);
    at.rows = (u16)(below(ALL_ROWS + 1) | ROW_5);
    seal();
    part = at.open_count;
    switch (v % 14) {
    case 0: set_open(part, size - part); return 1;
    case 1: set_open(part, size - part + 1); return 0;
    case 2: set_open(size, 1); return 0;
    case 3: set_open(size - 1, 1); return 1;
    case 4: set_open(0, size); return 1;
    case 5: set_open(0, size + 1ull); return 0;
    case 6: set_open(part, 0); return 0;
    case 7: set_open(~0ull, 2); return 0;
    case 8: set_open(~0ull, 1); return 0;
    case 9: set_open((1ull << 32) + part, 1); return 0;
    case 10: set_open(part, (1ull << 32) + 1); return 0;
    case 11: set_open(1ull << 63, 1ull << 63); return 0;
    case 12: set_open(part, 1ull << 63); return 0;
    default: set_open(0, 1); return 1;
    }
}

static u32 unlisted_sfi(void)
{
    u32 sfi = 0x1E;
    while (listed(sfi) && sfi > 0)
        sfi--;
    return sfi > 0 ? sfi : 0x1F;
}

/* A tag that rule e passes, then ones that it doesn't. */
static flag edge_open_tag(u32 v)
{
    static const u16 tags[8] = { 0x0000, 0x0001, 0x00FF, 0x3100, 0x1F01, 0xFFFF, 0x9484, 0x2000 };
    u32 size, tag, i, kind = v % 13;
    const u8 *d;
    do
        base_with(0x07, 0x5A, between(3, 8), ANY_TOTAL);
    while ((tag = some_record(&size)) == 0);
    d = listed(tag >> 8);
    open_record(tag, 1);
    for (i = table_count - 1; i > 0 && (descriptor(i)[D_EF] != SIMULATED || descriptor(i)[D_SFI] == 0); i--)
        continue;
    seal();
    if (kind == 0)
        return 1;
    if (kind == 1)
        tag = (tag & 0xFF00) | (d[D_EF] == BINARY ? 1u : (d[D_NUM] + 1u) & 0xFF);
    else if (kind == 2)
        tag = (tag & 0xFF00) | (d[D_EF] == BINARY ? 0xFF : 0);
    else if (kind == 3)
        tag = unlisted_sfi() << 8 | (v / 13 % 2);
    else if (kind == 4)
        tag = i == 0 ? 0x1F01 : (u32)descriptor(i)[D_SFI] << 8 | (v / 13 % 2);
    else
        tag = tags[kind - 5];
    set_number(call.card + C_OPEN_TAG, 2, tag);
    return 0;
}

/* A card about each bound in turn, and events that fit it if it is sound. */
static void edge(u32 turn)
{
    static flag (*const edges[])(u32) = {
        edge_bytes, edge_state, edge_name, edge_rows, edge_secret, edge_count, edge_table_place, edge_descriptor,
        edge_open_place, edge_open_table, edge_open_record, edge_open_tag
    };
    enum { EDGES = sizeof edges / sizeof edges[0] };
    struct card c;
    flag good = edges[turn % EDGES](turn / EDGES);
    load_card(&c, call.card);
    if (sound(&c) != good)
        broken("sound at an edge", turn);
    drop_items(at.open_tag == 0x3100 ? find(0x3100) + 1 : below(item_count + 1));
    follow();
}

/* ---------------------------------------------------------------- one event, a session, a shown record */

/* A card of each sort, and the events that come next on it. */
static void some_card(flag files)
{
    static u32 reached, built, edges;
    u32 sort = below(100);
    struct card c;
    u8 given[CARD], again[CARD];
    if (sort < 45)
        reach(reached++, files);
    else if (sort < 85)
        build(built++);
    if (files && sort < 85 && at.descriptors == 0 && at.gp != 0x00 && at.open_tag == 0 && chance(90))
        give_passing();
    if (sort < 85)
        seal();
    else
        edge(edges++);
    load_card(&c, call.card);
    if (sort < 85 && !sound(&c))
        broken("a card that should be sound", sort);
    if (!sound(&c))
        return;
    store_card(again, &c);
    memcpy(given, call.card, CARD);
    normalise_card(given);
    if (memcmp(again, given, CARD) != 0)
        broken("a card's stored form", sort);
}

static void lend_area(u32 turn)
{
    static const u16 odd[7] = { 4095, 4097, 0, 1, 63, 64, 65 };
    lend(P_AREA, turn % 19 == 7 ? odd[turn / 19 % 7] : AREA);
}

static void lend_answer(u32 turn)
{
    static const u8 shorter[3] = { 63, 0, 1 }, longer[4] = { 65, 66, 128, 255 };
    lend(P_ANSWER, turn % 23 == 11 ? shorter[turn / 23 % 3] : turn % 23 < 3 ? longer[turn / 23 % 4] : ANSWER);
}

static void play_call(u32 turn)
{
    static const u16 odd[5] = { 259, 261, 0, 1, 520 };
    u32 pick = below(100), e;
    some_card(0);
    if (turn % 17 == 3)
        add_refused();
    else if (first == events || pick < 12)
        add_kind(turn % 8 + 1);
    else if (pick < 20)
        add_noise();
    e = first == events || pick < 20 || turn % 17 == 3 ? events - 1
      : pick < 30 ? between(first, events - 1) : first;
    lend_area(turn);
    lend_answer(turn);
    lend(P_RECORD, turn % 29 == 5 ? odd[turn / 29 % 5] : RECORD);
    memcpy(call.lent[P_RECORD].bytes, record_at(e),
           call.lent[P_RECORD].length < RECORD ? call.lent[P_RECORD].length : RECORD);
}

/* How many words are lent for this many records. */
static u32 words_for(u32 turn, u32 records)
{
    u32 kind = turn % 11, more = below(WORDS - records + 1);
    if (kind == 3 && records > 0)
        return records - 1;
    if (kind == 5 && records > 0)
        return below(records);
    return kind < 3 ? records : kind < 6 ? records + 1 : records + more;
}

static void run_call(u32 turn)
{
    u32 records = chance(5) ? 0 : chance(60) ? between(1, 6) : chance(80) ? between(7, 20) : between(21, 47);
    u32 length = records * RECORD, part = between(1, RECORD - 1), kind = turn / 13 % 4;
    some_card(0);
    while (events < first + records && events < MAX_EVENTS)
        if (chance(10))
            add_refused();
        else
            add_noise();
    if (turn % 13 == 4)
        length = kind == 0 || records == 0 ? length + 1 : kind == 1 ? length - 1 : length - RECORD + part;
    if (turn % 97 == 50)
        length = 48 * RECORD;                       /* the longest that can be lent */
    lend_area(turn);
    lend(P_SESSION, length);
    memcpy(call.lent[P_SESSION].bytes, record_at(first), length < records * RECORD ? length : records * RECORD);
    lend(P_WORDS, 2 * words_for(turn, length / RECORD));
}

/* A file's SFI and record: the first, the last, one past it, none; and files that aren't there. */
static void shown_call(u32 turn)
{
    static const u8 sfis[6] = { 0x00, 0x1F, 0x20, 0x80, 0xFF, 0x1E };
    u32 kind = turn % 12, i = 0, nn = below(256), tries;
    const u8 *d;
    some_card(1);
    lend_area(turn);
    for (tries = below(3) + 1; tries > 0 && (at.table[i][D_SFI] == 0 || at.table[i][D_EF] == SIMULATED); tries--)
        i = at.descriptors > 1 ? between(1, at.descriptors - 1u) : below(TABLE);
    if (turn % 32 == 9 && at.descriptors < TABLE)
        i = at.descriptors;                         /* past the count */
    d = call.card + C_TABLE + i * DESCRIPTOR;
    call.file[0] = turn % 11 == 6 ? sfis[turn / 11 % 6] : turn % 31 == 30 ? (u8)unlisted_sfi() : d[D_SFI];
    if (d[D_EF] == BINARY && chance(75))
        call.file[1] = 0;
    else
        call.file[1] = (u8)(kind < 3 ? 1 : kind < 6 ? d[D_NUM] : kind < 9 && d[D_NUM] > 0 ? 1 + nn % d[D_NUM]
                          : kind == 9 ? d[D_NUM] + 1u : kind == 10 ? 0 : nn);
}

/* ---------------------------------------------------------------- rows, a fresh card, the writer */

static void count_call(u32 turn)
{
    u32 kind = turn % 4, set = below(65536);
    set_number(call.rows, 2, kind == 0 ? 1u << (turn / 4 % 16) : kind == 1 ? 0xFFFFu >> (turn / 4 % 17)
                           : kind == 2 ? set & ALL_ROWS : set);
}

static void lend_chip(u32 kind)
{
    static const u8 lengths[6] = { 39, 41, 0, 1, 38, 80 };
    u8 chip[CHIP];
    make_chip_record(chip, chance(5));
    if (kind == 1)
        spoil(chip + 37, 3, 1, 255);
    if (kind == 2)
        memset(chip, 0, CHIP);
    lend(P_CHIP, kind == 0 ? lengths[below(6)] : CHIP);
    memcpy(call.lent[P_CHIP].bytes, chip, call.lent[P_CHIP].length < CHIP ? call.lent[P_CHIP].length : CHIP);
    if (kind == 0 && chance(50) && call.lent[P_CHIP].length > CHIP)
        memset(call.lent[P_CHIP].bytes + CHIP, 0, call.lent[P_CHIP].length - CHIP);
}

static void fresh_call(u32 turn)
{
    lend_chip(turn % 6);
}

/* Bytes of the list, or damaged ones, or too many. */
static void lend_order(u32 kind)
{
    static u8 order[MAX_ORDER + 10];
    u32 n, at_byte;
    if (kind == 12 || kind == 13)
        make_long_order(kind == 12 ? ORDER : chance(60) ? ORDER + 1 : between(ORDER + 2, MEMORY));
    n = encode(order);
    at_byte = below(n + 1);
    if (kind == 10)
        n = chance(50) ? at_byte : n - 1;
    else if (kind == 11 && chance(30))
        n = 0;
    else if (kind == 11 && chance(50))
        flip_bit(order, n);
    else if (kind == 11)
        order[n++] = 0;
    lend_bytes(P_ORDER, order, n < MEMORY ? n : MEMORY);
}

/* The room that its records need: one byte short, exact, one more, more; or too little by far. */
static void lend_room(u32 kind)
{
    static u8 room[MEMORY];
    const struct memory *chip = &call.lent[P_CHIP], *order = &call.lent[P_ORDER];
    u32 n = write_order(chip->bytes, chip->length, order->bytes, order->length, room, MEMORY).records * RECORD;
    u32 most = n == 0 ? 1000 : MEMORY - n, more = below(most + 1);
    if (n == 0)
        lend(P_ROOM, chance(50) ? 0 : more);
    else
        lend(P_ROOM, kind == 0 ? n - 1 : kind == 1 ? below(n) : kind < 4 ? n : kind == 4 ? n + 1 : n + more);
}

static void write_call(u32 turn)
{
    static const u16 queries[3] = { 0x9484, 0x8185, 0x84F2 };
    u32 kind = turn % 20, files = any_files(), percent = any_percent();
    make_order(files, kind == 9 ? any_total() : chance(30) ? EXACT_TOTAL : ANY_TOTAL, percent);
    if (kind == 7 || kind == 8)
        damage_grouping(turn / 20 * 2 + kind - 7);
    else if (kind == 9)
        damage_table(turn / 20);
    else if (kind == 14)
        insert(below(item_count + 1), queries[turn / 20 % 3], 0, 0);
    lend_chip(turn % 23 == 5 ? 0 : turn % 23 == 9 ? 1 : 3);
    lend_order(kind);
    lend_room(turn % 9);
}

/* ---------------------------------------------------------------- the reader */

/* Groupings of any tags and lengths: the reader judges none. */
static void any_groupings(void)
{
    static const u16 lengths[10] = { 0, 1, 2, 63, 64, 65, 254, 255, 256, 1000 };
    u32 n = between(1, 12);
    clear_list();
    while (n-- > 0) {
        u32 tag = below(65536), length = lengths[below(10)];
        append(tag, 0, chance(50) ? length : below(40));
    }
    if (chance(10))
        append(below(65536), 0, between(8000, 14000));
}

/* Where a grouping of the list begins (past the last one: the end). */
static u32 begin_of(u32 item)
{
    static u8 scratch[MAX_ORDER];
    u32 all = item_count, n;
    item_count = item;
    n = encode(scratch);
    item_count = all;
    return n;
}

static u64 some_place(u32 turn, u32 length)
{
    u32 item = below(item_count), begin = begin_of(item), next = begin_of(item + 1), inside = below(next - begin);
    switch (turn % 16) {
    case 0: return 0;
    case 1: return begin + inside;
    case 2: return begin_of(item_count - 1);
    case 3: return length;
    case 4: return length + 1 + inside;
    case 5: return length == 0 ? 0 : length - 1;
    case 6: return ~0ull - (turn / 16 % 3);
    case 7: return wide(turn / 16, begin);
    default: return begin;
    }
}

static void pull_call(u32 turn)
{
    static u8 order[MAX_ORDER + 10];
    u32 kind = turn % 7, files = any_files(), percent = any_percent(), n, item;
    if (kind < 4)
        make_order(files, ANY_TOTAL, percent);
    else
        any_groupings();
    item = below(item_count);
    if (turn % 13 == 4)
        items[item].claimed = chance(50) ? 0xFFFF : chance(50) ? 0xFFFE : items[item].claimed + 1;
    n = encode(order);
    set_number(call.place, 8, some_place(turn, n));
    if (turn % 13 == 4)
        set_number(call.place, 8, begin_of(item));
    if (turn % 13 == 8) {                           /* torn in a header or in a value */
        u32 begin = begin_of(item), next = begin_of(item + 1), most = chance(50) ? 5 : next - begin;
        set_number(call.place, 8, begin);
        n = begin + below(most < next - begin ? most : next - begin);
    }
    if (turn % 101 == 100)
        n = 0;
    lend_bytes(P_ORDER, order, n < MEMORY ? n : MEMORY);
}

/* ---------------------------------------------------------------- what came back */

static const char *const names[WHICH_END] = { "", "play", "run", "shown", "count", "fresh", "write", "pull" };

static struct {
    u32 calls[WHICH_END], numbers[WHICH_END][12], endings[3], outcomes[OUTCOME_COUNT];
} seen;

/* How the event of a play that isn't refused ends. */
static void see_event(void)
{
    static u8 scratch[AREA];
    u8 bytes[ANSWER];
    struct answer a = { bytes, 0 };
    struct card c;
    load_card(&c, call.card);
    seen.outcomes[event(&c, scratch, call.lent[P_RECORD].bytes, &a)]++;
}

static void see_call(void)
{
    static struct call made;
    struct result r;
    memcpy(&made, &call, sizeof call);
    make_call(&made, &r);
    seen.calls[call.which]++;
    seen.numbers[call.which][r.number]++;
    seen.endings[r.ending] += call.which == PULL;
    if (call.which == PLAY && r.number == 0)
        see_event();
}

/* Each number that a call can give is wanted. */
static int report_calls(u32 count)
{
    static const u16 wanted[WHICH_END] = {          /* number n is bit n */
        [PLAY] = 0x07F, [RUN] = 0x84B, [SHOW] = 0x143, [FRESH] = 0x081, [WRITE] = 0xE81
    };
    char text[64];
    u32 w, i;
    for (w = PLAY; w < WHICH_END; w++) {
        sprintf(text, "%s: calls", names[w]);
        report(text, seen.calls[w], 0);
    }
    for (w = PLAY; w < WHICH_END; w++)
        for (i = 0; wanted[w] != 0 && i < 12; i++) {
            sprintf(text, "%s: number %u", names[w], i);
            report(text, seen.numbers[w][i], count >= ENOUGH && (wanted[w] >> i & 1) != 0);
        }
    for (i = 0; i < 3; i++) {
        sprintf(text, "pull: ending %u", i);
        report(text, seen.endings[i], count >= ENOUGH);
    }
    for (i = 0; i < OUTCOME_COUNT; i++) {
        snprintf(text, sizeof text, "play: %04X %s", word_of((enum outcome)i), outcome_texts[i]);
        report(text, seen.outcomes[i], 0);
    }
    if (fflush(stdout) != 0)
        return 2;
    if (missing > 0)
        fprintf(stderr, "generatecalls: %u numbers did not come\n", missing);
    return missing > 0 ? 1 : 0;
}

/* ---------------------------------------------------------------- the mode */

/* Call number i: of 60, 24 are of play, 9 of run, 9 of shown, 1 of count, 2 of fresh, 6 of write, 9 of pull. */
static void next_call(u32 i)
{
    static void (*const makers[WHICH_END])(u32) = {
        [PLAY] = play_call, [RUN] = run_call, [SHOW] = shown_call, [COUNT] = count_call,
        [FRESH] = fresh_call, [WRITE] = write_call, [PULL] = pull_call,
    };
    static const u8 turns[20] = {
        PLAY, PULL, RUN, PLAY, SHOW, PLAY, WRITE, PLAY, PULL, RUN,
        PLAY, SHOW, PLAY, WRITE, PLAY, PULL, RUN, SHOW, PLAY, 0
    };
    call.which = turns[i % 20];
    if (call.which == 0)
        call.which = (u8)(i / 20 % 3 == 0 ? COUNT : FRESH);
    makers[call.which](seen.calls[call.which]);
}

int generatecalls(int argc, char **argv)
{
    static u8 bytes[LONGEST_CALL];
    FILE *file;
    u32 i, count;
    flag good = 1;
    if (argc != 5) {
        fprintf(stderr, "usage: second generatecalls SEED COUNT FILE\n");
        return 2;
    }
    seed = strtoull(argv[2], NULL, 10);
    count = (u32)strtoul(argv[3], NULL, 10);
    file = fopen(argv[4], "wb");
    for (i = 0; file != NULL && good && i < count; i++) {
        u32 n;
        next_call(i);
        n = store_call(&call, bytes);
        good = fwrite(bytes, 1, n, file) == n;
        see_call();
    }
    if (file == NULL || fclose(file) != 0 || !good) {
        perror(argv[4]);
        return 2;
    }
    return report_calls(count);
}
