/* generate.c: the seeded generator of sessions and jobs, with its coverage report.
 *   second generate SEED COUNT [DIR]    COUNT sessions DIR/s00000.bin .. and half as many jobs DIR/j00000.bin ..
 *   second big SEED EVENTS              one long session, to standard output
 * The same seed and count give the same bytes on every machine. */
#define _POSIX_C_SOURCE 200809L
#include <stdio.h>
#include <stdlib.h>
#include <string.h>
#include <sys/stat.h>
#include "generate.h"

/* ---------------------------------------------------------------- chance (splitmix64) */

u64 seed;

static u64 draw(void)
{
    u64 z = seed += 0x9E3779B97F4A7C15u;
    z = (z ^ z >> 30) * 0xBF58476D1CE4E5B9u;
    z = (z ^ z >> 27) * 0x94D049BB133111EBu;
    return z ^ z >> 31;
}

/* 0 to n - 1. */
u32 below(u32 n)
{
    return (u32)((draw() >> 32) * n >> 32);
}

u32 between(u32 a, u32 b)
{
    return a + below(b - a + 1);
}

flag chance(u32 percent)
{
    return below(100) < percent;
}

u8 any_byte(void)
{
    return (u8)below(256);
}

void fill(u8 *to, u32 n)
{
    while (n-- > 0)
        *to++ = any_byte();
}

/* C doesn't order the operands of an expression, so no expression here draws twice but through ?:. */
void flip_bit(u8 *bytes, u32 n)
{
    u32 i = below(n), bit = below(8);
    bytes[i] ^= (u8)(1u << bit);
}

/* One of n bytes gets a value from a to b. */
void spoil(u8 *bytes, u32 n, u32 a, u32 b)
{
    u32 i = below(n);
    bytes[i] = (u8)between(a, b);
}

/* ---------------------------------------------------------------- groupings as a list */

enum { MAX_ITEMS = 2400, POOL = 100000 };

struct item items[MAX_ITEMS];
u32 item_count;
static u8 pool[POOL];
static u32 pool_used;

u8 *value_of(const struct item *it)
{
    return pool + it->value;
}

/* Inserts a grouping; its value is random bytes unless given. */
struct item *insert(u32 at, u32 tag, const u8 *value, u32 length)
{
    struct item *it = &items[at];
    if (item_count == MAX_ITEMS || pool_used + length > POOL) {
        fprintf(stderr, "generate: a list is full\n");
        exit(2);
    }
    memmove(it + 1, it, (item_count - at) * sizeof *it);
    item_count++;
    it->tag = (u16)tag;
    it->claimed = it->length = length;
    it->value = pool_used;
    it->wide = chance(20);
    if (value)
        memcpy(pool + pool_used, value, length);
    else
        fill(pool + pool_used, length);
    pool_used += length;
    return it;
}

void append(u32 tag, const u8 *value, u32 length)
{
    insert(item_count, tag, value, length);
}

static void drop(u32 at)
{
    item_count--;
    memmove(&items[at], &items[at + 1], (item_count - at) * sizeof items[0]);
}

u32 find(u16 tag)
{
    u32 i;
    for (i = 0; i < item_count && items[i].tag != tag; i++)
        continue;
    return i;
}

/* A value of another length, kept where it was as far as it goes. */
static void resize(u32 at, u32 length)
{
    struct item *it;
    if (at == item_count)
        return;
    it = insert(at, items[at].tag, 0, length);
    memcpy(value_of(it), value_of(it + 1), it[1].length < length ? it[1].length : length);
    drop(at + 1);
}

static u32 header_of(const struct item *it, u8 *to)
{
    to[0] = (u8)(it->tag >> 8);
    to[1] = (u8)it->tag;
    to[2] = (u8)it->claimed;
    if (!it->wide && it->claimed < 255)
        return 3;
    to[2] = 0xFF;
    to[3] = (u8)(it->claimed >> 8);
    to[4] = (u8)it->claimed;
    return 5;
}

/* The order's bytes. */
u32 encode(u8 *to)
{
    u32 i, n = 0;
    for (i = 0; i < item_count; i++) {
        n += header_of(&items[i], to + n);
        memcpy(to + n, value_of(&items[i]), items[i].length);
        n += items[i].length;
    }
    return n;
}

/* ---------------------------------------------------------------- tables that pass */

u8 table[TABLE * DESCRIPTOR];
u32 table_count, table_total;

u8 *descriptor(u32 i)
{
    return table + i * DESCRIPTOR;
}

static void put_access(u8 *d)
{
    static const u8 modes[4] = { 0x00, 0x01, 0x10, 0x1F };
    u32 i;
    for (i = 0; i < 4; i++) {
        d[D_AC + i] = modes[below(4)];
        d[D_KEY + i] = (u8)(d[D_AC + i] == 0x10 ? between(1, 3) : 0);
    }
}

static void put_df(void)
{
    u8 *d = descriptor(0);
    memset(table, 0, sizeof table);
    fill(d + D_LID, 2);
    d[D_FILE] = 0x02;
    put_access(d);
    d[D_STATUS] = (u8)chance(25);
    table_count = 1;
    table_total = 0;
}

static flag used_before(u32 count, u32 lid, u8 sfi)
{
    u32 i;
    for (i = 0; i < count; i++)
        if ((u32)(descriptor(i)[D_LID] << 8 | descriptor(i)[D_LID + 1]) == lid ||
            (sfi != 0 && descriptor(i)[D_SFI] == sfi))
            return 1;
    return 0;
}

/* LID, SFI (0 now and then), FileType, AC and NKey of a next EF. */
static u8 *put_ef(u8 type)
{
    u8 *d = descriptor(table_count);
    u32 lid;
    u8 sfi;
    memset(d, 0, DESCRIPTOR);
    do {
        lid = chance(70) ? between(0x2000, 0x203F) : below(65536);
        sfi = (u8)(chance(4) ? 0 : between(1, 0x1E));
    } while (used_before(table_count, lid, sfi));
    d[D_LID] = (u8)(lid >> 8);
    d[D_LID + 1] = (u8)lid;
    d[D_SFI] = sfi;
    d[D_FILE] = 0x04;
    d[D_EF] = type;
    put_access(d);
    table_count++;
    return d;
}

static void put_binary(u8 *d, u32 size)
{
    d[D_REC] = (u8)(size >> 8);
    d[D_NUM] = (u8)size;
    table_total += size;
}

/* A simulated counter on an earlier '09' that has a counter; 0 if there is none. */
static flag put_simulated(void)
{
    u32 i, start = below(table_count);
    for (i = 0; i < table_count; i++) {
        const u8 *f = descriptor((start + i) % table_count);
        if (f[D_EF] == COUNTERS && f[D_SFI] != 0 && f[D_REC] >= 3) {
            u8 *d = put_ef(SIMULATED);
            d[D_REC] = (u8)between(1, chance(50) ? 3 : 255);
            d[D_NUM] = (u8)between(1, chance(50) ? 3 : 255);
            d[D_REF] = f[D_SFI];
            d[D_REF + 1] = (u8)(chance(50) ? f[D_REC] / 3 : 1 + below(f[D_REC] / 3u));
            return 1;
        }
    }
    return 0;
}

/* Counters and a simulated counter on them. */
static void put_counters(void)
{
    u8 *d = put_ef(COUNTERS);
    d[D_REC] = (u8)(chance(50) ? 2 + 3 * between(1, 12) : between(3, 40));
    d[D_NUM] = (u8)between(1, 3);
    table_total += (u32)d[D_REC] * d[D_NUM];
    put_simulated();
}

/* A file of at most `most` bytes (at least 1). */
static void put_file(u32 most)
{
    static const u8 types[4] = { BINARY, LINEAR, CYCLIC, COUNTERS };
    u8 type = types[below(4)], *d;
    u32 rec;
    if (chance(20) && put_simulated())
        return;
    d = put_ef(type);
    if (type == BINARY) {
        put_binary(d, between(1, most));
        return;
    }
    rec = between(1, most < 255 ? most : chance(50) ? 40 : 255);
    d[D_REC] = (u8)rec;
    d[D_NUM] = (u8)between(1, most / rec < 255 ? most / rec : 255);
    table_total += (u32)d[D_REC] * d[D_NUM];
}

/* A table of this many EFs (1 to 30). The total is exact or one over by a last binary file. */
static void make_table(u32 files, enum total total, u32 share)
{
    put_df();
    if (files >= 3 && chance(75))
        put_counters();
    while (table_count < files + (total == ANY_TOTAL)) {
        u32 left = AREA - table_total - (files + 1 - table_count);
        put_file(left == 0 ? 1 : between(1, left < share ? left : share));
    }
    if (total != ANY_TOTAL)
        put_binary(put_ef(BINARY), AREA - table_total + (total == OVER_TOTAL));
}

/* Many short records: orders of 8,192 bytes need them. */
static void make_wide_table(void)
{
    static const u8 types[3] = { LINEAR, CYCLIC, COUNTERS };
    u32 rec = between(1, 4);
    put_df();
    while (table_total + rec * 255 <= AREA) {
        u8 *d = put_ef(types[below(3)]);
        d[D_REC] = (u8)rec;
        d[D_NUM] = 255;
        table_total += rec * 255;
        if (d[D_SFI] == 0) {        /* it could not be written */
            table_count--;
            table_total -= rec * 255;
        }
    }
}

/* ---------------------------------------------------------------- orders that pass */

static void append_head(void)
{
    u8 startup[7];
    append(0x2000, 0, 8);
    fill(startup, 7);
    startup[0] = (u8)between(6, 55);
    startup[5] = startup[6] = 0;
    append(0x2100, startup, 7);
    if (chance(50))
        append(0x2200, 0, 3);
    append(0x3100, table, table_count * DESCRIPTOR);
}

static void append_secrets(u32 most)
{
    u32 tag;
    append(0x3800, 0, between(1, most));
    for (tag = 0x4101; tag <= 0x4103; tag++)
        append(tag, 0, between(1, most));
    if (chance(50))
        append(0x4104, 0, between(1, most));
}

const u8 *listed(u32 sfi)
{
    u32 i;
    for (i = 1; i < table_count; i++)
        if (descriptor(i)[D_SFI] == sfi && sfi != 0)
            return descriptor(i);
    return 0;
}

u32 record_size(const u8 *d)
{
    return d[D_EF] == BINARY ? file_size(d) : d[D_REC];
}

static u32 some_length(u32 most)
{
    return chance(40) ? most : chance(10) ? 0 : below(most + 1);
}

/* Records, rising; each one taken with this chance. */
static void append_records(u32 percent)
{
    u32 sfi, nn;
    for (sfi = 1; sfi <= 0x1E; sfi++) {
        const u8 *d = listed(sfi);
        if (!d || d[D_EF] == SIMULATED)
            continue;
        if (d[D_EF] == BINARY && chance(percent))
            append(sfi << 8, 0, some_length(file_size(d)));
        for (nn = 1; d[D_EF] != BINARY && nn <= d[D_NUM]; nn++)
            if (chance(percent))
                append(sfi << 8 | nn, 0, some_length(d[D_REC]));
    }
}

void clear_list(void)
{
    item_count = 0;
    pool_used = 0;
}

/* A complete order over a random table. */
void make_order(u32 files, enum total total, u32 percent)
{
    clear_list();
    make_table(files, total, chance(50) ? 100 : 2000);
    append_head();
    append_secrets(chance(50) ? 64 : 8);
    append_records(percent);
}

/* A complete order of exactly this many bytes. */
void make_long_order(u32 target)
{
    static u8 bytes[MAX_ORDER];
    u32 sfi, nn, first, i, size, most;
    clear_list();
    make_wide_table();
    append_head();
    append_secrets(64);
    first = item_count;
    size = most = encode(bytes);
    for (sfi = 1; sfi <= 0x1E; sfi++)
        for (nn = 1; listed(sfi) && nn <= 255 && most < target; nn++) {
            append(sfi << 8 | nn, 0, 0);
            items[item_count - 1].wide = 0;
            size += 3;
            most += 5 + listed(sfi)[D_REC];
        }
    for (i = first; i < item_count && size + 2 <= target; i++, size += 2)
        items[i].wide = 1;
    for (i = first; i < item_count && size < target; i++) {
        u32 rec = listed(items[i].tag >> 8)[D_REC], n = target - size < rec ? target - size : rec;
        flag wide = items[i].wide;
        resize(i, n);
        items[i].wide = wide;
        size += n;
    }
}

/* ---------------------------------------------------------------- damage to an order */

/* One field of one descriptor; each turn aims at one rule of the file table. */
void damage_table(u32 turn)
{
    static const u8 bad_types[6] = { 0x00, 0x03, 0x05, 0x0A, 0x10, 0xFF }, bad_keys[4] = { 0, 4, 4, 255 };
    u32 at = find(0x3100), count = items[at].length / DESCRIPTOR;
    u8 *df = value_of(&items[at]), *ef = df + DESCRIPTOR * (count > 1 ? between(1, count - 1) : 0);
    u8 *either = chance(50) ? df : ef;
    u32 i = below(4);
    switch (turn % 24) {
    case 0: df[D_SFI] = (u8)between(1, 255); break;
    case 1: df[D_FILE] = (u8)(chance(50) ? 0x04 : any_byte()); break;
    case 2: df[D_EF] = (u8)between(1, 9); break;
    case 3: spoil(df + D_REC, 2, 1, 255); break;
    case 4: spoil(df + D_REF, 2, 1, 255); break;
    case 5: df[D_STATUS] = (u8)between(2, chance(60) ? 2 : 255); break;
    case 6: ef[D_SFI] = (u8)between(0x1F, 0x21); break;
    case 7: ef[D_FILE] = (u8)(chance(50) ? 0x02 : any_byte()); break;
    case 8: ef[D_EF] = bad_types[below(6)]; break;
    case 9: ef[D_STATUS] = (u8)between(1, chance(60) ? 1 : 255); break;
    case 10: memcpy(ef + D_LID, df + DESCRIPTOR * below(count), 2); break;
    case 11: ef[D_SFI] = df[DESCRIPTOR * (chance(50) ? 1 : below(count)) + D_SFI]; break;
    case 12: either[D_AC + i] = any_byte(); break;
    case 13: either[D_AC + i] = 0x10; either[D_KEY + i] = bad_keys[below(4)]; break;
    case 14: either[D_AC + i] = 0x1F; either[D_KEY + i] = (u8)between(1, 3); break;
    case 15: ef[D_REC] = 0; ef[D_NUM] = 0; break;
    case 16: spoil(ef + D_REC, 2, 0, 0); break;
    case 17: spoil(ef + D_REF, 2, 1, 30); break;
    case 18: ef[D_EF] = SIMULATED; ef[D_REC] = ef[D_NUM] = 1; ef[D_REF] = (u8)below(31); ef[D_REF + 1] = 1; break;
    case 19: ef[D_EF] = BINARY; ef[D_REC] = (u8)between(16, 255); ef[D_REF] = ef[D_REF + 1] = 0; break;
    case 20: memcpy(df, ef, DESCRIPTOR); break;
    case 21: memcpy(ef, df, DESCRIPTOR); break;
    default: flip_bit(ef, DESCRIPTOR); break;
    }
}

/* The DataRef of a simulated counter, from a table that has one: its number at an edge, or SFI 0 on both sides. */
void damage_reference(u32 turn)
{
    u32 at = find(0x3100), i, j;
    u8 *t = value_of(&items[at]);
    for (i = 0; i < items[at].length && t[i + D_EF] != SIMULATED; i += DESCRIPTOR)
        continue;
    for (j = 0; i < items[at].length && j < i; j += DESCRIPTOR)
        if (t[j + D_SFI] == t[i + D_REF] && t[j + D_EF] == COUNTERS) {
            if (turn % 3 == 0)
                t[j + D_SFI] = t[i + D_REF] = 0;
            else
                t[i + D_REF + 1] = (u8)(turn % 3 == 1 && chance(50) ? 0 : t[j + D_REC] / 3 + 1);
            return;
        }
}

void damage_length(u32 turn)
{
    static const u16 tags[9] = { 0x2000, 0x2100, 0x2200, 0x3800, 0x4101, 0x4102, 0x4103, 0x4104, 0x3100 };
    static const u16 table_lengths[4] = { 576, 0, 17, 559 };
    u16 tag = tags[turn % 9];
    u32 at = find(tag), before = find(tag == 0x2200 ? 0x2100 : 0x4103);
    if (at == item_count && before < item_count && (tag == 0x2200 || tag == 0x4104))
        insert(at = before + 1, tag, 0, 3);
    if (at == item_count)
        return;
    if (tag == 0x3100)
        resize(at, table_lengths[turn / 9 % 4]);
    else if (tag < 0x3000)
        resize(at, chance(50) ? items[at].length + 1 : items[at].length - 1);
    else
        resize(at, chance(50) ? 0 : between(65, 70));
}

void damage_startup(u32 turn)
{
    u8 *v = value_of(&items[find(0x2100)]);
    if (find(0x2100) == item_count || items[find(0x2100)].length != 7)
        return;
    switch (turn % 4) {
    case 0: v[0] = (u8)(chance(50) ? 5 : below(6)); break;
    case 1: v[0] = (u8)(chance(50) ? 56 : between(56, 255)); break;
    case 2: v[5] = (u8)between(1, 255); break;
    default: v[6] = (u8)between(1, 255); break;
    }
}

/* The last EF of the table that can be written. */
static const u8 *last_writable(void)
{
    u32 i = table_count - 1;
    while (i > 0 && (descriptor(i)[D_SFI] == 0 || descriptor(i)[D_EF] == SIMULATED))
        i--;
    return descriptor(i);
}

/* Drops the 'ssnn' from this tag on, so that the tag is due. */
static u32 drop_from(u32 tag)
{
    while (item_count > 0 && items[item_count - 1].tag >= tag && items[item_count - 1].tag <= 0x1EFF)
        item_count--;
    return item_count;
}

/* A record of a simulated counter. */
static void append_simulated(void)
{
    u32 i = table_count - 1;
    while (i > 0 && (descriptor(i)[D_EF] != SIMULATED || descriptor(i)[D_SFI] == 0))
        i--;
    drop_from((u32)descriptor(i)[D_SFI] << 8);
    append((u32)descriptor(i)[D_SFI] << 8 | below(2), 0, 1);
}

/* Last of all an 'ssnn' that rule d, e or f refuses, that stays open, or that passes at an edge. */
void damage_records(u32 turn)
{
    const u8 *d = last_writable();
    u32 first = (u32)d[D_SFI] << 8 | (d[D_EF] != BINARY), at = drop_from(first), most = record_size(d), n = below(4);
    switch (turn % 9) {
    case 0: append(between(1, 0x1E) << 8 | n, 0, n); break;
    case 1: append(first + (d[D_EF] == BINARY ? 1 : d[D_NUM]), 0, n); break;
    case 2: append((first & 0xFF00) + (first & 0xFF ? 0 : 1 + n), 0, n); break;
    case 3: append(first, 0, below(most + 1)); append(first, 0, n); break;
    case 4: append(first, 0, 0); append(items[between(at / 2, at)].tag, 0, n); break;
    case 5: append(first, 0, most + 1 + n); break;
    case 6: append(first, 0, below(most)); items[at].claimed++; break;
    case 7: append(first, 0, most); append(0x1EFF, 0, 1); break;
    default: append_simulated(); break;
    }
}

static u32 strange_tag(u32 turn)
{
    static const u16 tags[16] = { 0x0000, 0x00FF, 0x1F00, 0x1FFF, 0x2001, 0x2101, 0x2300, 0x3000, 0x3101, 0x3801,
                                  0x4100, 0x4105, 0x8484, 0x9485, 0xFFFF, 0x0100 };
    return chance(70) ? tags[turn % 16] : below(65536);
}

static u32 query_tag(void)
{
    static const u16 tags[3] = { 0x9484, 0x8185, 0x84F2 };
    return tags[below(3)];
}

/* One thing wrong with one grouping. */
void damage_grouping(u32 turn)
{
    u32 at = below(item_count), other = below(item_count), few = below(4);
    struct item spare;
    switch (turn % 24) {
    case 0: drop(at); break;
    case 1: insert(at, items[at].tag, value_of(&items[at]), items[at].length); break;
    case 2: spare = items[at]; items[at] = items[other]; items[other] = spare; break;
    case 3: items[at].tag = (u16)strange_tag(turn / 24); break;
    case 4: insert(at, strange_tag(turn / 24 + 8), 0, few); break;
    case 5: insert(at, query_tag(), 0, other % 5 == 0 ? few : 0); break;
    case 6: case 7: case 8: case 9: damage_length(turn / 24 * 4 + turn % 24 - 6); break;
    case 10: damage_startup(turn / 24); break;
    case 11: case 12: case 13: case 14: case 15: case 16: damage_records(turn / 24 * 6 + turn % 24 - 11); break;
    case 17: items[at].claimed = 0xFFFF; break;
    case 18: items[at].claimed += chance(50) ? 1 : below(300); break;
    case 19: items[at].tag = items[other].tag; break;
    case 20: insert(at, items[other].tag, value_of(&items[other]), items[other].length); break;
    case 21: item_count = between(1, item_count); break;
    case 22: item_count = find(0x4103); break;
    default: drop(at); if (item_count > 1) drop(below(item_count)); break;
    }
}

/* ---------------------------------------------------------------- sessions */

u8 session[CHIP + MAX_EVENTS * RECORD + RECORD];
u32 events;                     /* of the session */
static u8 name[16], name_length;

/* The instance name that the session's events have. */
const u8 *session_name(u8 *length)
{
    *length = name_length;
    return name;
}

u8 *record_at(u32 i)
{
    return session + CHIP + i * RECORD;
}

static void add_event(u8 kind, u8 p1, const u8 *data, u32 n)
{
    u8 *r = record_at(events);
    if (events == MAX_EVENTS)
        return;
    memset(r, 0, RECORD);
    r[0] = kind;
    r[1] = p1;
    r[2] = (u8)(chance(90) ? 0 : any_byte());
    r[3] = (u8)n;
    if (n > 0)
        memcpy(r + 4, data, n);
    events++;
}

void make_chip_record(u8 *chip, flag low)
{
    fill(chip, 36);
    chip[36] = (u8)(low ? below(6) : chance(20) ? 6 : chance(50) ? between(6, 60) : between(6, 255));
    memset(chip + 37, 0, 3);
}

void new_session(void)
{
    events = 0;
    make_chip_record(session, chance(4));
    name_length = (u8)between(5, 16);
    fill(name, name_length);
}

static u32 add_name(u8 *to, const u8 *n, u32 length)
{
    to[0] = (u8)length;
    memcpy(to + 1, n, length);
    return length + 1;
}

static u32 install_data(u8 *to, u8 p1, const u8 *instance, u32 length)
{
    static const u8 load[6] = { 0x01, 0x00, 0x02, 0xC9, 0x00, 0x00 }, selectable[4] = { 0x01, 0x00, 0x00, 0x00 };
    u8 other[16];
    u32 n = 0;
    fill(other, 16);
    n += add_name(to + n, other, p1 == 0x08 ? 0 : between(5, 16));
    n += add_name(to + n, other, p1 == 0x08 ? 0 : between(5, 16));
    n += add_name(to + n, instance, length);
    memcpy(to + n, p1 == 0x08 ? selectable : load, p1 == 0x08 ? 4 : 6);
    return n + (p1 == 0x08 ? 4 : 6);
}

void add_install(u8 p1)
{
    u8 data[DATA];
    add_event(INSTALL, p1, data, install_data(data, p1, name, name_length));
}

/* An INSTALL that may be wrong in name, form or P1. */
static void add_odd_install(void)
{
    static const u8 p1s[3] = { 0x04, 0x08, 0x0C };
    u8 data[DATA + 5], other[20], p1 = p1s[below(3)];
    u32 n, kind = below(6);
    memcpy(other, name, 16);
    fill(other + 16, 4);
    if (kind == 0)
        other[below(name_length)] ^= 0x01;
    n = install_data(data, p1, other, kind == 1 ? chance(50) ? between(17, 20) : below(5) : name_length);
    if (kind == 2)
        n -= between(1, n < 20 ? n : 20);
    else if (kind == 3)
        data[n++] = any_byte();
    else if (kind == 4)
        flip_bit(data, n);
    add_event(INSTALL, kind == 5 ? any_byte() : p1, data, n);
}

void add_select(void)
{
    add_event(SELECT, (u8)(chance(50) ? 4 : any_byte()), name, name_length);
}

static void add_odd_select(void)
{
    u8 data[DATA];
    u32 n = name_length;
    memcpy(data, name, 16);
    fill(data + 16, DATA - 16);
    switch (below(4)) {
    case 0: data[below(n)] ^= 0x80; break;
    case 1: n--; break;
    case 2: n++; break;
    default: n = below(256); break;
    }
    add_event(SELECT, 0, data, n);
}

void add_query(u32 tag, u8 p1)
{
    u8 data[5] = { (u8)(tag >> 8), (u8)tag, 0x00, 0x00, 0x00 };
    flag wide = chance(20);
    if (wide)
        data[2] = 0xFF;
    add_event(STORE_DATA, p1, data, wide ? 5 : 3);
}

static void add_odd_query(void)
{
    static const u8 p1s[6] = { 0x00, 0x80, 0x81, 0x7E, 0xFF, 0x01 };
    u8 data[8] = { 0 };
    u32 tag = query_tag(), length;
    data[0] = (u8)(tag >> 8);
    data[1] = (u8)tag;
    if (chance(50)) {
        add_query(tag, p1s[below(6)]);
        return;
    }
    data[2] = (u8)below(3);
    length = between(2, 6);
    add_event(STORE_DATA, (u8)(chance(50) ? 0x01 : any_byte()), data, length);
}

static void add_random_store(void)
{
    u8 data[DATA];
    u32 n = chance(50) ? below(12) : below(256);
    fill(data, DATA);
    if (chance(50))
        data[0] = (u8)between(0, 0x42), data[1] = (u8)below(5);
    if (chance(30))
        data[2] = 0xFF;
    if (chance(20))
        data[3] = data[4] = 0xFF;
    add_event(STORE_DATA, chance(70) ? 0x00 : any_byte(), data, n);
}

/* Records that are refused: kind, padding, or both. */
void add_refused(void)
{
    static const u8 kinds[6] = { 0, 9, 10, 99, 100, 255 };
    u8 data[DATA], *r = record_at(events);
    u32 n = below(256);
    fill(data, DATA);
    if (events == MAX_EVENTS)
        return;
    add_event(chance(50) ? kinds[below(6)] : (u8)between(1, 8), data[0], data, n);
    if (chance(30))
        r[259] = data[1];
    if (r[0] >= 1 && r[0] <= 8)
        spoil(r + 4 + n, RECORD - 4 - n, 1, 255);
}

/* Any event at all. */
void add_noise(void)
{
    static const u8 plain[5] = { OTHER, DESELECT, RESET, LOCK, UNLOCK };
    static const u8 p1s[3] = { 0x04, 0x08, 0x0C };
    u8 data[DATA];
    u32 kind = below(5);
    fill(data, DATA);
    switch (below(13)) {
    case 0: case 1: add_select(); break;
    case 2: add_odd_select(); break;
    case 3: add_install(p1s[below(3)]); break;
    case 4: add_odd_install(); break;
    case 5: case 6: add_query(query_tag(), 0x01); break;
    case 7: add_odd_query(); break;
    case 8: add_event(STORE_DATA, any_byte(), 0, 0); break;
    case 9: add_random_store(); break;
    case 10: add_refused(); break;
    default: add_event(plain[kind], data[0], data, chance(70) ? 0 : data[1]); break;
    }
}

/* An event of this kind, right or wrong. */
void add_kind(u32 kind)
{
    static const u8 p1s[3] = { 0x04, 0x08, 0x0C };
    u8 data[DATA];
    fill(data, DATA);
    if (kind == INSTALL && chance(60))
        add_install(p1s[below(3)]);
    else if (kind == INSTALL)
        add_odd_install();
    else if (kind == SELECT && chance(60))
        add_select();
    else if (kind == SELECT)
        add_odd_select();
    else if (kind == STORE_DATA && chance(40))
        add_query(query_tag(), 0x01);
    else if (kind == STORE_DATA && chance(50))
        add_odd_query();
    else if (kind == STORE_DATA && chance(50))
        add_event(STORE_DATA, data[0], 0, 0);
    else if (kind == STORE_DATA)
        add_random_store();
    else
        add_event((u8)kind, data[0], data, chance(70) ? 0 : data[1]);
}

/* Moves the last event to a place before it. */
static void move_last_to(u32 at)
{
    u8 spare[RECORD];
    memcpy(spare, record_at(events - 1), RECORD);
    memmove(record_at(at + 1), record_at(at), (events - 1 - at) * RECORD);
    memcpy(record_at(at), spare, RECORD);
}

static void insert_noise(u32 from)
{
    u32 was = events;
    add_noise();
    if (events > was)
        move_last_to(from >= events ? events - 1 : between(from, events - 1));
}

/* INSTALL, SELECT, '9484'; now and then with other events between. */
static void add_prologue(flag odd)
{
    u32 was;
    if (chance(60)) {
        add_install(0x0C);
    } else {
        add_install(0x04);
        if (odd && chance(20))
            add_event(LOCK, 0, 0, 0), add_event(UNLOCK, 0, 0, 0);
        add_install(0x08);
    }
    add_select();
    while (odd && chance(30))
        add_query(chance(50) ? 0x84F2 : 0x8185, 0x01);
    was = events;
    if (!odd || chance(95))
        add_query(0x9484, (u8)(chance(70) ? 0x01 : 0x01 | (any_byte() & 0x7E)));
    if (odd && chance(5) && events > was)
        add_query(0x9484, 0x01);
}

/* ---------------------------------------------------------------- cutting an order into commands */

static u8 packed[DATA];
static u32 packed_used;
static u32 close_percent;       /* the chance that a command closes after a unit: 0 packs greedily, 100 each alone */
static u32 query_percent;       /* the chance of a query before a command, outside of open values */

static void close_command(void)
{
    if (packed_used > 0)
        add_event(STORE_DATA, (u8)(chance(80) ? 0x00 : any_byte() & 0x7F), packed, packed_used);
    packed_used = 0;
}

static void pack(const u8 *bytes, u32 n)
{
    if (packed_used + n > DATA)
        close_command();
    while (packed_used + n > DATA) {        /* a damaged unit of more than 255 bytes */
        memcpy(packed, bytes, DATA);
        packed_used = DATA;
        close_command();
        bytes += DATA;
        n -= DATA;
    }
    memcpy(packed + packed_used, bytes, n);
    packed_used += n;
    if (chance(close_percent))
        close_command();
}

/* The rest of an open value and the list, unit by unit; the last command asks for the end. */
void cut_rest(const u8 *rest, u32 length)
{
    u8 head[5 + 70000];
    u32 i, j;
    packed_used = 0;
    for (j = 0; j < length; j++)
        pack(rest + j, 1);
    for (i = 0; i < item_count; i++) {
        u32 n = header_of(&items[i], head);
        if (packed_used == 0 && chance(query_percent))
            add_query(chance(50) ? 0x84F2 : 0x8185, 0x01);
        if (!spans(items[i].tag)) {
            memcpy(head + n, value_of(&items[i]), items[i].length);
            pack(head, n + items[i].length);
            continue;
        }
        pack(head, n);
        for (j = 0; j < items[i].length; j++)
            pack(value_of(&items[i]) + j, 1);
    }
    close_command();
    if (events > 0 && record_at(events - 1)[0] == STORE_DATA)
        record_at(events - 1)[1] |= 0x80;
}

static void cut_by_units(void)
{
    cut_rest(0, 0);
}

/* The order's bytes, cut at this place and then where 255 bytes (or fewer, by chance) are full. */
static void cut_blindly(const u8 *order, u32 length, u32 place, u32 most)
{
    u32 at = 0, n;
    while (at < length) {
        n = most == DATA ? DATA : between(1, most);
        if (at < place && at + n > place)
            n = place - at;
        if (n > length - at)
            n = length - at;
        add_event(STORE_DATA, at + n == length ? 0x80 : 0x00, order + at, n);
        at += n;
    }
}

/* ---------------------------------------------------------------- damage to a session */

static void damage_event(u32 from)
{
    u32 at, other;
    u8 *r, spare[RECORD];
    if (from >= events)
        return;
    at = between(from, events - 1);
    other = between(from, events - 1);
    r = record_at(at);
    switch (below(12)) {
    case 0:
        memmove(r, r + RECORD, (events - 1 - at) * RECORD);
        events--;
        break;
    case 1:
        if (events < MAX_EVENTS) {
            memcpy(record_at(events++), r, RECORD);
            move_last_to(at);
        }
        break;
    case 2:
        memcpy(spare, r, RECORD);
        memcpy(r, record_at(other), RECORD);
        memcpy(record_at(other), spare, RECORD);
        break;
    case 3: r[1] = any_byte(); break;
    case 4: r[1] ^= 0x80; break;
    case 5: if (r[3] > 0) flip_bit(r + 4, r[3]); break;
    case 6: if (r[3] > 0) r[4 + --r[3]] = 0; break;
    case 7: if (r[3] < 255) r[3]++; break;
    case 8: r[0] = (u8)(chance(50) ? between(1, 8) : any_byte()); break;
    case 9: flip_bit(r + 4 + r[3], RECORD - 4 - (u32)r[3]); break;
    default: insert_noise(from); break;
    }
}

static void add_epilogue(void)
{
    u32 n = below(10);
    while (n-- > 0)
        add_noise();
}

/* ---------------------------------------------------------------- kinds of session */

enum total any_total(void)
{
    return chance(50) ? ANY_TOTAL : chance(70) ? EXACT_TOTAL : OVER_TOTAL;
}

u32 any_files(void)
{
    return chance(15) ? 30 : chance(50) ? between(1, 5) : between(1, 30);
}

u32 any_percent(void)
{
    return chance(20) ? 0 : chance(30) ? 1 : between(1, 10);
}

static void random_order(u32 files, enum total total)
{
    make_order(files, total, any_percent());
}

void set_cutting(void)
{
    close_percent = chance(50) ? 0 : chance(70) ? below(8) : below(40);
    query_percent = chance(70) ? 0 : below(40);
}

/* A complete load; now and then the session ends inside it. */
static void session_clean(void)
{
    u32 files = any_files(), from;
    random_order(files, chance(50) ? ANY_TOTAL : EXACT_TOTAL);
    add_prologue(0);
    from = events;
    set_cutting();
    cut_by_units();
    if (chance(35))
        events = between(from, events);
    else
        add_epilogue();
}

static void session_grouping(u32 turn)
{
    random_order(between(3, 8), ANY_TOTAL);
    damage_grouping(turn);
    if (chance(10) && item_count > 0)
        damage_grouping(below(100));
    add_prologue(chance(20));
    set_cutting();
    cut_by_units();
    add_epilogue();
}

static void session_table(u32 turn)
{
    u32 files = between(2, chance(30) ? 30 : 8);
    make_order(files, any_total(), 1);
    if (turn % 9 == 8)
        damage_reference(turn / 9);
    else
        damage_table(turn);
    add_prologue(0);
    set_cutting();
    cut_by_units();
    add_epilogue();
}

static void session_events(void)
{
    u32 n = between(1, 3);
    random_order(between(1, 8), ANY_TOTAL);
    add_prologue(1);
    set_cutting();
    cut_by_units();
    while (n-- > 0)
        damage_event(0);
    add_epilogue();
}

/* A short order cut at one byte after another; or each unit a command; or blindly. */
static void session_cut(u32 turn)
{
    static u8 order[MAX_ORDER];
    u32 length;
    make_order(between(1, 3), ANY_TOTAL, 2);
    add_prologue(0);
    close_percent = 100;
    query_percent = 0;
    length = encode(order);
    if (turn % 4 == 0 && length < 1000)
        cut_by_units();
    else if (turn % 4 == 1)
        cut_blindly(order, length, 0, chance(50) ? 20 : 254);
    else
        cut_blindly(order, length, (turn / 2) % (length < 400 ? length : 400), DATA);
    add_epilogue();
}

static void session_noise(void)
{
    u32 n = between(5, 60);
    if (chance(60))
        add_install(chance(50) ? 0x04 : 0x0C);
    while (n-- > 0)
        add_noise();
}

/* 0: nothing open; 1: '3100' open; 2: an 'ssnn' open. */
static u32 open_kind(const struct card *c)
{
    return c->open_tag == 0 ? 0 : c->open_tag == 0x3100 ? 1 : 2;
}

/* A random event of the session before which the card is at '07' in '5A' with this open; `events` if none. */
static u32 place_in_5a(u32 open)
{
    static u8 scratch[AREA];
    u8 bytes[ANSWER];
    struct card c;
    u32 e, found = 0, place = events;
    (void)fresh(&c, session, CHIP);
    for (e = 0; e < events; e++) {
        struct answer a = { bytes, 0 };
        if (c.gp == 0x07 && c.internal == 0x5A && open_kind(&c) == open && below(++found) == 0)
            place = e;
        if (record_form(record_at(e)) == 0)
            (void)event(&c, scratch, record_at(e), &a);
    }
    return place;
}

/* An event of each kind in turn put into a load: with nothing, '3100' or an 'ssnn' open. */
static void session_between(u32 turn)
{
    u32 tries = 0, place;
    do {
        events = 0;
        make_order(between(2, 6), ANY_TOTAL, 10);
        add_prologue(0);
        close_percent = between(2, 20);
        query_percent = 5;
        cut_by_units();
        place = place_in_5a(turn / 10 % 3);
    } while (place == events && ++tries < 20);
    if (turn % 10 == 9)
        add_event(STORE_DATA, chance(50) ? 0x00 : 0x80, 0, 0);
    else if (turn % 10 == 8)
        add_refused();
    else
        add_kind(turn % 10 + 1);
    move_last_to(place);
    add_epilogue();
}

static void session_long(void)
{
    make_long_order(chance(50) ? 8192 : between(7000, 8300));
    if (chance(30))
        damage_grouping(below(100));
    add_prologue(0);
    close_percent = chance(70) ? 0 : 1;
    query_percent = 0;
    cut_by_units();
    add_epilogue();
}

static void session_mixed(void)
{
    u32 n, files = any_files();
    random_order(files, any_total());
    if (chance(20))
        damage_table(below(24));
    if (chance(20))
        damage_grouping(below(100));
    add_prologue(1);
    set_cutting();
    cut_by_units();
    for (n = below(4); n > 0; n--)
        damage_event(0);
    add_epilogue();
}

/* Makes session number i; its length. Some end torn, some have a refused chip record. */
u32 make_session(u32 i)
{
    new_session();
    switch (i % 12) {
    case 0: session_clean(); break;
    case 1: case 2: case 3: case 4: session_grouping(i / 12 * 4 + i % 4); break;
    case 5: case 6: session_table(i / 12 * 2 + i % 2); break;
    case 7: session_events(); break;
    case 8: session_cut(i / 12); break;
    case 9: session_noise(); break;
    case 10: session_between(i / 12); break;
    default: if (i % 48 == 11) session_long(); else session_mixed(); break;
    }
    if (i % 50 == 17)
        spoil(session + 37, 3, 1, 255);
    if (i % 100 == 27)
        return chance(50) ? CHIP - 1 : below(CHIP);
    if (i % 20 == 15) {
        fill(record_at(events), RECORD);
        return CHIP + events * RECORD + between(chance(30) ? RECORD - 1 : 1, RECORD - 1);
    }
    return CHIP + events * RECORD;
}

/* ---------------------------------------------------------------- jobs */

static u8 job[CHIP + MAX_ORDER + 10];

static u32 damage_bytes(u32 length)
{
    u8 *order = job + CHIP;
    switch (below(5)) {
    case 0: return below(length + 1);
    case 1: return length - 1;
    case 2: order[length] = any_byte(); return length + 1;
    case 3: memset(order + length, 0, 3); return length + 3;
    default: flip_bit(order, length); return length;
    }
}

static u32 special_job(u32 turn)
{
    u32 length;
    switch (turn % 7) {
    case 0: make_long_order(8192); break;
    case 1: make_long_order(8193); break;
    case 2: make_long_order(between(8194, 9000)); break;
    case 3: return CHIP;                                    /* an empty order */
    case 4: return chance(50) ? CHIP - 1 : below(CHIP);     /* no whole chip record */
    case 5: make_order(3, ANY_TOTAL, 5); job[37 + below(3)] = 1; break;
    default: make_order(3, ANY_TOTAL, 5); job[36] = (u8)below(6); break;
    }
    length = encode(job + CHIP);
    return CHIP + length;
}

/* Makes job number i; its length. */
static u32 make_job(u32 i)
{
    u32 length, files = any_files();
    make_chip_record(job, 0);
    if (i % 6 == 5)
        return special_job(i / 6);
    random_order(files, i % 6 == 2 ? any_total() : ANY_TOTAL);
    if (i % 6 == 1)
        damage_grouping(i / 6);
    if (i % 6 == 2)
        damage_table(i / 6);
    length = encode(job + CHIP);
    return CHIP + (i % 6 == 3 ? damage_bytes(length) : length);
}

/* ---------------------------------------------------------------- coverage */

const char *const outcome_texts[OUTCOME_COUNT] = {
#define OUTCOME_TEXT(name, word, text) text,
    OUTCOMES(OUTCOME_TEXT)
#undef OUTCOME_TEXT
};

static const u8 end_states[9][2] = {
    { 0x00, 0xCC }, { 0x03, 0xCC }, { 0x07, 0xCC }, { 0x83, 0xCC }, { 0x87, 0xCC },
    { 0x07, 0x5A }, { 0x87, 0x5A }, { 0x07, 0xA5 }, { 0x87, 0xA5 },
};

static struct {
    u32 sessions, events, jobs;
    u32 outcomes[OUTCOME_COUNT], order_outcomes[OUTCOME_COUNT], numbers[12], ends[9], kinds[9];
    u32 types[10], full_tables, exact_totals, spanned, counters_set, fourth_keys, refused_chips, torn_ends;
    u32 jobs_exact, jobs_cut;
    u32 in_5a[9][3];            /* events at '07' in '5A', by kind (0: refused) and by what is open */
} seen;

u32 missing;

void report(const char *what, u32 count, flag wanted)
{
    printf("  %-46s %9u%s\n", what, count, wanted && count == 0 ? "   MISSING" : "");
    missing += wanted && count == 0;
}

static void report_words(void)
{
    static const u16 words[11] = { 0x0000, 0x6283, 0x6700, 0x6985, 0x6A80, 0x6A82,
                                   0x6A84, 0x6A86, 0x6A88, 0x6D00, 0x9000 };
    char text[16];
    u32 i, o;
    printf("words of events that were not refused\n");
    for (i = 0; i < 11; i++) {
        u32 count = 0;
        for (o = 0; o < OUTCOME_COUNT; o++)
            if (word_of((enum outcome)o) == words[i])
                count += seen.outcomes[o];
        sprintf(text, "%04X", words[i]);
        report(text, count, 1);
    }
}

static void report_numbers(void)
{
    static const char *const texts[12] = {
        "0", "1 (not by these modes)", "2 (not by these modes)", "3 (run() of a torn session)", "4", "5",
        "6 (not by these modes)", "7", "8 (not by these modes)", "9", "10", "11 (write_order() in short room)"
    };
    u32 i;
    printf("numbers\n");
    for (i = 0; i < 12; i++)
        report(texts[i], seen.numbers[i], i != 1 && i != 2 && i != 6 && i != 8);
}

static void report_5a(void)
{
    static const char *const opens[3] = { "nothing open", "3100 open", "ssnn open" };
    char text[64];
    u32 kind, open;
    printf("events at 07 in 5A\n");
    for (kind = 0; kind < 9; kind++)
        for (open = 0; open < 3; open++) {
            sprintf(text, "%s %u, %s", kind == 0 ? "refused record, number 4 or" : "kind", kind == 0 ? 5 : kind,
                    opens[open]);
            report(text, seen.in_5a[kind][open], 1);
        }
}

static void report_depth(void)
{
    printf("depth\n");
    report("records of every kind: fewest of one kind", seen.kinds[0], 1);
    report("sessions with a refused chip record", seen.refused_chips, 1);
    report("sessions with a torn end", seen.torn_ends, 1);
    report("A5 with 31 descriptors", seen.full_tables, 1);
    report("A5 with a size total of 4,096", seen.exact_totals, 1);
    report("A5 with a binary file", seen.types[BINARY], 1);
    report("A5 with a linear file", seen.types[LINEAR], 1);
    report("A5 with a cyclic file", seen.types[CYCLIC], 1);
    report("A5 with a simulated counter", seen.types[SIMULATED], 1);
    report("A5 with counters", seen.types[COUNTERS], 1);
    report("A5 with 2200", seen.counters_set, 1);
    report("A5 with 4104", seen.fourth_keys, 1);
    report("commands that left a value open", seen.spanned, 1);
    report("jobs cut", seen.jobs_cut, 1);
    report("jobs cut of exactly 8,192 bytes", seen.jobs_exact, 1);
}

static int report_all(void)
{
    char text[32];
    u32 i;
    printf("sessions %u, events %u, jobs %u\n", seen.sessions, seen.events, seen.jobs);
    report_words();
    report_numbers();
    printf("end states of sessions, GP/internal\n");
    for (i = 0; i < 9; i++) {
        sprintf(text, "%02X/%02X", end_states[i][0], end_states[i][1]);
        report(text, seen.ends[i], 1);
    }
    printf("how events ended, by rule\n");
    for (i = 0; i < OUTCOME_COUNT; i++)
        report(outcome_texts[i], seen.outcomes[i], 1);
    report_5a();
    report_depth();
    printf("how orders of jobs were judged, by rule (none wanted)\n");
    for (i = 0; i < OUTCOME_COUNT; i++)
        if (seen.order_outcomes[i] > 0)
            report(outcome_texts[i], seen.order_outcomes[i], 0);
    if (missing > 0) {
        fflush(stdout);
        fprintf(stderr, "generate: %u reachable points did not come; ask for more sessions\n", missing);
        return 1;
    }
    printf("every reachable point came\n");
    return 0;
}

static void broken(const char *what, u32 i)
{
    fprintf(stderr, "generate: the model is at odds with itself: %s (session or job %u)\n", what, i);
    exit(1);
}

static void see_personalized(const struct card *c)
{
    u32 i, total = 0;
    flag types[10] = { 0 };
    for (i = 1; i < c->descriptors; i++) {
        types[c->table[i][D_EF]] = 1;
        total += file_size(c->table[i]);
    }
    for (i = 0; i < 10; i++)
        seen.types[i] += types[i];
    seen.full_tables += c->descriptors == TABLE;
    seen.exact_totals += total == AREA;
    seen.counters_set += (c->rows & 0x008) != 0;
    seen.fourth_keys += (c->rows & 0x200) != 0;
}

static void see_end(const struct card *c)
{
    u32 i;
    for (i = 0; i < 9; i++)
        seen.ends[i] += c->gp == end_states[i][0] && c->internal == end_states[i][1];
    if (c->internal == 0xA5)
        see_personalized(c);
}

static u8 area[AREA], area_again[AREA];
static u16 words[MAX_EVENTS], words_again[MAX_EVENTS];

/* Plays each event by itself; counts, and asks sound() after each. */
static void see_events(struct card *c, u32 i)
{
    u8 bytes[ANSWER];
    u32 e;
    for (e = 0; e < events; e++) {
        const u8 *r = record_at(e);
        struct answer a = { bytes, 0 };
        u32 number = record_form(r);
        seen.numbers[number]++;
        seen.events++;
        seen.in_5a[number == 0 ? r[0] : 0][open_kind(c)] += c->gp == 0x07 && c->internal == 0x5A;
        words[e] = 0;
        if (number == 0) {
            enum outcome o = event(c, area, r, &a);
            seen.outcomes[o]++;
            seen.kinds[r[0]]++;
            words[e] = word_of(o);
            if (o != PASSED && o != INVALIDATED && o != LOCKED_NAME && a.length != 0)
                broken("answer bytes with an error", i);
        }
        seen.spanned += c->open_tag != 0;
        if (!sound(c))
            broken("a state that is not sound", i);
    }
    see_end(c);
}

static void see_session(u32 i, u32 length)
{
    struct card c, again;
    struct ran done;
    u32 number = fresh(&c, session, length < CHIP ? length : CHIP);
    seen.sessions++;
    if (number != 0) {
        seen.numbers[number]++;
        seen.refused_chips++;
        return;
    }
    memset(area, 0, AREA);
    memset(area_again, 0, AREA);
    memcpy(&again, &c, sizeof c);
    if (length != CHIP + events * RECORD) {
        seen.torn_ends++;
        seen.numbers[run(&again, area_again, AREA, session + CHIP, length - CHIP, words_again, MAX_EVENTS).number]++;
    }
    see_events(&c, i);
    done = run(&again, area_again, AREA, session + CHIP, events * RECORD, words_again, MAX_EVENTS);
    if (done.number != 0 || done.records != events || memcmp(words, words_again, events * sizeof words[0]) != 0 ||
        memcmp(&c, &again, sizeof c) != 0 || memcmp(area, area_again, AREA) != 0)
        broken("run() and event()", i);
}

/* What the writer cut must load, byte for byte, and end in 'A5'. */
static void see_cut(u32 i, const u8 *records, u32 count)
{
    struct card c;
    u32 r, at = 0;
    u8 data[DATA];
    (void)fresh(&c, job, CHIP);
    events = 0;
    memcpy(name, "1TIC.ICA", 8);
    name_length = 8;
    add_install(0x0C);
    add_event(SELECT, 4, name, 8);
    if (run(&c, area, AREA, record_at(0), 2 * RECORD, words, 2).number != 0)
        broken("INSTALL and SELECT", i);
    if (run(&c, area, AREA, records, count * RECORD, words, MAX_EVENTS).number != 0 || c.internal != 0xA5)
        broken("a complete order that doesn't load", i);
    for (r = 1; r < count; r++) {
        memcpy(data, records + r * RECORD + 4, DATA);
        if (memcmp(data, job + CHIP + at, records[r * RECORD + 3]) != 0)
            broken("cut bytes that aren't the order's", i);
        at += records[r * RECORD + 3];
    }
}

static void see_job(u32 i, u32 length)
{
    static u8 room[64 * RECORD];
    u32 chip_length = length < CHIP ? length : CHIP;
    struct ran done = write_order(job, chip_length, job + CHIP, length - chip_length, room, sizeof room);
    seen.jobs++;
    seen.numbers[done.number]++;
    if (done.number == 0 || done.number == 10)
        seen.order_outcomes[judge_order(job, job + CHIP, length - CHIP)]++;
    if (done.number != 0)
        return;
    seen.jobs_cut++;
    seen.jobs_exact += length == CHIP + ORDER;
    see_cut(i, room, done.records);
    done = write_order(job, CHIP, job + CHIP, length - CHIP, room, done.records * RECORD - 1);
    seen.numbers[done.number]++;
}

/* ---------------------------------------------------------------- the modes */

static void save(const char *directory, char letter, u32 i, const u8 *bytes, u32 length)
{
    char path[4200];
    FILE *f;
    if (directory == NULL)
        return;
    snprintf(path, sizeof path, "%s/%c%05u.bin", directory, letter, i);
    f = fopen(path, "wb");
    if (f == NULL || fwrite(bytes, 1, length, f) != length || fclose(f) != 0) {
        perror(path);
        exit(1);
    }
}

int generate(int argc, char **argv)
{
    const char *directory = argc > 4 ? argv[4] : NULL;
    u32 i, count, length;
    if (argc < 4) {
        fprintf(stderr, "usage: second generate SEED COUNT [DIR]\n");
        return 2;
    }
    seed = strtoull(argv[2], NULL, 10);
    count = (u32)strtoul(argv[3], NULL, 10);
    if (directory != NULL)
        (void)mkdir(directory, 0777);
    for (i = 0; i < count; i++) {
        length = make_session(i);
        save(directory, 's', i, session, length);
        see_session(i, length);
    }
    for (i = 0; i < (count + 1) / 2; i++) {
        length = make_job(i);
        save(directory, 'j', i, job, length);
        see_job(i, length);
    }
    for (seen.kinds[0] = seen.kinds[1], i = 2; i <= 8; i++)
        if (seen.kinds[i] < seen.kinds[0])
            seen.kinds[0] = seen.kinds[i];
    return report_all();
}

static void emit(u64 *left)
{
    u32 n = *left < events ? (u32)*left : events;
    fwrite(record_at(0), 1, n * RECORD, stdout);
    *left -= n;
    events = 0;
}

/* A load in small commands with queries between, then queries, SELECTs, LOCKs and others in 'A5'. */
int big(int argc, char **argv)
{
    u64 left;
    if (argc < 4) {
        fprintf(stderr, "usage: second big SEED EVENTS\n");
        return 2;
    }
    seed = strtoull(argv[2], NULL, 10);
    left = strtoull(argv[3], NULL, 10);
    new_session();
    session[36] = 20;
    fwrite(session, 1, CHIP, stdout);
    make_order(30, EXACT_TOTAL, 20);
    add_prologue(0);
    close_percent = 50;
    query_percent = 30;
    cut_by_units();
    emit(&left);
    while (left > 0) {
        while (events < MAX_EVENTS)
            add_noise();
        emit(&left);
    }
    return 0;
}
