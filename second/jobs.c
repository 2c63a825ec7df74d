/* jobs.c: seeded job files for `second lot`, right and wrong, as bytes and as text.
 *   second lotjobs SEED COUNT FOLDER           FOLDER/j00000.job or .txt ..: complete jobs, and wrong ones by every rule
 *   second realjobs SEED COUNT FOLDER [text]   FOLDER/j00000.job .. (with text: .txt): complete, real-looking jobs
 * The same seed and count give the same bytes on every machine; with text realjobs gives the same jobs. */
#define _POSIX_C_SOURCE 200809L
#include <stdio.h>
#include <stdlib.h>
#include <string.h>
#include <sys/stat.h>
#include "generate.h"

static void broken(const char *what, u32 i)
{
    fprintf(stderr, "jobs: the model is at odds with itself: %s (job %u)\n", what, i);
    exit(1);
}

/* ---------------------------------------------------------------- the job at hand */

static u8 job[CHIP + MAX_ORDER + 10];
static u32 job_length;

/* The list's bytes behind the chip record, and this tail behind them. */
static void set_order(const u8 *tail, u32 n)
{
    job_length = CHIP + encode(job + CHIP);
    if (n > 0)
        memcpy(job + job_length, tail, n);
    job_length += n;
}

/* ---------------------------------------------------------------- a job written as text */

enum { TEXT_ROOM = 1 << 22 };

static u8 text[TEXT_ROOM];
static u32 text_length, pair_at[CHIP + MAX_ORDER + 10], pairs;

struct style {
    flag mark, head;        /* a byte order mark; a comment before the first pair */
    u32 letters;            /* 0 capitals, 1 small, 2 both */
    u32 line;               /* pairs on a line; 0: all */
    u32 gap;                /* between pairs: 0 nothing, 1 a blank, 2 a tab, 3 any of these, one or more */
    u32 end;                /* of a line: 0 LF, 1 CR LF, 2 blank LF, 3 LF LF, 4 any of these, 5 CR only */
    u32 comments;           /* the chance that a line ends with one */
    u32 last;               /* the text's end: 0 a line's end, 1 the last digit, 2 a comment, 3 blanks */
};

static void add_byte(u32 b)
{
    if (text_length == TEXT_ROOM) {
        fprintf(stderr, "jobs: a text is full\n");
        exit(2);
    }
    text[text_length++] = (u8)b;
}

static void add_text(const char *t)
{
    while (*t != 0)
        add_byte((u8)*t++);
}

static void add_pair(u32 b, u32 letters)
{
    static const char capitals[] = "0123456789ABCDEF", smalls[] = "0123456789abcdef";
    u32 i;
    pair_at[pairs++] = text_length;
    for (i = 0; i < 2; i++) {
        flag small = letters == 1 || (letters == 2 && chance(50));
        add_byte((u8)(small ? smalls : capitals)[i == 0 ? b >> 4 : b & 15]);
    }
}

/* A comment without its line feed: words, or any bytes. */
static void add_comment(u32 n)
{
    static const char words[] = " contract 2: monthly pass, '2001' 1D AB ff # 0x00; zone 1-3\t";
    u32 start = below(sizeof words - 1), i;
    flag odd = chance(30);
    add_byte('#');
    for (i = 0; i < n; i++) {
        u8 b = any_byte();
        add_byte(!odd ? (u8)words[(start + i) % (sizeof words - 1)] : b == '\n' ? '\r' : b);
    }
}

static void add_gap(u32 gap)
{
    static const char blanks[] = { ' ', '\t', '\r' };
    if (gap == 1)
        add_byte(' ');
    else if (gap == 2)
        add_byte('\t');
    else if (gap == 3)
        while (chance(50))
            add_byte((u8)blanks[below(3)]);
}

static void add_end(u32 end)
{
    static const char *const ends[6] = { "\n", "\r\n", " \n", "\n\n", "\t\r\n", "\r" };
    add_text(ends[end == 4 ? below(5) : end]);
}

static struct style any_style(void)
{
    static const u32 lines[6] = { 0, 1, 8, 16, 16, 32 };
    struct style s = { 0, 0, 0, 0, 1, 0, 0, 0 };
    s.mark = chance(25);
    s.head = chance(40);
    s.letters = below(3);
    s.line = lines[below(6)];
    s.gap = chance(60) ? 1 : below(4);
    s.end = below(6);
    s.comments = s.end == 5 || chance(40) ? 0 : chance(20) ? 100 : between(5, 40);
    s.last = below(4);
    return s;
}

/* The job at hand as text. Before its first pair a comment of `skip` bytes, if any. */
static void write_text(const struct style *s, u32 skip)
{
    u32 i;
    text_length = pairs = 0;
    if (s->mark)
        add_text("\xEF\xBB\xBF");
    if (s->head || skip > 0) {
        add_comment(skip > 0 ? skip : below(60));
        add_byte('\n');
    }
    for (i = 0; i < job_length; i++) {
        add_pair(job[i], s->letters);
        if (i + 1 == job_length)
            break;
        if (s->line == 0 || (i + 1) % s->line != 0) {
            add_gap(s->gap);
        } else {
            if (chance(s->comments)) {
                add_gap(3);
                add_comment(below(40));
                add_byte('\n');
            }
            add_end(s->end);
        }
    }
    if (s->last == 0)
        add_end(s->end);
    else if (s->last == 2)
        add_comment(below(20));
    else if (s->last == 3)
        add_text("  \t");
}

static void write_any_text(void)
{
    struct style s = any_style();
    write_text(&s, 0);
}

/* ---------------------------------------------------------------- texts that are wrong */

static const u8 strange[28] = {
    '/', ':', '@', 'G', '`', 'g', 'x', 'Z', ';', ',', '-', '.', '"', '!', 0x00, 0x08, 0x0B, 0x0C, 0x0E, 0x1F, 0x7F,
    0x80, 0xA0, 0xBB, 0xBF, 0xEF, 0xFE, 0xFF
};

static void text_insert(u32 at, const char *bytes, u32 n)
{
    u32 i;
    for (i = 0; i < n; i++)
        add_byte(0);
    memmove(text + at + n, text + at, text_length - n - at);
    memcpy(text + at, bytes, n);
}

static void insert_byte(u32 at, u8 b)
{
    const char c = (char)b;
    text_insert(at, &c, 1);
}

/* A pair of the text: the first, the last, one about the chip record's end, or any. */
static u32 some_pair(void)
{
    u32 kind = below(6);
    u32 p = kind == 0 ? 0 : kind == 1 ? pairs - 1 : kind == 2 ? CHIP - 1 + below(3) : below(pairs);
    return pair_at[p < pairs ? p : pairs - 1];
}

/* Marks that are torn or no marks; now and then they are all of the text. */
static void wrong_mark(u32 turn)
{
    static const struct { const char *bytes; u32 n; } marks[12] = {
        { "\xEF", 1 }, { "\xEF\xBB", 2 }, { "\xEF\xBB\xBE", 3 }, { "\xEF\xBF\xBB", 3 }, { "\xEF\xEF\xBB\xBF", 4 },
        { "\xEF\xBB\xEF\xBB\xBF", 5 }, { "\xFE\xFF", 2 }, { "\xFF\xFE", 2 }, { "\xBB\xBF", 2 }, { "\xEF ", 2 },
        { "\xEF\xBB\n", 3 }, { " \xEF\xBB\xBF", 4 }
    };
    u32 m = turn % 12;
    struct style s = any_style();
    s.mark = 0;
    write_text(&s, 0);
    if (turn / 12 % 3 == 2)
        text_length = 0;
    text_insert(0, marks[m].bytes, marks[m].n);
}

/* A fault behind more bytes than a job may have, or behind 65,536 characters. */
static void late_fault(u32 turn)
{
    struct style s = any_style();
    u32 at, i = below(2);
    u8 b = strange[below(28)];
    if (turn % 2 == 0) {
        make_long_order(between(8193, 8400));
        set_order(0, 0);
    }
    write_text(&s, turn % 2 == 0 ? 0 : 65536 - below(200));
    at = turn % 2 == 0 ? pair_at[pairs - 1 - below(100)] : some_pair();
    if (turn / 2 % 3 == 0)
        text_length = pair_at[pairs - 1] + 1;
    else
        text[at + i] = turn / 2 % 3 == 1 && i == 1 ? ' ' : b;
}

/* One fault in the text (or two: the first counts). */
static void write_wrong_text(u32 turn)
{
    static const u8 halves[5] = { ' ', '\t', '\r', '\n', '#' };
    static const char *const prefixes[6] = { "0x", "\\x", "$", "0X", "//", "; " };
    u32 kind = turn % 20, at;
    u8 b = strange[(turn / 20 + kind * 5) % 28];
    write_any_text();
    at = some_pair();
    switch (kind) {
    case 0: case 1: case 2: case 3: case 4: text[at + 1] = halves[kind]; break;
    case 5: text_length = at + 1; break;
    case 6: text[at] = b; break;
    case 7: text[at + 1] = b; break;
    case 8: insert_byte(at, b); break;
    case 9: insert_byte(at + 2, b); break;
    case 10: wrong_mark(turn / 20); break;
    case 11: text_insert(text[0] == 0xEF && chance(50) ? 3 : at, "\xEF\xBB\xBF", 3); break;
    case 12: text_insert(at, prefixes[turn / 20 % 6], (u32)strlen(prefixes[turn / 20 % 6])); break;
    case 13: insert_byte(at + 1, halves[turn / 20 % 5]); break;
    case 14: insert_byte(text[0] == 0xEF ? 3 : 0, b); break;
    case 15: late_fault(turn / 20); break;
    case 16: text[at] = b; text[some_pair() + 1] = ' '; break;
    case 17: memmove(text + at, text + at + 1, text_length - at - 1); text_length--; break;
    case 18: insert_byte(text_length, b == '#' ? '!' : b); break;
    default: text_length = pair_at[pairs - 1] + 1; insert_byte(text_length, halves[turn / 20 % 5]); break;
    }
}

/* ---------------------------------------------------------------- orders that end too early, and others */

/* The order's end: a row missing, a value open, a torn header. */
static void damage_end(u32 turn)
{
    static const u16 tags[7] = { 0x2000, 0x2100, 0x3100, 0x3800, 0x4101, 0x4102, 0x4103 };
    static const u16 torn_tags[8] = { 0x2000, 0x3100, 0x0801, 0x1EFF, 0x9484, 0x84F2, 0x0000, 0xFFFF };
    u32 kind = turn % 22, at = find(0x3100), n = 0, t = torn_tags[turn / 22 % 8];
    u8 tail[5] = { (u8)(t >> 8), (u8)t, 0xFF, (u8)(chance(50) ? 0x00 : 0xFF), 0xFF };
    if (kind < 7) {
        item_count = find(tags[kind]);
    } else if (kind < 11) {
        u32 whole = DESCRIPTOR * below(items[at].length / DESCRIPTOR);
        item_count = at + 1;
        items[at].length = kind == 7 ? 0
                         : kind == 8 ? whole + between(1, 17)
                         : kind == 9 ? whole
                                     : items[at].length - 1;
    } else if (kind < 15) {
        struct item *last;
        damage_records(6);
        last = &items[item_count - 1];
        last->length = kind == 11 ? 0 : kind == 12 ? last->claimed - 1 : last->length;
    } else if (kind < 19) {
        n = kind - 14;                              /* 1 to 4 bytes of a header */
    } else {
        if (kind == 19)
            item_count = between(1, item_count);
        n = kind == 20 ? 5 : between(1, 4);
        if (kind == 20)
            tail[3] = 0xFF;                         /* 'FFFF' */
        if (kind == 21)
            memset(tail, 0, 5);
    }
    set_order(tail, n);
}

/* '9484', '8185', '84F2': alone, first, in the midst, last; empty (short and long form), not empty, 'FFFF', open. */
static void add_query_to_order(u32 turn)
{
    static const u16 tags[3] = { 0x9484, 0x8185, 0x84F2 };
    u32 place = turn / 3 % 4, form = turn / 12 % 5, n = form == 2 ? between(1, 3) : 0;
    struct item *it;
    if (place == 0)
        clear_list();
    it = insert(place < 2 ? 0 : place == 2 ? below(item_count) : item_count, tags[turn % 3], 0, n);
    it->wide = form == 1;
    if (form > 2)
        it->claimed = form == 3 ? 0xFFFF : between(1, 300);
    set_order(0, 0);
}

/* Chip records and lengths. */
static void special(u32 turn)
{
    u32 kind = turn % 12;
    switch (kind) {
    case 0: make_long_order(8192); break;
    case 1: make_long_order(8193); break;
    case 2: make_long_order(between(8194, 9000)); break;
    case 4: case 5: job[37 + below(3)] = (u8)between(1, 255); break;
    case 6: job[36] = (u8)(chance(50) ? 5 : below(6)); break;
    case 7: make_long_order(between(8193, 8300)); job[37 + below(3)] = 1; break;
    case 8: job[36] = 6; break;
    default: break;
    }
    set_order(0, 0);
    if (kind == 3) {
        job_length = CHIP;
    } else if (kind == 9) {
        job_length = chance(50) ? CHIP - 1 : below(CHIP);
    } else if (kind == 10) {
        job_length = 0;
    } else if (kind == 11) {
        u32 n = between(chance(50) ? 1 : 8193, 9000);
        fill(job + CHIP, n);
        job_length = CHIP + n;
    }
}

static void damage_bytes(u32 turn)
{
    u32 i;
    set_order(0, 0);
    switch (turn % 5) {
    case 0: job_length = CHIP + below(job_length - CHIP); break;
    case 1: job_length--; break;
    case 2: job[job_length++] = any_byte(); break;
    case 3: i = below(job_length - CHIP); job[CHIP + i] = any_byte(); break;
    default: i = below(job_length - CHIP); job[CHIP + i] ^= (u8)(1u << below(8)); break;
    }
}

/* Texts that are right but odd. */
static void write_odd_text(u32 turn)
{
    struct style s = any_style();
    switch (turn % 10) {
    case 0: text_length = 0; return;
    case 1: text_length = 0; add_text("\xEF\xBB\xBF"); return;
    case 2: job_length = 0; s.last = between(1, 3); break;
    case 3: job_length = between(CHIP - 1, CHIP); break;
    case 4: s.line = s.gap = 0; s.last = 1; break;
    case 5: s.line = 1; s.gap = 0; s.comments = 0; s.end = 5; break;
    case 6: s.mark = 1; s.head = 0; break;
    case 7: s.line = between(16, 32); s.end = 1; s.comments = 100; break;
    default: write_text(&s, 65536 - below(200)); return;
    }
    write_text(&s, 0);
}

/* ---------------------------------------------------------------- real-looking jobs */

enum { OPERATORS = 24, SHORTEST = 300, LONGEST_ORDER = 2500, REAL_RECORD = 29 };

/* An operator: its chips, its file table and its key lengths. */
static struct operator_facts {
    u8 reference[4], capacity, startup[7], table[TABLE * DESCRIPTOR];
    u32 files, total, key_length, first_serial;
    flag counter, fourth_key;
} operators[OPERATORS];

/* Access: 0 free, 1 never, 0x10 | k under key k, 0x1F always. */
static void add_file(struct operator_facts *o, u32 lid, u32 sfi, u8 type, u32 rec, u32 num, u32 key)
{
    u8 *d = o->table + o->files * DESCRIPTOR;
    u32 size = type == SIMULATED ? 0 : type == BINARY ? 256 * rec + num : rec * num;
    if (o->files == TABLE || o->total + size > AREA)
        return;
    memset(d, 0, DESCRIPTOR);
    d[D_LID] = (u8)(lid >> 8);
    d[D_LID + 1] = (u8)lid;
    d[D_SFI] = (u8)sfi;
    d[D_FILE] = (u8)(o->files == 0 ? 0x02 : 0x04);
    d[D_EF] = type;
    d[D_REC] = (u8)rec;
    d[D_NUM] = (u8)num;
    d[D_AC] = (u8)(o->files == 0 ? 0x10 : 0x1F);
    d[D_KEY] = (u8)(o->files == 0 ? key : 0);
    d[D_AC + 1] = d[D_AC + 2] = 0x10;
    d[D_KEY + 1] = d[D_KEY + 2] = (u8)key;
    d[D_AC + 3] = type == COUNTERS || type == SIMULATED ? 0x10 : 0x01;
    d[D_KEY + 3] = type == COUNTERS || type == SIMULATED ? 2 : 0;
    o->files++;
    o->total += size;
}

static void add_simulated(struct operator_facts *o, u32 number)
{
    add_file(o, 0x2029 + number, 0x09 + number, SIMULATED, 3, 1, 2);
    o->table[(o->files - 1) * DESCRIPTOR + D_REF] = 0x19;
    o->table[(o->files - 1) * DESCRIPTOR + D_REF + 1] = (u8)number;
}

/* Environment, event logs, contracts, counters and what an operator adds to them. */
static void make_operator(struct operator_facts *o, u32 i)
{
    static const u8 capacities[4] = { 20, 32, 40, 55 };
    u32 counters = between(2, 9), n, sfi;
    memset(o, 0, sizeof *o);
    memcpy(o->reference, "CAL", 3);
    o->reference[3] = (u8)('1' + i % 4);
    o->capacity = capacities[below(4)];
    o->startup[0] = (u8)(chance(70) ? o->capacity : 32);
    o->startup[1] = 0x3C;
    o->startup[2] = (u8)between(1, 0x1F);
    o->startup[3] = 0x11;
    o->startup[4] = (u8)between(1, 0x60);
    o->key_length = chance(70) ? 16 : 24;
    o->first_serial = below(0x7FFFFFFF);
    o->counter = chance(50);
    o->fourth_key = chance(30);
    add_file(o, 0x2000, 0, 0, 0, 0, 1);
    o->table[D_AC + 2] = 0x00;
    o->table[D_KEY + 2] = 0;
    if (chance(60))
        add_file(o, 0x0002, 0x02, LINEAR, REAL_RECORD, 1, 1);                       /* the chip */
    if (chance(50))
        add_file(o, 0x0003, 0x03, BINARY, chance(50), between(32, 120), 1);         /* the holder */
    add_file(o, 0x2001, 0x07, LINEAR, REAL_RECORD, between(1, 2), 1);               /* environment */
    add_file(o, 0x2010, 0x08, CYCLIC, REAL_RECORD, between(3, 6), 3);               /* event log */
    add_file(o, 0x2020, 0x09, LINEAR, REAL_RECORD, between(4, 8), 2);               /* contracts */
    add_file(o, 0x2069, 0x19, COUNTERS, REAL_RECORD, 1, 2);
    for (n = 1; n <= counters; n++)
        add_simulated(o, n);
    add_file(o, 0x2050, 0x1E, LINEAR, REAL_RECORD, 1, 2);                           /* contract list */
    if (chance(60))
        add_file(o, 0x2040, 0x1D, LINEAR, REAL_RECORD, between(1, 4), 3);           /* special events */
    if (chance(60))
        add_file(o, 0x20B0, 0x06, LINEAR, REAL_RECORD, between(4, 12), 2);          /* more contracts */
    if (chance(50))
        add_file(o, 0x20F0, 0x01, CYCLIC, REAL_RECORD, between(4, 30), 3);          /* a second event log */
    n = i % 3 == 0 ? between(2, 8) : i % 3 == 1 ? below(3) : 0;                     /* the operator's own */
    for (sfi = 0x13; n > 0 && sfi <= 0x18; sfi++, n--) {
        u32 rec = chance(50) ? REAL_RECORD : between(8, 60);
        add_file(o, 0x2100 + sfi, sfi, LINEAR, rec, between(1, 10), between(1, 3));
    }
}

/* A record's value: fields, then zeros; now and then without the zeros. */
static u32 real_value(u8 *to, u32 room)
{
    u32 fields = between(room < 8 ? 1 : 8, room), n = chance(60) ? room : fields;
    memset(to, 0, room);
    fill(to, fields);
    return n;
}

static void append_plain(u32 tag, const u8 *value, u32 n)
{
    append(tag, value, n);
    items[item_count - 1].wide = 0;
}

/* Records of all files, rising, until the order has about this many bytes; the environment always. */
static void append_real_records(const struct operator_facts *o, u32 target)
{
    u32 sfi, i, nn, size = encode(job + CHIP);
    u32 percent = target > size ? (target - size) * 100 / (o->total + 1) : 0;
    u8 value[AREA];
    for (sfi = 1; sfi <= 0x1E; sfi++)
        for (i = 1; i < o->files; i++) {
            const u8 *d = o->table + i * DESCRIPTOR;
            u32 first = d[D_EF] == BINARY ? 0 : 1, last = d[D_EF] == BINARY ? 0 : d[D_NUM];
            if (d[D_SFI] != sfi || d[D_EF] == SIMULATED)
                continue;
            for (nn = first; nn <= last; nn++) {
                flag wanted = chance(percent > 100 ? 100 : percent);
                u32 n = real_value(value, d[D_EF] == BINARY ? file_size(d) : d[D_REC]);
                if (sfi != 0x07 && (size + 3 + n > LONGEST_ORDER - 64 || (!wanted && size + 3 + n > SHORTEST)))
                    continue;
                append_plain(sfi << 8 | nn, value, n);
                size += 3 + n;
            }
        }
}

static void make_real_job(u32 i)
{
    u32 which = below(OPERATORS), target = between(SHORTEST, LONGEST_ORDER), tag;
    const struct operator_facts *o = &operators[which];
    u32 serial = o->first_serial + i;
    u8 value[64] = { 0 };
    memcpy(job, o->reference, 4);
    fill(job + 4, 32);
    job[36] = o->capacity;
    memset(job + 37, 0, 3);
    clear_list();
    value[4] = (u8)(serial >> 24);
    value[5] = (u8)(serial >> 16);
    value[6] = (u8)(serial >> 8);
    value[7] = (u8)serial;
    append_plain(0x2000, value, 8);
    append_plain(0x2100, o->startup, 7);
    if (o->counter)
        append_plain(0x2200, (const u8 *)"\x01\x86\xA0", 3);
    append_plain(0x3100, o->table, o->files * DESCRIPTOR);
    for (tag = 0x3800; tag <= (o->fourth_key ? 0x4104u : 0x4103u); tag = tag == 0x3800 ? 0x4101 : tag + 1) {
        fill(value, o->key_length);
        append_plain(tag, value, o->key_length);
    }
    append_real_records(o, target);
    memcpy(table, o->table, sizeof table);
    table_count = o->files;
    table_total = o->total;
    set_order(0, 0);
}

/* The same job as text; it draws nothing from the jobs' chance. */
static void write_real_text(u32 i)
{
    u64 kept = seed;
    u32 at = 0, n;
    char head[80];
    flag spaced = (job[3] & 1) != 0;
    seed = kept ^ 0x5445585420202020u;
    text_length = pairs = 0;
    sprintf(head, "# Card %u of operator %.4s\n# chip record\n", i, (const char *)job);
    add_text(head);
    while (at < job_length) {
        u32 end = at + between(16, 32);
        if (at == CHIP)
            add_text("# order\n");
        if (at < CHIP && end > CHIP)
            end = CHIP;
        for (n = end < job_length ? end : job_length; at < n; at++) {
            add_pair(job[at], 0);
            if (spaced && at + 1 < n)
                add_byte(' ');
        }
        if (chance(5))
            add_text("   # checked");
        add_byte('\n');
    }
    seed = kept;
}

/* ---------------------------------------------------------------- jobs of every kind */

static flag is_text;

static void any_order(enum total total)
{
    make_order(between(2, chance(20) ? 30 : 8), total, any_percent());
}

/* Makes job number i. */
static void make_lot_job(u32 i)
{
    u32 kind = i % 16, turn = i / 16, files = chance(10) ? 30 : chance(50) ? between(2, 10) : between(2, 30);
    is_text = chance(30);
    make_chip_record(job, 0);
    if (kind == 0)
        make_order(files, turn % 3 == 1 ? EXACT_TOTAL : ANY_TOTAL, any_percent());
    else
        any_order(kind == 4 && turn % 4 == 3 ? OVER_TOTAL : ANY_TOTAL);
    switch (kind) {
    case 2: case 3: damage_grouping(turn * 2 + kind - 2); break;
    case 4: case 5: damage_table(turn * 2 + kind - 4); break;
    case 6: damage_reference(turn); break;
    case 10: damage_length(turn); break;
    case 11: damage_records(turn); break;
    case 15: if (turn % 2 == 0) damage_startup(turn / 2); break;
    default: break;
    }
    set_order(0, 0);
    switch (kind) {
    case 1: make_real_job(i); break;
    case 7: damage_end(turn); break;
    case 8: add_query_to_order(turn); break;
    case 9: special(turn); break;
    case 15: if (turn % 2 == 1) damage_bytes(turn / 2); break;
    default: break;
    }
    if (kind >= 12 && kind <= 14)
        is_text = 1;
    if (kind == 14)
        write_odd_text(turn);
    else if (kind == 12 || kind == 13)
        write_wrong_text(turn * 2 + kind - 12);
    else if (is_text)
        write_any_text();
}

/* ---------------------------------------------------------------- what came */

static struct {
    u32 jobs, texts, numbers[12], text_numbers[12], outcomes[OUTCOME_COUNT], places[6], rows[7], queries[3];
    u32 faults[20], right[12], tables[3], events, bytes;
    u32 shortest, longest, fewest, most;
} came;

static flag is_digit(u8 b)
{
    return (b >= '0' && b <= '9') || (b >= 'A' && b <= 'F') || (b >= 'a' && b <= 'f');
}

static flag has(u8 b)
{
    return memchr(text, b, text_length) != NULL;
}

static void see_right_text(const struct text *t)
{
    u32 i, small = 0, capital = 0;
    for (i = 0; i < pairs * 2; i++) {
        u8 b = text[pair_at[i / 2] + i % 2];
        small += b >= 'a';
        capital += b >= 'A' && b <= 'F';
    }
    came.right[0] += text_length >= 3 && text[0] == 0xEF;
    came.right[1] += has('#');
    came.right[2] += has('\r');
    came.right[3] += has('\t');
    came.right[4] += small > 0 && capital == 0;
    came.right[5] += small > 0 && capital > 0;
    came.right[6] += t->length > 0 && t->line == 1;
    came.right[7] += t->length > 0 && text_length == t->length * 2;
    came.right[8] += text_length > 65536;
    came.right[9] += text_length > 0 && text[text_length - 1] != '\n';
    came.right[10] += text_length == 0;
    came.right[11] += text_length > 0 && t->length == 0;
}

/* By kind and by what follows the digit or stands in its place. */
static void see_wrong_text(const struct text *t)
{
    static const u8 follow[5] = { ' ', '\t', '\r', '\n', '#' };
    u64 at = t->fault_at;
    u32 i, digits = 0;
    while (digits < at && is_digit(text[at - 1 - digits]))
        digits++;
    if (t->kind == 2) {
        for (i = 0; i < 5; i++)
            came.faults[i] += at + 1 < text_length && text[at + 1] == follow[i];
        came.faults[5] += at + 1 == text_length;
    } else {
        came.faults[6] += digits % 2 == 0 && at > 0;
        came.faults[7] += digits % 2 == 1;
        came.faults[8] += at == 0 && text[0] == 0xEF;
        came.faults[9] += at == 0 && text[0] != 0xEF;
        came.faults[10] += text[at] == 0;
        came.faults[11] += text[at] >= 0x80 && at > 0;
        came.faults[12] += strchr("/:@G`g", text[at]) != NULL && text[at] != 0;
    }
    came.faults[13] += text[0] == 0xEF && at > 0 && t->fault_line == 1;
    came.faults[14] += text[0] == 0xEF && at > 0 && t->fault_line > 1;
    came.faults[15] += t->fault_line == 1 && t->fault_column > 1;
    came.faults[16] += t->fault_line > 1 && t->fault_column == 1;
    came.faults[17] += t->fault_line > 99;
    came.faults[18] += t->length > JOB;
    came.faults[19] += at > 65536;
}

/* The first mandatory row that the order lacks. */
static u32 lacking(void)
{
    static const u16 tags[7] = { 0x2000, 0x2100, 0x3100, 0x3800, 0x4101, 0x4102, 0x4103 };
    struct reader r = { job + CHIP, job_length - CHIP, 0 };
    struct grouping g;
    u32 i, set = 0;
    while (pull(&r, &g) == PULLED)
        for (i = 0; i < 7; i++)
            set |= (u32)(g.tag == tags[i]) << i;
    for (i = 0; i < 6 && (set >> i & 1) != 0; i++)
        continue;
    return i;
}

static void see_stop(u32 i)
{
    struct stop s = walk_order(job, job + CHIP, job_length - CHIP);
    u32 left = job_length - CHIP - s.place;
    came.outcomes[s.why]++;
    if (s.why == A_TORN && left >= 1 && left <= 4)
        came.places[left - 1]++;
    came.places[4] += s.why == END_OPEN && s.tag == 0x3100;
    came.places[5] += s.why == END_OPEN && s.tag != 0x3100;
    if (s.why == END_MISSING)
        came.rows[lacking()]++;
    if (s.tagged && s.why >= B_PLACE && s.why <= B_P1)
        came.queries[s.tag == 0x9484 ? 0 : s.tag == 0x8185 ? 1 : 2]++;
    if (s.tagged != (s.why != END_MISSING && left >= 2) || stop_word(&s) == 0x9000)
        broken("a stop", i);
}

static void see_loaded(const struct ran *done)
{
    u32 order = job_length - CHIP;
    came.events += done->records;
    came.bytes += order;
    came.shortest = came.shortest == 0 || order < came.shortest ? order : came.shortest;
    came.longest = order > came.longest ? order : came.longest;
    came.fewest = came.fewest == 0 || table_count < came.fewest ? table_count : came.fewest;
    came.most = table_count > came.most ? table_count : came.most;
    came.tables[0] += order == ORDER;
    came.tables[1] += table_count == TABLE;
    came.tables[2] += table_total == AREA;
}

/* The job as the program gets it. */
static void see_lot_job(u32 i)
{
    static u8 records[SESSION * RECORD];
    static u8 read[JOB + 1];
    struct text t;
    struct ran done;
    came.jobs++;
    came.texts += is_text;
    if (is_text) {
        begin_text(&t);
        if (!read_text(&t, text, text_length, read) || !end_text(&t)) {
            see_wrong_text(&t);
            return;
        }
        see_right_text(&t);
        job_length = t.length > JOB ? JOB + 1 : (u32)t.length;
        memcpy(job, read, job_length);
    }
    done = cut_job(job, job_length > JOB ? JOB + 1 : job_length, records);
    came.numbers[done.number]++;
    came.text_numbers[done.number] += is_text;
    if (done.number == 10)
        see_stop(i);
    if (done.number == 0)
        see_loaded(&done);
}

static void report_list(const char *title, const char *const *texts, const u32 *counts, u32 n)
{
    u32 i;
    printf("%s\n", title);
    for (i = 0; i < n; i++)
        report(texts[i], counts[i], 1);
}

static void report_numbers(void)
{
    static const char *const texts[12] = { "0", 0, 0, 0, 0, 0, 0, "7", 0, "9", "10", 0 };
    u32 i;
    printf("numbers, of all jobs\n");
    for (i = 0; i < 12; i++)
        if (texts[i])
            report(texts[i], came.numbers[i], 1);
    printf("numbers, of texts\n");
    for (i = 0; i < 12; i++)
        if (texts[i])
            report(texts[i], came.text_numbers[i], 1);
}

static void report_outcomes(void)
{
    u32 o;
    printf("how orders were refused, by rule\n");
    for (o = A_TORN; o <= END_OPEN; o++)
        if (o != B_STATE && o != B_ONCE && o != C_DONE)
            report(outcome_texts[o], came.outcomes[o], 1);
}

static int report_lot(void)
{
    static const char *const places[6] = {
        "a: 1 byte left", "a: 2 bytes left", "a: 3 bytes left", "a: 4 bytes left", "3100 open", "ssnn open" };
    static const char *const rows[7] = {
        "2000 missing at the end", "2100 missing at the end", "3100 missing at the end", "3800 missing at the end",
        "4101 missing at the end", "4102 missing at the end", "4103 missing at the end" };
    static const char *const queries[3] = { "9484 in an order", "8185 in an order", "84F2 in an order" };
    static const char *const faults[20] = {
        "2: half a byte, then a blank", "2: half a byte, then a tab", "2: half a byte, then CR",
        "2: half a byte, then a line feed", "2: half a byte, then #", "2: half a byte, then the end",
        "1: where a pair may begin", "1: behind a digit", "1: a torn or wrong mark", "1: at the very first place",
        "1: a zero byte", "1: a byte of 80 to FF", "1: a neighbour of the digits", "on line 1 behind a mark",
        "on a later line behind a mark", "on line 1, column 2 or later", "on a later line, column 1",
        "on line 100 or later", "behind 8,233 bytes or more", "behind 65,536 characters" };
    static const char *const right[12] = {
        "with a byte order mark", "with comments", "with CR", "with tabs", "in small letters", "in both letters",
        "on one line", "nothing but digits", "of over 65,536 characters", "without a last line feed", "empty",
        "that give no byte" };
    static const char *const tables[3] = {
        "loaded, an order of 8,192 bytes", "loaded, 31 descriptors", "loaded, a size total of 4,096" };
    printf("jobs %u, texts %u\n", came.jobs, came.texts);
    report_numbers();
    report_outcomes();
    report_list("torn headers, open values", places, came.places, 6);
    report_list("rows", rows, came.rows, 7);
    report_list("queries", queries, came.queries, 3);
    report_list("loads", tables, came.tables, 3);
    report_list("texts that are right", right, came.right, 12);
    report_list("texts that are wrong, by kind and place", faults, came.faults, 20);
    if (missing > 0) {
        fflush(stdout);
        fprintf(stderr, "lotjobs: %u reachable points did not come; ask for more jobs\n", missing);
        return 1;
    }
    printf("every reachable point came\n");
    return 0;
}

/* ---------------------------------------------------------------- the modes */

static void save_job(const char *folder, u32 i)
{
    const u8 *bytes = is_text ? text : job;
    u32 n = is_text ? text_length : job_length;
    char path[4200];
    FILE *f;
    snprintf(path, sizeof path, "%s/j%05u.%s", folder, i, is_text ? "txt" : "job");
    f = fopen(path, "wb");
    if (f == NULL || fwrite(bytes, 1, n, f) != n || fclose(f) != 0) {
        perror(path);
        exit(1);
    }
}

static void begin(char **argv)
{
    u32 i;
    seed = strtoull(argv[2], NULL, 10);
    (void)mkdir(argv[4], 0777);
    for (i = 0; i < OPERATORS; i++)
        make_operator(&operators[i], i);
}

int lotjobs(int argc, char **argv)
{
    u32 i, count;
    if (argc != 5) {
        fprintf(stderr, "usage: second lotjobs SEED COUNT FOLDER\n");
        return 2;
    }
    begin(argv);
    count = (u32)strtoul(argv[3], NULL, 10);
    for (i = 0; i < count; i++) {
        make_lot_job(i);
        save_job(argv[4], i);
        see_lot_job(i);
    }
    return report_lot();
}

int realjobs(int argc, char **argv)
{
    u32 i, count;
    if (argc != 5 && !(argc == 6 && strcmp(argv[5], "text") == 0)) {
        fprintf(stderr, "usage: second realjobs SEED COUNT FOLDER [text]\n");
        return 2;
    }
    begin(argv);
    count = (u32)strtoul(argv[3], NULL, 10);
    is_text = argc == 6;
    for (i = 0; i < count; i++) {
        make_real_job(i);
        if (is_text)
            write_real_text(i);
        save_job(argv[4], i);
        see_lot_job(i);
        if (came.numbers[0] != i + 1 || job_length - CHIP < SHORTEST || job_length - CHIP > LONGEST_ORDER)
            broken("a real job", i);
    }
    if (count == 0)
        return 0;
    printf("jobs %u, texts %u, all load: %u events\n", came.jobs, came.texts, came.events);
    printf("orders of %u to %u bytes, %u on average\n", came.shortest, came.longest, came.bytes / count);
    printf("tables of %u to %u descriptors\n", came.fewest, came.most);
    return 0;
}
