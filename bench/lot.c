/* lot.c: the benchmark's input, the same bytes on every machine.
 *   lot loads DIR COUNT        COUNT sessions that load a card: transit cards, full tables, large files; every eleventh damaged
 *   lot long FILE EVENTS       one session: a transit card is loaded, then EVENTS events (SELECT, queries, refusals ..)
 *   lot orders DIR COUNT       COUNT jobs with orders of about 8,100 to 8,192 bytes, all complete
 *   lot table DIR COUNT FILES  COUNT sessions that load 255 records of 16 bytes, byte by byte, into FILES files
 *   lot after FILE EVENTS FILES  as long, with a table of FILES files
 * Each prints how many events (of jobs: bytes of orders) it made. */
#include <stdio.h>
#include <stdlib.h>
#include <string.h>

typedef unsigned char u8;
typedef unsigned long long u64;

enum { RECORD = 260, DATA = 255, MOST = 8192 };

/* ---- chance (splitmix64, fixed seed) */

static u64 seed = 20260101;

static u64 draw(void)
{
    u64 z = seed += 0x9E3779B97F4A7C15u;
    z = (z ^ z >> 30) * 0xBF58476D1CE4E5B9u;
    z = (z ^ z >> 27) * 0x94D049BB133111EBu;
    return z ^ z >> 31;
}

static unsigned below(unsigned n)
{
    return (unsigned)((draw() >> 32) * n >> 32);
}

static void fill(u8 *to, unsigned n)
{
    while (n-- > 0)
        *to++ = (u8)draw();
}

/* ---- an order, grouping by grouping */

static u8 order[65536];
static unsigned length;
static unsigned start[8192], starts; /* where each grouping begins */

static u8 *grouping(unsigned tag, unsigned n)
{
    start[starts++] = length;
    order[length++] = (u8)(tag >> 8);
    order[length++] = (u8)tag;
    if (n < 255) {
        order[length++] = (u8)n;
    } else {
        order[length++] = 0xFF;
        order[length++] = (u8)(n >> 8);
        order[length++] = (u8)n;
    }
    fill(order + length, n);
    length += n;
    return order + length - n;
}

struct file { u8 sfi, type, rec, num, ref_sfi, ref_number; };

static void descriptor(u8 *d, unsigned lid, const struct file *f)
{
    static const u8 ef_access[8] = { 0x1F, 0x10, 0x10, 0x00, 0, 2, 3, 0 };
    memset(d, 0, 18);
    d[0] = (u8)(lid >> 8);
    d[1] = (u8)lid;
    d[2] = f->sfi;
    d[3] = f->type == 0 ? 0x02 : 0x04;
    d[4] = f->type;
    d[5] = f->rec;
    d[6] = f->num;
    memcpy(d + 7, ef_access, 8);
    d[15] = f->ref_sfi;
    d[16] = f->ref_number;
}

/* Everything up to the records: serial, startup, counter, the table (the DF and these files), the secrets. */
static void head(const struct file *files, unsigned count)
{
    static const struct file df = { 0, 0, 0, 0, 0, 0 };
    u8 *v;
    unsigned i;
    length = starts = 0;
    grouping(0x2000, 8);
    v = grouping(0x2100, 7);
    v[0] = (u8)(6 + below(50));
    v[5] = v[6] = 0;
    grouping(0x2200, 3);
    v = grouping(0x3100, 18 * (count + 1));
    descriptor(v, 0x2000, &df);
    for (i = 0; i < count; i++)
        descriptor(v + 18 * (i + 1), 0x2001 + i, &files[i]);
    grouping(0x3800, 8);
    for (i = 1; i <= 3; i++)
        grouping(0x4100 + i, 16);
}

/* Every record of every file, in the order of the SFIs, in which tags rise. */
static void records(const struct file *files, unsigned count)
{
    unsigned sfi, i, r;
    for (sfi = 1; sfi <= 0x1E; sfi++)
        for (i = 0; i < count; i++)
            if (files[i].sfi == sfi && files[i].type == 0x01)
                grouping(sfi << 8, 256u * files[i].rec + files[i].num);
            else if (files[i].sfi == sfi && files[i].type != 0x08)
                for (r = 1; r <= files[i].num; r++)
                    grouping(sfi << 8 | r, files[i].rec);
}

/* ---- a session */

static FILE *out;
static u64 events;

static void record(u8 kind, u8 p1, const void *data, unsigned n)
{
    u8 r[RECORD] = { 0 };
    r[0] = kind;
    r[1] = p1;
    r[3] = (u8)n;
    memcpy(r + 4, data, n);
    fwrite(r, 1, RECORD, out);
    events++;
}

static void chip(void)
{
    u8 c[40] = { 0 };
    fill(c, 36);
    c[36] = (u8)(6 + below(50));
    fwrite(c, 1, 40, out);
}

static const char name[] = "1TIC.ICA";

static void begin(void)
{
    static const u8 install[] = "\x08" "1TIC.PKG" "\x08" "1TIC.MOD" "\x08" "1TIC.ICA" "\x01\x00\x02\xC9\x00";
    chip();
    record(1, 0x0C, install, sizeof install);
    record(3, 0x04, name, 8);
    record(2, 0x01, "\x94\x84", 3);
}

static int spans(unsigned at)
{
    return (order[at] == 0x31 && order[at + 1] == 0) || (order[at] >= 1 && order[at] <= 0x1E);
}

/* The order cut into commands: as full as they can be, or one command a grouping (a long value in pieces of `piece`). */
static void load(int full, unsigned piece)
{
    u8 c[DATA];
    unsigned n = 0, g, at, end, unit;
    for (g = 0; g < starts; g++) {
        end = g + 1 < starts ? start[g + 1] : length;
        if (!full && n > 0) {
            record(2, 0x00, c, n);
            n = 0;
        }
        unit = !spans(start[g]) ? end - start[g] : order[start[g] + 2] == 0xFF ? 5 : 3;
        for (at = start[g]; at < end; at += unit, unit = 1) {
            if (n + unit > DATA || (piece > 0 && n >= piece && spans(start[g]))) {
                record(2, 0x00, c, n);
                n = 0;
            }
            memcpy(c + n, order + at, unit);
            n += unit;
        }
    }
    record(2, 0x80, c, n);
}

/* What a loaded card meets: nothing of it changes the card for good. */
static void meet(u64 count)
{
    static const u8 other[] = "\x08" "1TIC.PKG" "\x08" "1TIC.MOD" "\x08" "1TIC.ICB" "\x01\x00\x02\xC9\x00";
    u64 until = events + count;
    while (events < until)
        switch (below(16)) {
        case 0: case 1: case 2: case 3: record(3, 0, name, 8); break;
        case 4: record(3, 0, "1TIC.ICB", 8); break;
        case 5: case 6: case 7: record(2, 0x01, "\x84\xF2", 3); break;
        case 8: record(2, 0x01, "\x81\x85", 3); break;
        case 9: case 10: record(2, 0x00, order, 11); break;
        case 11: record(2, 0x00, order + length - 200, 200); break;
        case 12: record(5, 0, "", 0); break;
        case 13: record(6, 0, "", 0); break;
        case 14: record(4, 0, "\x00\xB2", 2); break;
        default: record(1, 0x0C, other, sizeof other); break;
        }
}

/* ---- real-looking cards */

static const struct file transit[] = {
    { 0x07, 0x02, 29, 1, 0, 0 },    { 0x08, 0x04, 29, 3, 0, 0 },    { 0x09, 0x02, 29, 4, 0, 0 },
    { 0x19, 0x09, 29, 1, 0, 0 },    { 0x0A, 0x08, 3, 1, 0x19, 1 },  { 0x0B, 0x08, 3, 1, 0x19, 2 },
    { 0x0C, 0x08, 3, 1, 0x19, 3 },  { 0x0D, 0x08, 3, 1, 0x19, 4 },  { 0x1E, 0x02, 29, 1, 0, 0 },
};
static const struct file large[] = {
    { 0x01, 0x01, 7, 0xD0, 0, 0 },  { 0x02, 0x02, 200, 5, 0, 0 },   { 0x03, 0x04, 48, 12, 0, 0 },
    { 0x04, 0x09, 87, 2, 0, 0 },    { 0x05, 0x01, 1, 0x2C, 0, 0 },
};
enum { TRANSIT = sizeof transit / sizeof transit[0], LARGE = sizeof large / sizeof large[0] };

/* 30 EFs of all types, 31 descriptors with the DF. */
static void full_table(struct file *files)
{
    static const u8 types[5] = { 0x02, 0x04, 0x02, 0x09, 0x08 };
    unsigned i;
    for (i = 0; i < 30; i++) {
        struct file f = { (u8)(i + 1), types[i % 5], 29, 4, 0, 0 };
        if (f.type == 0x08) {
            f.ref_sfi = (u8)i;
            f.ref_number = (u8)(1 + below(9));
        }
        files[i] = f;
    }
}

static void open_in(const char *dir, const char *ending, unsigned i)
{
    char path[4096];
    snprintf(path, sizeof path, "%s/%05u.%s", dir, i, ending);
    out = fopen(path, "wb");
    if (!out) {
        perror(path);
        exit(2);
    }
}

/* Damaged as orders are: a byte is wrong, somewhere. */
static void damage(void)
{
    order[below(length)] ^= (u8)(1u << below(8));
}

static void loads(const char *dir, unsigned count)
{
    unsigned i;
    for (i = 0; i < count; i++) {
        struct file files[30];
        int kind = (int)(i % 4), full = kind == 0 || kind == 3;
        full_table(files);
        if (kind <= 1) {
            head(transit, TRANSIT);
            records(transit, TRANSIT);
        } else if (kind == 2) {
            head(files, 30);
            records(files, 30);
        } else {
            head(large, LARGE);
            records(large, LARGE);
        }
        if (i % 11 == 10)
            damage();
        open_in(dir, "session", i);
        begin();
        load(full, full ? 0 : kind == 2 ? 16 : 64);
        meet(4);
        fclose(out);
    }
    printf("%llu\n", events);
}

static void long_session(const char *path, u64 count, unsigned descriptors)
{
    struct file files[30];
    full_table(files);
    if (descriptors == 0) {
        head(transit, TRANSIT);
        records(transit, TRANSIT);
    } else {
        head(files, descriptors);
        records(files, descriptors);
    }
    out = fopen(path, "wb");
    if (!out) {
        perror(path);
        exit(2);
    }
    begin();
    load(1, 0);
    meet(count);
    fclose(out);
    printf("%llu\n", events);
}

/* Short records in numbers make an order long. */
static void orders(const char *dir, unsigned count)
{
    unsigned i, f, r;
    u64 bytes = 0;
    for (i = 0; i < count; i++) {
        struct file files[30];
        unsigned rec = 1 + i % 3, n, room = 4096, aim = 8120 + below(73);
        for (n = 0; room >= rec; n++) {
            struct file one = { (u8)(n + 1), n % 2 ? 0x04 : 0x02, (u8)rec, (u8)(room / rec < 255 ? room / rec : 255), 0, 0 };
            files[n] = one;
            room -= rec * one.num;
        }
        head(files, n);
        for (f = 0; f < n; f++)
            for (r = 1; r <= files[f].num && length + 3 + rec <= aim; r++)
                grouping((f + 1) << 8 | r, rec);
        open_in(dir, "job", i);
        chip();
        fwrite(order, 1, length, out);
        fclose(out);
        bytes += length;
    }
    printf("%llu\n", bytes);
}

/* The same 255 records of 16 bytes, in one file or in more: only the table differs. */
static void table(const char *dir, unsigned count, unsigned in)
{
    unsigned i, f;
    for (i = 0; i < count; i++) {
        struct file files[30];
        for (f = 0; f < in; f++) {
            struct file one = { (u8)(f + 1), 0x02, 16, (u8)(255 / in + (f < 255 % in)), 0, 0 };
            files[f] = one;
        }
        head(files, in);
        records(files, in);
        open_in(dir, "session", i);
        begin();
        load(0, 1);
        fclose(out);
    }
    printf("%llu\n", events);
}

int main(int argc, char **argv)
{
    unsigned n = argc > 3 ? (unsigned)atoi(argv[3]) : 0, files = argc > 4 ? (unsigned)atoi(argv[4]) : 0;
    if (argc == 4 && strcmp(argv[1], "loads") == 0)
        loads(argv[2], n);
    else if (argc == 4 && strcmp(argv[1], "long") == 0)
        long_session(argv[2], n, 0);
    else if (argc == 4 && strcmp(argv[1], "orders") == 0)
        orders(argv[2], n);
    else if (argc == 5 && strcmp(argv[1], "table") == 0 && files >= 1 && files <= 30)
        table(argv[2], n, files);
    else if (argc == 5 && strcmp(argv[1], "after") == 0 && files >= 1 && files <= 30)
        long_session(argv[2], n, files);
    else
        return fprintf(stderr, "usage: see the top of lot.c\n"), 2;
    return 0;
}
