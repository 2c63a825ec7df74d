/* second.c: an independent second program for document 01 ("the paper"): the card's model and the modes
 * replay, trace, cut and groupings. No heap and no library but read, write, memcpy, memset, memcmp.
 * (The mode lot, which works with files, is lot.c; the mode calls is calls.c.)
 *
 * Decided here, where the paper and its readings leave a point open:
 *  - No open value is open_tag 0. "Selected" is a truth value, so sound asks nothing of its form.
 *  - More than 31 descriptors in a given state are not sound ("up to 31 descriptors").
 *  - An EF with SFI 0 can be neither written ('ssnn' starts at '0100') nor shown (number 8).
 *  - replay and trace start from a fresh card and change it only by event(), so they don't ask sound() again
 *    at each event; play() and run() do, as the paper orders. The generator checks that sound() stays true.
 *  - run() asks sound() once, before the first record.
 *  - cut: SELECT's P1 is '04', by name; its P2 and INSTALL's are '00'. It reads no further than byte 8,193 of an order.
 *  - cut's refusal line: "cut: refused NN: meaning", NN in two decimal digits.
 *  - replay and trace of a refused chip record end with status 0: the line printed is the result.
 *  - groupings streams: one pull never needs more than 65,539 bytes, so that many are kept ready.
 *  - trace's "held bytes" are those of an open '3100'; '-' for an open 'ssnn'.
 *  - Bytes past a length stay as given but where the readings name a change. So the held bytes become zero when a
 *    descriptor passes and when a value that is open is dropped (a lock); a lock with nothing open, the opening of a
 *    value and an 'ssnn' that comes to its last byte leave them.
 *  - replay --sum: when the whole register is out, one line on standard error, "AREA " and the file area's place sum
 *    in ten decimal digits; 0 for a refused chip record. No word but that one is taken behind a mode.
 */
#include "second.h"

#ifdef FREESTANDING

/* x86-64 Linux without a C library. */
typedef __SIZE_TYPE__ size_t;
void *memcpy(void *to, const void *from, size_t n);
void *memset(void *to, int byte, size_t n);
int memcmp(const void *a, const void *b, size_t n);
void started(long *stack);

void *memcpy(void *to, const void *from, size_t n)
{
    void *start = to;
    __asm__ volatile("rep movsb" : "+D"(to), "+S"(from), "+c"(n) : : "memory");
    return start;
}

void *memset(void *to, int byte, size_t n)
{
    void *start = to;
    __asm__ volatile("rep stosb" : "+D"(to), "+c"(n) : "a"(byte) : "memory");
    return start;
}

int memcmp(const void *a, const void *b, size_t n)
{
    const u8 *x = a, *y = b;
    for (; n > 0; n--, x++, y++)
        if (*x != *y)
            return *x < *y ? -1 : 1;
    return 0;
}

static long system_call(long number, long a, long b, long c)
{
    long result;
    __asm__ volatile("syscall" : "=a"(result) : "a"(number), "D"(a), "S"(b), "d"(c) : "rcx", "r11", "memory");
    return result;
}

static long read(int file, void *to, size_t n)
{
    return system_call(0, file, (long)to, (long)n);
}

static long write(int file, const void *from, size_t n)
{
    return system_call(1, file, (long)from, (long)n);
}

/* Small copies of a known size need no call. */
#define memcpy(to, from, n) __builtin_memcpy(to, from, n)
#define memset(to, byte, n) __builtin_memset(to, byte, n)

#else
#include <string.h>
#include <unistd.h>
#endif

/* ---------------------------------------------------------------- words, rows */

u16 word_of(enum outcome o)
{
    static const u16 words[OUTCOME_COUNT] = {
#define OUTCOME_WORD(name, word, text) word,
        OUTCOMES(OUTCOME_WORD)
#undef OUTCOME_WORD
    };
    return words[o];
}

/* The eleven-row table. Row 11 stands for 'ssnn', '0100' to '1EFF'; its longest length is the record's. */
static const struct row {
    u16 tag;
    flag mandatory, spans;
    u16 least, most, step;
    enum outcome wrong_length;
} rows[12] = {
    { 0x0000, 0, 0, 0, 0, 1, PASSED },          /* no row 0 */
    { 0x9484, 1, 0, 0, 0, 1, B_NOT_EMPTY },
    { 0x2000, 1, 0, 8, 8, 1, F_2000 },
    { 0x2100, 1, 0, 7, 7, 1, F_2100 },
    { 0x2200, 0, 0, 3, 3, 1, F_2200 },
    { 0x3100, 1, 1, 18, 558, 18, F_3100 },
    { 0x3800, 1, 0, 1, 64, 1, F_3800 },
    { 0x4101, 1, 0, 1, 64, 1, F_410n },
    { 0x4102, 1, 0, 1, 64, 1, F_410n },
    { 0x4103, 1, 0, 1, 64, 1, F_410n },
    { 0x4104, 0, 0, 1, 64, 1, F_410n },
    { 0x0100, 0, 1, 0, 0, 1, F_SSNN },
};

enum { MANDATORY = 0x1F7 };     /* the table's mandatory rows as a set: rows_agree() compares them */

flag rows_agree(void)
{
    u32 r, set = 0;
    for (r = 1; r <= 11; r++)
        if (rows[r].mandatory)
            set |= 1u << (r - 1);
    return set == MANDATORY;
}

/* The row of a tag; 0 if unknown. */
static u32 row_of(u16 tag)
{
    u32 r;
    if (tag >= 0x0100 && tag <= 0x1EFF)
        return 11;
    for (r = 10; r > 0 && rows[r].tag != tag; r--)
        continue;
    return r;
}

flag spans(u16 tag)
{
    return rows[row_of(tag)].spans;
}

static u32 least_of(u32 a, u32 b)
{
    return a < b ? a : b;
}

static flag row_taken(const struct card *c, u32 row)
{
    return (c->rows >> (row - 1) & 1) != 0;
}

static void take_row(struct card *c, u32 row)
{
    c->rows = (u16)(c->rows | 1u << (row - 1));
}

/* How many rows have been taken, counted from the set itself. */
u32 taken(const struct card *c)
{
    u32 set = c->rows, count = 0;
    for (; set != 0; set &= set - 1)
        count++;
    return count;
}

/* ---------------------------------------------------------------- file table (000, 3.6.7) */

static u32 lid_of(const u8 *d)
{
    return (u32)d[D_LID] << 8 | d[D_LID + 1];
}

/* Bytes that a file stores: '08' stores nothing, and neither does the DF. */
u32 file_size(const u8 *d)
{
    if (d[D_EF] == BINARY)
        return 256u * d[D_REC] + d[D_NUM];
    return d[D_EF] == SIMULATED ? 0 : (u32)d[D_REC] * d[D_NUM];
}

static enum outcome judge_df(const u8 *d)
{
    if (d[D_SFI] != 0)
        return T_DF_SFI;
    if (d[D_FILE] != 0x02)
        return T_DF_FILE;
    if (d[D_EF] != 0x00)
        return T_DF_EF;
    if (d[D_REC] != 0 || d[D_NUM] != 0)
        return T_DF_SIZE;
    if (d[D_REF] != 0 || d[D_REF + 1] != 0)
        return T_DF_REF;
    return d[D_STATUS] > 1 ? T_DF_STATUS : PASSED;
}

/* '08': the nonzero SFI of an earlier '09' and a number 1 to that file's RecSize / 3; others 0. */
static enum outcome judge_reference(const struct card *c, u32 before, const u8 *d)
{
    u32 i, sfi = d[D_REF], number = d[D_REF + 1];
    if (d[D_EF] != SIMULATED)
        return sfi != 0 || number != 0 ? T_REF_ZERO : PASSED;
    for (i = 0; i < before; i++)
        if (sfi != 0 && c->table[i][D_SFI] == sfi && c->table[i][D_EF] == COUNTERS)
            return number < 1 || number > c->table[i][D_REC] / 3u ? T_REF_NUMBER : PASSED;
    return T_REF_FILE;
}

static enum outcome judge_ef(const struct card *c, u32 before, const u8 *d)
{
    u8 type = d[D_EF];
    if (d[D_SFI] > 0x1E)
        return T_EF_SFI;
    if (d[D_FILE] != 0x04)
        return T_EF_FILE;
    if (type != BINARY && type != LINEAR && type != CYCLIC && type != SIMULATED && type != COUNTERS)
        return T_EF_TYPE;
    if (d[D_STATUS] != 0)
        return T_EF_STATUS;
    if (type == BINARY ? file_size(d) == 0 : d[D_REC] == 0 || d[D_NUM] == 0)
        return T_SIZE;
    return judge_reference(c, before, d);
}

/* AC '00', '01', '10', '1F'; NKey 1 to 3 exactly where AC is '10', else 0. */
static enum outcome judge_access(const u8 *d)
{
    u32 i;
    for (i = 0; i < 4; i++) {
        u8 ac = d[D_AC + i], key = d[D_KEY + i];
        if (ac != 0x00 && ac != 0x01 && ac != 0x10 && ac != 0x1F)
            return T_AC;
        if (ac == 0x10 ? key < 1 || key > 3 : key != 0)
            return T_KEY;
    }
    return PASSED;
}

/* LIDs differ; nonzero SFIs differ. */
static enum outcome judge_differing(const struct card *c, u32 before, const u8 *d)
{
    u32 i;
    for (i = 0; i < before; i++) {
        if (lid_of(c->table[i]) == lid_of(d))
            return T_LID;
        if (d[D_SFI] != 0 && c->table[i][D_SFI] == d[D_SFI])
            return T_SFI;
    }
    return PASSED;
}

/* A descriptor after the first `before` of the table: every '6A80' rule, then the size total. */
enum outcome judge_descriptor(const struct card *c, u32 before, const u8 *d)
{
    u32 i, total = file_size(d);
    enum outcome o = before == 0 ? judge_df(d) : judge_ef(c, before, d);
    if (o == PASSED)
        o = judge_access(d);
    if (o == PASSED)
        o = judge_differing(c, before, d);
    if (o != PASSED)
        return o;
    for (i = 0; i < before; i++)
        total += file_size(c->table[i]);
    return total > AREA ? T_TOTAL : PASSED;
}

/* Where a record (a binary file whole: record 0) is stored. */
struct place { u32 start, length; };

/* Files lie in table order; record r begins (r-1) x RecSize into its file. This is also rule e. */
static enum outcome locate(const struct card *c, u32 sfi, u32 record, struct place *p)
{
    u32 i, start = 0;
    const u8 *d;
    for (i = 0; i < c->descriptors && c->table[i][D_SFI] != sfi; i++)
        start += file_size(c->table[i]);
    if (sfi == 0 || i == c->descriptors)
        return E_SFI;
    d = c->table[i];
    if (d[D_EF] == SIMULATED)
        return E_TYPE;
    if (d[D_EF] == BINARY ? record != 0 : record < 1 || record > d[D_NUM])
        return E_RECORD;
    p->start = d[D_EF] == BINARY ? start : start + (record - 1) * d[D_REC];
    p->length = d[D_EF] == BINARY ? file_size(d) : d[D_REC];
    return PASSED;
}

/* ---------------------------------------------------------------- the card */

/* A fresh card of a chip record; number 7 and the fresh card of 40 zero bytes if refused. */
u32 fresh(struct card *c, const u8 *chip, u32 length)
{
    memset(c, 0, sizeof *c);
    c->internal = 0xCC;
    c->counter = 200000;
    if (length != CHIP || chip[37] != 0 || chip[38] != 0 || chip[39] != 0)
        return 7;
    memcpy(c->reference, chip, 4);
    memcpy(c->challenge, chip + 4, 16);
    memcpy(c->traceability, chip + 20, 16);
    c->capacity = chip[36];
    return 0;
}

/* The open value has come to its last byte. */
static void close_open(struct card *c)
{
    c->open_tag = 0;
    c->open_count = 0;
    c->open_missing = 0;
}

/* An open value is dropped, if there is one: the held bytes go with it. */
static void drop_open(struct card *c)
{
    if (c->open_tag == 0)
        return;
    close_open(c);
    memset(c->held, 0, sizeof c->held);
}

/* Sets the top bit ('87' in '5A'), clears "selected" and drops an open value; all else stays. */
static void lock(struct card *c)
{
    c->gp |= 0x80;
    c->selected = 0;
    drop_open(c);
}

static flag sound_table(const struct card *c)
{
    u32 i;
    if (c->descriptors > TABLE)
        return 0;
    for (i = 0; i < c->descriptors; i++)
        if (judge_descriptor(c, i, c->table[i]) != PASSED)
            return 0;
    return c->descriptors == 0 || row_taken(c, 5) || c->open_tag == 0x3100 ||
           (c->gp == 0x87 && c->internal == 0x5A);
}

static flag sound_open(const struct card *c)
{
    struct place p;
    u64 size;
    if (c->open_tag == 0)
        return 1;
    if (c->gp != 0x07 || c->internal != 0x5A || c->open_missing < 1)
        return 0;
    size = (u64)c->open_count + c->open_missing;
    if (c->open_tag != 0x3100)
        return locate(c, c->open_tag >> 8, c->open_tag & 0xFF, &p) == PASSED && size <= p.length;
    size += (u64)c->descriptors * DESCRIPTOR;
    return !row_taken(c, 5) && size <= 558 && size % DESCRIPTOR == 0 && c->open_count < DESCRIPTOR;
}

flag sound(const struct card *c)
{
    u32 i;
    flag at07 = c->gp == 0x07, at87 = c->gp == 0x87, in5a = c->internal == 0x5A;
    if (!at07 && !at87 && c->gp != 0x00 && c->gp != 0x03 && c->gp != 0x83)
        return 0;
    if (c->internal != 0xCC && !((in5a || c->internal == 0xA5) && (at07 || at87)))
        return 0;
    if (c->gp == 0x00 ? c->name_length != 0 : c->name_length < 5 || c->name_length > 16)
        return 0;
    if ((c->selected && !at07) || (at07 && in5a && !c->selected))
        return 0;
    if (c->rows > 0x7FF || (c->gp == 0x00 && c->rows != 0))
        return 0;
    for (i = 0; i < SECRETS; i++)
        if (c->secrets[i].length > SECRET)
            return 0;
    return sound_table(c) && sound_open(c);
}

/* ---------------------------------------------------------------- groupings (000, 3.6) */

struct command { const u8 *data; u32 length, at; u8 p1; };

/* a. Header whole and length not 'FFFF'. */
enum outcome read_header(const u8 *data, u32 length, struct header *h)
{
    if (length < 3)
        return A_TORN;
    h->tag = (u16)(data[0] << 8 | data[1]);
    h->size = 3;
    h->length = data[2];
    if (data[2] != 0xFF)
        return PASSED;
    if (length < 5)
        return A_TORN;
    h->size = 5;
    h->length = (u32)data[3] << 8 | data[4];
    return h->length == 0xFFFF ? A_FFFF : PASSED;
}

static flag is_query(u16 tag)
{
    return tag == 0x9484 || tag == 0x8185 || tag == 0x84F2;
}

static void add_answer(struct answer *a, const u8 *bytes, u32 n)
{
    memcpy(a->bytes + a->length, bytes, n);
    a->length += n;
}

static void answer_query(struct card *c, u16 tag, struct answer *a)
{
    const u8 life[8] = { 0x9F, 0x70, 0x01, c->gp, 0x9F, 0xDC, 0x01, c->internal };
    if (tag == 0x84F2) {
        add_answer(a, life, 8);
    } else if (tag == 0x8185) {
        add_answer(a, c->traceability, 16);
    } else {
        add_answer(a, c->reference, 4);
        add_answer(a, c->challenge, 16);
        take_row(c, 1);
    }
}

/* b. '9484', '8185', '84F2': at data byte 0, empty and alone; P1; '9484' only in 'CC' and once. */
static enum outcome rule_b(struct card *c, struct command *m, const struct header *h, struct answer *a)
{
    if (m->at != 0)
        return B_PLACE;
    if (h->length != 0)
        return B_NOT_EMPTY;
    if (h->size != m->length)
        return B_NOT_ALONE;
    if ((m->p1 & 0x01) == 0 || (m->p1 & 0x80) != 0)
        return B_P1;
    if (h->tag == 0x9484 && c->internal != 0xCC)
        return B_STATE;
    if (h->tag == 0x9484 && c->rows != 0)
        return B_ONCE;
    answer_query(c, h->tag, a);
    m->at = h->size;
    return PASSED;
}

/* c. Any other: in 'A5' '6985'; in 'CC' the state becomes '5A' now, before any later check. */
static enum outcome rule_c(struct card *c)
{
    if (c->internal == 0xA5)
        return C_DONE;
    c->internal = 0x5A;
    return PASSED;
}

/* d. Unknown tag '6A88'. Row not due '6985'. */
static enum outcome rule_d(const struct card *c, u16 tag, u32 row)
{
    u32 before;
    if (row == 0)
        return D_UNKNOWN;
    before = (1u << (row - 1)) - 1;
    if ((MANDATORY & before & ~(u32)c->rows) != 0)
        return D_MISSING;
    if (row == 11)
        return row_taken(c, 11) && tag <= c->last_tag ? D_RISING : PASSED;
    return c->rows >> (row - 1) != 0 ? D_LATE : PASSED;
}

/* e. 'ssnn': SFI ss listed as binary, linear, cyclic or counters, nn 0 for binary, else 1 to NumRec. */
static enum outcome rule_e(const struct card *c, u16 tag, u32 row, struct place *p)
{
    return row == 11 ? locate(c, tag >> 8, tag & 0xFF, p) : PASSED;
}

/* f. Length, else '6700'. */
static enum outcome rule_f(u32 row, u32 length, const struct place *p)
{
    const struct row *r = &rows[row];
    u32 most = row == 11 ? p->length : r->most;
    return length < r->least || length > most || length % r->step != 0 ? r->wrong_length : PASSED;
}

/* g. Only '3100' and 'ssnn' may run into the next command; others cut short '6A80'. */
static enum outcome rule_g(u32 row, u32 length, u32 left)
{
    return !rows[row].spans && length > left ? G_CUT : PASSED;
}

/* h for '2100': the smaller of first byte and capacity is kept. */
static enum outcome keep_startup(struct card *c, const u8 *v)
{
    if (v[0] < 6 || v[0] > 55)
        return H_FIRST;
    if (v[5] != 0 || v[6] != 0)
        return H_LAST;
    if (c->capacity < 6)
        return H_CAPACITY;
    memcpy(c->startup, v, 7);
    c->startup[0] = (u8)least_of(v[0], c->capacity);
    return PASSED;
}

static void keep_secret(struct secret *s, const u8 *v, u32 length)
{
    memcpy(s->bytes, v, length);
    memset(s->bytes + length, 0, SECRET - length);
    s->length = (u8)length;
}

/* h. Content of a grouping that may not span; a passed one is kept. */
static enum outcome rule_h(struct card *c, u32 row, const u8 *v, u32 length)
{
    enum outcome o = PASSED;
    if (row == 2)
        memcpy(c->serial, v, 8);
    else if (row == 3)
        o = keep_startup(c, v);
    else if (row == 4)
        c->counter = (u32)v[0] << 16 | (u32)v[1] << 8 | v[2];
    else
        keep_secret(&c->secrets[row - 6], v, length);
    if (o == PASSED)
        take_row(c, row);
    return o;
}

/* h for '3100': each descriptor by the file table's rules when its last byte comes. */
static enum outcome feed_table(struct card *c, struct command *m)
{
    while (c->open_missing > 0 && m->at < m->length) {
        u32 n = least_of(DESCRIPTOR - c->open_count, m->length - m->at);
        memcpy(c->held + c->open_count, m->data + m->at, n);
        c->open_count += n;
        c->open_missing -= n;
        m->at += n;
        if (c->open_count == DESCRIPTOR) {
            enum outcome o = judge_descriptor(c, c->descriptors, c->held);
            if (o != PASSED)
                return o;
            memcpy(c->table[c->descriptors++], c->held, DESCRIPTOR);
            memset(c->held, 0, DESCRIPTOR);
            c->open_count = 0;
        }
    }
    return PASSED;
}

/* 'ssnn' bytes are written as they come, from the record's start. (No area: an order is only judged.) */
static void feed_record(struct card *c, u8 *area, struct command *m, const struct place *p)
{
    u32 n = least_of(c->open_missing, m->length - m->at);
    if (area)
        memcpy(area + p->start + c->open_count, m->data + m->at, n);
    c->open_count += n;
    c->open_missing -= n;
    m->at += n;
}

/* An open value takes its bytes. Rows 5 and 11 are taken when the value's last byte is. */
static enum outcome feed(struct card *c, u8 *area, struct command *m, const struct place *p)
{
    if (c->open_tag == 0x3100) {
        enum outcome o = feed_table(c, m);
        if (o != PASSED)
            return o;
    } else {
        feed_record(c, area, m, p);
    }
    if (c->open_missing > 0)
        return PASSED;
    take_row(c, row_of(c->open_tag));
    if (c->open_tag != 0x3100)
        c->last_tag = c->open_tag;
    close_open(c);
    return PASSED;
}

/* One grouping, by rules a to h in this order. */
static enum outcome take_grouping(struct card *c, u8 *area, struct command *m, struct answer *a)
{
    struct header h;
    struct place p = { 0, 0 };
    u32 row;
    enum outcome o = read_header(m->data + m->at, m->length - m->at, &h);
    if (o != PASSED)
        return o;
    if (is_query(h.tag))
        return rule_b(c, m, &h, a);
    row = row_of(h.tag);
    if ((o = rule_c(c)) != PASSED || (o = rule_d(c, h.tag, row)) != PASSED ||
        (o = rule_e(c, h.tag, row, &p)) != PASSED || (o = rule_f(row, h.length, &p)) != PASSED)
        return o;
    m->at += h.size;
    if ((o = rule_g(row, h.length, m->length - m->at)) != PASSED)
        return o;
    if (rows[row].spans) {
        c->open_tag = h.tag;
        c->open_count = 0;
        c->open_missing = h.length;
        return feed(c, area, m, &p);
    }
    o = rule_h(c, row, m->data + m->at, h.length);
    m->at += h.length;
    return o;
}

/* An open value takes its bytes first. Then each grouping. */
static enum outcome walk(struct card *c, u8 *area, struct command *m, struct answer *a)
{
    enum outcome o = PASSED;
    if (c->open_tag != 0) {
        struct place p = { 0, 0 };
        if (c->open_tag != 0x3100)
            (void)locate(c, c->open_tag >> 8, c->open_tag & 0xFF, &p);
        o = feed(c, area, m, &p);
    }
    while (o == PASSED && m->at < m->length)
        o = take_grouping(c, area, m, a);
    return o;
}

/* P1 bit 8 asks for the end. */
static enum outcome judge_end(const struct card *c)
{
    if (c->open_tag != 0)
        return END_OPEN;
    return (MANDATORY & ~(u32)c->rows) != 0 ? END_MISSING : PASSED;
}

static enum outcome store_data(struct card *c, u8 *area, struct command *m, struct answer *a)
{
    enum outcome o;
    if (!c->selected)
        return STORE_UNSELECTED;
    o = m->length == 0 ? STORE_EMPTY : walk(c, area, m, a);
    if (o == PASSED && (m->p1 & 0x80) != 0) {
        o = judge_end(c);
        if (o == PASSED)
            c->internal = 0xA5;
    }
    if (o != PASSED && c->internal == 0x5A)
        lock(c);
    return o;
}

/* ---------------------------------------------------------------- events (000, 3.5 and 3.7) */

static flag is_name(const struct card *c, const u8 *name, u32 length)
{
    return length == c->name_length && memcmp(c->name, name, length) == 0;
}

/* 6F n+2 84 n name */
static void name_fci(const struct card *c, struct answer *a)
{
    u8 n = c->name_length;
    const u8 head[4] = { 0x6F, (u8)(n + 2), 0x84, n };
    add_answer(a, head, 4);
    add_answer(a, c->name, n);
}

/* 6F L 84 n name A5 16 BF 0C 13 C7 08 serial 53 07 startup, L = n + 26 */
static void full_fci(const struct card *c, struct answer *a)
{
    static const u8 before_serial[7] = { 0xA5, 0x16, 0xBF, 0x0C, 0x13, 0xC7, 0x08 };
    static const u8 before_startup[2] = { 0x53, 0x07 };
    name_fci(c, a);
    a->bytes[1] = (u8)(c->name_length + 26);
    add_answer(a, before_serial, 7);
    add_answer(a, c->serial, 8);
    add_answer(a, before_startup, 2);
    add_answer(a, c->startup, 7);
}

/* In '5A', locked or just locked by such a kind. */
static enum outcome locked_reply(const struct card *c, const u8 *r, struct answer *a)
{
    if (r[0] == DESELECT || r[0] == RESET)
        return NO_WORD;
    if (r[0] != SELECT)
        return LOCKED_ELSE;
    if (!is_name(c, r + 4, r[3]))
        return LOCKED_OTHER;
    name_fci(c, a);
    return LOCKED_NAME;
}

/* Package, module and instance name, each after its length byte, then the fixed bytes. */
static flag install_form(u8 p1, const u8 *d, u32 n, const u8 **name, u8 *length)
{
    static const u8 tail_load[6] = { 0x01, 0x00, 0x02, 0xC9, 0x00, 0x00 };
    static const u8 tail_08[4] = { 0x01, 0x00, 0x00, 0x00 };
    u32 i, at = 0;
    for (i = 0; i < 3; i++) {
        u8 size;
        if (at >= n)
            return 0;
        size = d[at++];
        if (p1 == 0x08 && i < 2 ? size != 0 : size < 5 || size > 16)
            return 0;
        if (n - at < size)
            return 0;
        *name = d + at;
        *length = size;
        at += size;
    }
    if (p1 == 0x08)
        return n - at == 4 && memcmp(d + at, tail_08, 4) == 0;
    return n - at == 6 && memcmp(d + at, tail_load, 6) == 0;
}

static enum outcome make_selectable(struct card *c, const u8 *name, u8 length)
{
    if (c->gp == 0x00)
        return INSTALL_ABSENT;
    if (!is_name(c, name, length))
        return INSTALL_NAME;
    if (c->gp != 0x03)
        return INSTALL_NOT_03;
    c->gp = 0x07;
    return PASSED;
}

static enum outcome install(struct card *c, u8 *area, u8 p1, const u8 *d, u32 n)
{
    const u8 *name;
    u8 length;
    if (p1 != 0x04 && p1 != 0x08 && p1 != 0x0C)
        return INSTALL_P1;
    if (!install_form(p1, d, n, &name, &length))
        return INSTALL_FORM;
    if (p1 == 0x08)
        return make_selectable(c, name, length);
    if (c->gp != 0x00)
        return INSTALL_PRESENT;
    memset(c->name, 0, sizeof c->name);
    memcpy(c->name, name, length);
    c->name_length = length;
    c->gp = p1 == 0x04 ? 0x03 : 0x07;
    memset(area, 0, AREA);
    return PASSED;
}

static enum outcome select_name(struct card *c, const u8 *name, u32 length, struct answer *a)
{
    if (c->gp != 0x07)
        return SELECT_STATE;
    if (!is_name(c, name, length))
        return SELECT_NAME;
    c->selected = 1;
    if (c->internal == 0xCC) {
        name_fci(c, a);
        return PASSED;
    }
    full_fci(c, a);
    return c->descriptors > 0 && c->table[0][D_STATUS] == 1 ? INVALIDATED : PASSED;
}

static enum outcome lock_event(struct card *c)
{
    if (c->gp == 0x00)
        return LOCK_ABSENT;
    if ((c->gp & 0x80) != 0)
        return LOCK_LOCKED;
    c->gp |= 0x80;
    c->selected = 0;
    return PASSED;
}

static enum outcome unlock_event(struct card *c)
{
    if (c->gp == 0x00)
        return UNLOCK_ABSENT;
    if ((c->gp & 0x80) == 0)
        return UNLOCK_UNLOCKED;
    c->gp &= 0x7F;
    return PASSED;
}

/* One event of a record whose form passed, on a sound card. */
enum outcome event(struct card *c, u8 *area, const u8 *r, struct answer *a)
{
    struct command m = { r + 4, r[3], 0, r[1] };
    if (c->internal == 0x5A && c->gp == 0x07 && r[0] != STORE_DATA)
        lock(c);
    if (c->internal == 0x5A && c->gp == 0x87)
        return locked_reply(c, r, a);
    switch (r[0]) {
    case INSTALL:
        return install(c, area, r[1], r + 4, r[3]);
    case STORE_DATA:
        return store_data(c, area, &m, a);
    case SELECT:
        return select_name(c, r + 4, r[3], a);
    case OTHER:
        return c->selected ? OTHER_SELECTED : OTHER_UNSELECTED;
    case LOCK:
        return lock_event(c);
    case UNLOCK:
        return unlock_event(c);
    default:                    /* DESELECT, RESET */
        c->selected = 0;
        return NO_WORD;
    }
}

/* ---------------------------------------------------------------- numbers that a call returns */

static flag all_zero(const u8 *p, u32 n)
{
    u64 eight, seen = 0;
    for (; n >= 8; n -= 8, p += 8) {
        memcpy(&eight, p, 8);
        seen |= eight;
    }
    for (; n > 0; n--)
        seen |= *p++;
    return seen == 0;
}

/* 4: kind not 1 to 8. 5: a byte that must be zero isn't. */
u32 record_form(const u8 *r)
{
    if (r[0] < INSTALL || r[0] > UNLOCK)
        return 4;
    return all_zero(r + 4 + r[3], RECORD - 4 - (u32)r[3]) ? 0 : 5;
}

/* One event: 1, 2, 6, 3, 4, 5. */
struct step play(struct card *c, u8 *area, u32 area_length, u8 *answer, u32 answer_room,
                 const u8 *record, u32 record_length)
{
    struct step s = { 0, 0x0000, 0 };
    struct answer a = { answer, 0 };
    if (area_length != AREA)
        s.number = 1;
    else if (answer_room < ANSWER)
        s.number = 2;
    else if (!sound(c))
        s.number = 6;
    else if (record_length != RECORD)
        s.number = 3;
    else
        s.number = record_form(record);
    if (s.number != 0)
        return s;
    s.word = word_of(event(c, area, record, &a));
    s.answer_length = a.length;
    return s;
}

/* Session: 1, 6, 3, 11. A record refused by 4 or 5 gets '0000' and the run goes on. */
struct ran run(struct card *c, u8 *area, u32 area_length, const u8 *session, u32 length, u16 *words, u32 room)
{
    struct ran done = { 0, 0 };
    u8 bytes[ANSWER];
    u32 i, records = length / RECORD;
    if (area_length != AREA)
        done.number = 1;
    else if (!sound(c))
        done.number = 6;
    else if (length % RECORD != 0)
        done.number = 3;
    else if (room < records)
        done.number = 11;
    if (done.number != 0)
        return done;
    for (i = 0; i < records; i++) {
        const u8 *r = session + i * RECORD;
        struct answer a = { bytes, 0 };
        words[i] = record_form(r) != 0 ? 0x0000 : word_of(event(c, area, r, &a));
    }
    done.records = records;
    return done;
}

/* Shown record: 1, 6, 8. */
struct part shown(const struct card *c, const u8 *area, u32 area_length, u8 sfi, u8 record)
{
    struct part part = { 0, area, 0 };
    struct place p;
    if (area_length != AREA)
        part.number = 1;
    else if (!sound(c))
        part.number = 6;
    else if (locate(c, sfi, record, &p) != PASSED)
        part.number = 8;
    if (part.number != 0)
        return part;
    part.bytes = area + p.start;
    part.length = p.length;
    return part;
}

/* ---------------------------------------------------------------- the order and its cutting */

/* After '9484', walked uncut by a to h on this chip: why and where it stops. (P1 '00': a query never passes.) */
struct stop walk_order(const u8 *chip, const u8 *order, u32 length)
{
    struct card c;
    u8 bytes[ANSWER];
    struct answer a = { bytes, 0 };
    struct command m = { order, length, 0, 0x00 };
    struct stop s = { PASSED, 0, 0, 0 };
    (void)fresh(&c, chip, CHIP);
    c.gp = 0x07;
    c.selected = 1;
    take_row(&c, 1);
    while (s.why == PASSED && m.at < m.length) {
        s.place = m.at;
        s.why = take_grouping(&c, 0, &m, &a);
    }
    if (s.why == PASSED)
        s.why = judge_end(&c);
    if (s.why == END_MISSING)
        s.place = length;
    if (length - s.place >= 2) {
        s.tagged = 1;
        s.tag = (u16)(order[s.place] << 8 | order[s.place + 1]);
    }
    if (s.why >= T_DF_SFI && s.why <= T_TOTAL)      /* uncut, a descriptor's 18 bytes came together */
        s.place = m.at - DESCRIPTOR;
    return s;
}

/* The card's word; '6A80' for each query in an order. */
u16 stop_word(const struct stop *s)
{
    return s->why == B_P1 ? 0x6A80 : word_of(s->why);
}

enum outcome judge_order(const u8 *chip, const u8 *order, u32 length)
{
    return walk_order(chip, order, length).why;
}

/* The command being packed; without room its records are only counted. */
struct packing { u8 *room; u32 records, used; };

/* The record of the open command; it is begun as one of kind 2 with P1 and P2 '00'. */
static u8 *packed_record(const struct packing *k)
{
    return k->room + (k->records - 1) * RECORD;
}

static void begin_command(struct packing *k)
{
    k->records++;
    k->used = 0;
    if (k->room) {
        memset(packed_record(k), 0, RECORD);
        packed_record(k)[0] = STORE_DATA;
    }
}

/* A command closes only when the next unit doesn't fit in 255. */
static void pack_unit(struct packing *k, const u8 *bytes, u32 n)
{
    if (k->used + n > DATA)
        begin_command(k);
    if (k->room) {
        memcpy(packed_record(k) + 4 + k->used, bytes, n);
        packed_record(k)[3] = (u8)(k->used + n);
    }
    k->used += n;
}

/* Units of one byte, packed a command at a time. */
static void pack_value(struct packing *k, const u8 *bytes, u32 n)
{
    while (n > 0) {
        u32 fits = k->used == DATA ? DATA : DATA - k->used;
        u32 now = least_of(n, fits);
        pack_unit(k, bytes, now);
        bytes += now;
        n -= now;
    }
}

/* Packs a complete order; the number of records. */
static u32 pack_order(const u8 *order, u32 length, u8 *room)
{
    static const u8 query[3] = { 0x94, 0x84, 0x00 };
    struct packing k = { room, 0, 0 };
    struct header h;
    u32 at;
    begin_command(&k);
    pack_unit(&k, query, 3);
    if (room)
        packed_record(&k)[1] = 0x01;
    begin_command(&k);
    for (at = 0; at < length && read_header(order + at, length - at, &h) == PASSED; at += h.size + h.length) {
        if (spans(h.tag)) {
            pack_unit(&k, order + at, h.size);
            pack_value(&k, order + at + h.size, h.length);
        } else {
            pack_unit(&k, order + at, h.size + h.length);
        }
    }
    if (room)
        packed_record(&k)[1] = 0x80;
    return k.records;
}

/* Writer: 7, 9, 10, 11. */
struct ran write_order(const u8 *chip, u32 chip_length, const u8 *order, u32 length, u8 *room, u32 room_length)
{
    struct ran done = { 0, 0 };
    struct card c;
    u32 records;
    if (fresh(&c, chip, chip_length) != 0)
        done.number = 7;
    else if (length > ORDER)
        done.number = 9;
    else if (judge_order(chip, order, length) != PASSED)
        done.number = 10;
    if (done.number != 0)
        return done;
    records = pack_order(order, length, 0);
    if (room_length < records * RECORD) {
        done.number = 11;
        return done;
    }
    done.records = pack_order(order, length, room);
    return done;
}

/* One grouping a pull; where nothing is given the place stays. */
enum pulled pull(struct reader *r, struct grouping *g)
{
    struct header h;
    u32 left;
    if (r->at >= r->length)
        return AT_END;
    left = r->length - r->at;
    if (read_header(r->order + r->at, left, &h) != PASSED || h.length > left - h.size)
        return NOT_WHOLE;
    g->tag = h.tag;
    g->value = r->order + r->at + h.size;
    g->length = h.length;
    r->at += h.size + h.length;
    return PULLED;
}

/* ---------------------------------------------------------------- input and output */

enum { OUTPUT = 65536, RECORDS_AT_ONCE = 252 };

static u8 output[OUTPUT];
static u32 output_used;
static flag output_failed;

static void write_all(int file, const u8 *bytes, u32 n)
{
    while (n > 0 && !output_failed) {
        long written = (long)write(file, bytes, n);
        if (written <= 0) {
            output_failed = 1;
        } else {
            bytes += written;
            n -= (u32)written;
        }
    }
}

/* Writes out what is gathered; whether all output so far was written. */
flag flush(void)
{
    write_all(1, output, output_used);
    output_used = 0;
    return !output_failed;
}

flag output_good(void)
{
    return !output_failed;
}

/* Room for n more bytes of output (n at most OUTPUT). */
u8 *output_room(u32 n)
{
    if (OUTPUT - output_used < n)
        (void)flush();
    output_used += n;
    return output + output_used - n;
}

/* Reads n bytes, or fewer at the end of the input. */
static u32 read_full(u8 *to, u32 n)
{
    u32 have = 0;
    while (have < n) {
        long got = (long)read(0, to + have, n - have);
        if (got <= 0)
            break;
        have += (u32)got;
    }
    return have;
}

void put_char(char c)
{
    *output_room(1) = (u8)c;
}

void put_text(const char *text)
{
    for (; *text != 0; text++)
        put_char(*text);
}

void decimal(u8 *to, u32 count, u32 value)
{
    for (; count > 0; value /= 10)
        to[--count] = (u8)('0' + value % 10);
}

void hexadecimal(u8 *to, u32 count, u32 value)
{
    for (; count > 0; value >>= 4)
        to[--count] = (u8)"0123456789ABCDEF"[value & 15];
}

void put_hex(u32 count, u32 value)
{
    hexadecimal(output_room(count), count, value);
}

void put_decimal(u64 value)
{
    u8 digits[20];
    u32 at = sizeof digits;
    do
        digits[--at] = (u8)('0' + value % 10);
    while ((value /= 10) > 0);
    memcpy(output_room((u32)sizeof digits - at), digits + at, sizeof digits - at);
}

void put_bytes(const u8 *bytes, u32 n)
{
    if (n == 0)
        put_char('-');
    for (; n > 0; n--, bytes++)
        hexadecimal(output_room(2), 2, *bytes);
}

static int finish(void)
{
    return flush() ? 0 : 1;
}

/* ---------------------------------------------------------------- replay, trace */

static u8 area[AREA];
static u8 input[RECORDS_AT_ONCE * RECORD];

/* The input's next whole records; 0 at the end. A torn last record is not an event. */
static u32 next_records(void)
{
    return read_full(input, sizeof input) / RECORD;
}

/* event number, kind, refusal number, word, GP, internal, rows taken */
void replay_line(u8 *line, u64 events, const u8 *record, u32 number, u16 word, const struct card *c)
{
    memset(line, ' ', LINE);
    decimal(line, 5, (u32)(events % 100000));
    decimal(line + 6, 2, record[0] > 99 ? 99 : record[0]);
    decimal(line + 9, 2, number);
    hexadecimal(line + 12, 4, word);
    hexadecimal(line + 17, 2, c->gp);
    hexadecimal(line + 20, 2, c->internal);
    decimal(line + 23, 2, taken(c));
    line[LINE - 1] = '\n';
}

/* END, number of events */
void replay_end(u8 *line, u64 events)
{
    memcpy(line, "END ", 4);
    decimal(line + 4, 5, (u32)(events % 100000));
    line[LAST_LINE - 1] = '\n';
}

static u64 replay_records(struct card *c)
{
    u64 events = 0;
    u8 bytes[ANSWER];
    u32 i, count;
    while ((count = next_records()) > 0)
        for (i = 0; i < count; i++) {
            const u8 *r = input + i * RECORD;
            struct answer a = { bytes, 0 };
            u32 number = record_form(r);
            u16 word = number != 0 ? 0x0000 : word_of(event(c, area, r, &a));
            replay_line(output_room(LINE), ++events, r, number, word, c);
        }
    return events;
}

/* The sum over i of (i + 1) x byte i; at most 2,139,617,280. */
static u32 place_sum(void)
{
    u32 i, sum = 0;
    for (i = 0; i < AREA; i++)
        sum += (i + 1) * area[i];
    return sum;
}

/* AREA, place sum */
static void say_sum(void)
{
    u8 line[SUM_LINE];
    memcpy(line, "AREA ", 5);
    decimal(line + 5, 10, place_sum());
    line[SUM_LINE - 1] = '\n';
    write_all(2, line, SUM_LINE);
}

static int replay(flag sum)
{
    struct card c;
    u8 chip[CHIP];
    u64 events = 0;
    u32 length = read_full(chip, CHIP);
    if (fresh(&c, chip, length) == 0)
        events = replay_records(&c);
    replay_end(output_room(LAST_LINE), events);
    if (flush() && sum)
        say_sum();
    return finish();
}

static void trace_open(const struct card *c)
{
    if (c->open_tag == 0) {
        put_text("- -");
        return;
    }
    put_hex(4, c->open_tag);
    put_char(':');
    put_decimal(c->open_count);
    put_char(':');
    put_decimal(c->open_missing);
    put_char(' ');
    put_bytes(c->held, c->open_tag == 0x3100 ? c->open_count : 0);
}

static void trace_facts(const struct card *c)
{
    u32 i;
    put_bytes(c->serial, 8);
    put_char(' ');
    put_bytes(c->startup, 7);
    put_char(' ');
    put_decimal(c->counter);
    for (i = 0; i < SECRETS; i++) {
        put_char(' ');
        put_bytes(c->secrets[i].bytes, c->secrets[i].length);
    }
    put_char(' ');
    put_decimal(c->descriptors);
    put_char(' ');
    put_bytes(c->table[0], (u32)c->descriptors * DESCRIPTOR);
}

static void trace_line(const struct card *c, u32 number, u16 word, const struct answer *a)
{
    put_decimal(number);
    put_char(' ');
    put_hex(4, word);
    put_char(' ');
    put_hex(2, c->gp);
    put_char(' ');
    put_hex(2, c->internal);
    put_text(c->selected ? " 1 " : " 0 ");
    put_bytes(c->name, c->name_length);
    put_char(' ');
    put_hex(4, c->rows);
    put_char(' ');
    put_bytes(a->bytes, a->length);
    put_char(' ');
    trace_facts(c);
    put_char(' ');
    trace_open(c);
    put_char(' ');
    put_hex(8, place_sum());
    put_char('\n');
}

static int trace(void)
{
    struct card c;
    u8 chip[CHIP], bytes[ANSWER];
    u32 i, count, length = read_full(chip, CHIP);
    if (fresh(&c, chip, length) != 0) {
        put_text("REFUSED 07\n");
        return finish();
    }
    while ((count = next_records()) > 0)
        for (i = 0; i < count; i++) {
            const u8 *r = input + i * RECORD;
            struct answer a = { bytes, 0 };
            u32 number = record_form(r);
            u16 word = number != 0 ? 0x0000 : word_of(event(&c, area, r, &a));
            trace_line(&c, number, word, &a);
        }
    put_text("AREA ");
    put_bytes(area, AREA);
    put_char('\n');
    return finish();
}

/* ---------------------------------------------------------------- cut, groupings */

static void say(const char *text)
{
    u32 n = 0;
    while (text[n] != 0)
        n++;
    write_all(2, (const u8 *)text, n);
}

static int cut_refused(u32 number)
{
    say(number == 7    ? "cut: refused 07: chip record not 40 bytes, or its last three not zero\n"
        : number == 9  ? "cut: refused 09: order over 8,192 bytes\n"
        : number == 10 ? "cut: refused 10: order not complete for this chip\n"
                       : "cut: refused 11: room for records too short\n");
    return 1;
}

static void set_record(u8 *r, u8 kind, u8 p1, const u8 *data, u8 n)
{
    memset(r, 0, RECORD);
    r[0] = kind;
    r[1] = p1;
    r[3] = n;
    memcpy(r + 4, data, n);
}

/* A job's session: INSTALL '0C', SELECT and the writer's records, into room for SESSION of them. */
struct ran cut_job(const u8 *job, u32 length, u8 *room)
{
    static const u8 names[33] = {
        8, 0x31, 0x54, 0x49, 0x43, 0x2E, 0x50, 0x4B, 0x47, 8, 0x31, 0x54, 0x49, 0x43, 0x2E, 0x4D, 0x4F, 0x44,
        8, 0x31, 0x54, 0x49, 0x43, 0x2E, 0x49, 0x43, 0x41, 0x01, 0x00, 0x02, 0xC9, 0x00, 0x00
    };
    u32 order = length < CHIP ? 0 : length - CHIP;
    struct ran done = write_order(job, length - order, job + CHIP, order, room + 2 * RECORD, (SESSION - 2) * RECORD);
    if (done.number != 0)
        return done;
    set_record(room, INSTALL, 0x0C, names, 33);
    set_record(room + RECORD, SELECT, 0x04, names + 19, 8);
    done.records += 2;
    return done;
}

static int cut(void)
{
    static u8 job[JOB + 1], room[SESSION * RECORD];
    struct ran done = cut_job(job, read_full(job, sizeof job), room);
    if (done.number != 0)
        return cut_refused(done.number);
    memcpy(output_room(CHIP), job, CHIP);
    memcpy(output_room(done.records * RECORD), room, done.records * RECORD);
    return finish();
}

/* The longest grouping is 5 + 65,534 bytes: with this many ready, "not whole" is final. */
enum { LONGEST = 65539, WINDOW = 2 * LONGEST };

static int groupings(void)
{
    static u8 window[WINDOW];
    struct reader r = { window, 0, 0 };
    struct grouping g;
    enum pulled p;
    flag ended = 0;
    do {
        if (!ended && r.length - r.at < LONGEST) {
            u32 left = r.length - r.at, i;
            for (i = 0; i < left; i++)
                window[i] = window[r.at + i];
            r.at = 0;
            r.length = left + read_full(window + left, WINDOW - left);
            ended = r.length < WINDOW;
        }
        p = pull(&r, &g);
        if (p == PULLED) {
            put_hex(4, g.tag);
            put_char(' ');
            put_bytes(g.value, g.length);
            put_char('\n');
        }
    } while (p == PULLED);
    put_text(p == AT_END ? "end\n" : "torn\n");
    return finish();
}

/* ---------------------------------------------------------------- main */

static flag same_text(const char *a, const char *b)
{
    for (; *a != 0 && *a == *b; a++, b++)
        continue;
    return *a == *b;
}

/* The modes over standard input, with the word behind the mode, or none; -1 for any other. */
int run_mode(const char *mode, const char *word)
{
    if (same_text(mode, "replay") && (!word || same_text(word, "--sum")))
        return replay(word != 0);
    if (word)
        return -1;
    if (same_text(mode, "trace"))
        return trace();
    if (same_text(mode, "cut"))
        return cut();
    if (same_text(mode, "groupings"))
        return groupings();
    return -1;
}

#ifndef FREESTANDING
/* lot.c, jobs.c, calls.c and generate_calls.c give these modes. A build of this file without those has none. */
__attribute__((weak)) int lot(int argc, char **argv)
{
    (void)argc;
    (void)argv;
    return -1;
}

__attribute__((weak)) int lotjobs(int argc, char **argv)
{
    (void)argc;
    (void)argv;
    return -1;
}

__attribute__((weak)) int realjobs(int argc, char **argv)
{
    (void)argc;
    (void)argv;
    return -1;
}

__attribute__((weak)) int calls(int argc, char **argv)
{
    (void)argc;
    (void)argv;
    return -1;
}

__attribute__((weak)) int generatecalls(int argc, char **argv)
{
    (void)argc;
    (void)argv;
    return -1;
}

static int file_mode(const char *mode, int argc, char **argv)
{
    if (same_text(mode, "lot"))
        return lot(argc, argv);
    if (same_text(mode, "lotjobs"))
        return lotjobs(argc, argv);
    if (same_text(mode, "realjobs"))
        return realjobs(argc, argv);
    if (same_text(mode, "calls"))
        return calls(argc, argv);
    if (same_text(mode, "generatecalls"))
        return generatecalls(argc, argv);
    return -1;
}
#endif

int main(int argc, char **argv)
{
    const char *mode = argc > 1 ? argv[1] : "";
    int status = argc > 3 ? -1 : run_mode(mode, argc > 2 ? argv[2] : 0);
    if (status >= 0)
        return status;
#ifndef FREESTANDING
    if ((status = file_mode(mode, argc, argv)) >= 0)
        return status;
    if (same_text(mode, "generate"))
        return generate(argc, argv);
    if (same_text(mode, "big"))
        return big(argc, argv);
    if (same_text(mode, "selftest"))
        return selftest();
#endif
    say("usage: second replay [--sum] | trace | cut | groupings | lot [-0] [--resume] [--part K/N] OUT |\n"
        "       generate SEED COUNT [DIR] | big SEED EVENTS | lotjobs SEED COUNT FOLDER |\n"
        "       realjobs SEED COUNT FOLDER [text] | calls | generatecalls SEED COUNT FILE | selftest\n");
    return 2;
}

#ifdef FREESTANDING
__asm__(".globl _start\n_start:\n\txor %ebp, %ebp\n\tmov %rsp, %rdi\n\tand $-16, %rsp\n\tcall started\n");

void started(long *stack)
{
    system_call(60, main((int)stack[0], (char **)(stack + 1)), 0, 0);
    for (;;)
        continue;
}
#endif
