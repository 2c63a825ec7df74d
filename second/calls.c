/* calls.c: the paper's calls in a stored form (docs/CALLS.md).
 *   second calls     reads calls from standard input, makes each, and prints a line for each
 * Decided here, where the form leaves a point open:
 *  - "None" of an open value is printed as 00, whatever byte it came as.
 *  - The number that is said of what is no call counts from 1.
 *  - A card whose numbers are wider than the model's struct card is not sound: see narrow(). */
#define _POSIX_C_SOURCE 200809L
#include <errno.h>
#include <signal.h>
#include <stddef.h>
#include <stdio.h>
#include <string.h>
#include <unistd.h>
#include "calls.h"

enum { IN_FULL = 64 };          /* memory of at most these bytes is printed byte for byte */

/* ---------------------------------------------------------------- numbers, parts */

u64 number_at(const u8 *from, u32 n)
{
    u64 value = 0;
    for (; n > 0; n--)
        value = value << 8 | *from++;
    return value;
}

void set_number(u8 *to, u32 n, u64 value)
{
    for (; n > 0; value >>= 8)
        to[--n] = (u8)value;
}

static const u8 parts_of[WHICH_END][5] = {
    [PLAY] = { P_CARD, P_AREA, P_ANSWER, P_RECORD },
    [RUN] = { P_CARD, P_AREA, P_SESSION, P_WORDS },
    [SHOW] = { P_CARD, P_AREA, P_FILE },
    [COUNT] = { P_ROWS },
    [FRESH] = { P_CHIP },
    [WRITE] = { P_CHIP, P_ORDER, P_ROOM },
    [PULL] = { P_ORDER, P_PLACE },
};

/* Parts that have no length before them. */
static const struct { size_t at; u32 size; } fixed_parts[] = {
    [P_CARD - LENT_END] = { offsetof(struct call, card), CARD },
    [P_FILE - LENT_END] = { offsetof(struct call, file), 2 },
    [P_ROWS - LENT_END] = { offsetof(struct call, rows), 2 },
    [P_PLACE - LENT_END] = { offsetof(struct call, place), 8 },
};

static u32 unit_of(u32 part)
{
    return part == P_WORDS ? 2 : 1;
}

/* The call's bytes, into room for LONGEST_CALL; how many. */
u32 store_call(const struct call *k, u8 *to)
{
    const u8 *part = parts_of[k->which], *bytes;
    u32 n = 0, size;
    to[n++] = k->which;
    for (; *part != NO_PART; part++) {
        if (*part < LENT_END) {
            bytes = k->lent[*part].bytes;
            size = k->lent[*part].length;
            set_number(to + n, 2, size / unit_of(*part));
            n += 2;
        } else {
            bytes = (const u8 *)k + fixed_parts[*part - LENT_END].at;
            size = fixed_parts[*part - LENT_END].size;
        }
        memcpy(to + n, bytes, size);
        n += size;
    }
    return n;
}

/* ---------------------------------------------------------------- cards */

static flag is_open(const u8 *card)
{
    return card[C_OPEN] == OPEN_TABLE || card[C_OPEN] == OPEN_RECORD;
}

static const u8 *secret_at(const u8 *card, u32 i)
{
    return card + C_SECRETS + i * C_SECRET_SIZE;
}

/* Whether the model can hold this card's numbers. One that it can't hold is not sound: a name is at most 16, a secret
 * 64, the table 31, an open value 4,096; and rule e passes no tag but '0100' to '1EFF', for no other SFI is listed. */
static flag narrow(const u8 *card)
{
    u64 tag = number_at(card + C_OPEN_TAG, 2);
    u32 i;
    for (i = 0; i < SECRETS; i++)
        if (number_at(secret_at(card, i) + SECRET, 8) > 0xFF)
            return 0;
    if (is_open(card) && (number_at(card + C_OPEN_COUNT, 8) > 0xFFFFFFFF ||
                          number_at(card + C_OPEN_MISSING, 8) > 0xFFFFFFFF))
        return 0;
    if (card[C_OPEN] == OPEN_RECORD && (tag < 0x0100 || tag > 0x1EFF))
        return 0;
    return number_at(card + C_NAME_LENGTH, 8) <= 0xFF && number_at(card + C_DESCRIPTORS, 8) <= 0xFF;
}

static void load_open(struct card *c, const u8 *from)
{
    memcpy(c->held, from + C_HELD, DESCRIPTOR);
    if (!is_open(from))
        return;
    c->open_tag = (u16)(from[C_OPEN] == OPEN_TABLE ? 0x3100 : number_at(from + C_OPEN_TAG, 2));
    c->open_count = (u32)number_at(from + C_OPEN_COUNT, 8);
    c->open_missing = (u32)number_at(from + C_OPEN_MISSING, 8);
}

/* The card in the model's form. For one that the model can't hold another that is not sound stands in. */
void load_card(struct card *c, const u8 *from)
{
    u32 i;
    memset(c, 0, sizeof *c);
    c->gp = 0x01;
    if (!narrow(from))
        return;
    memcpy(c->reference, from + C_REFERENCE, 4);
    memcpy(c->challenge, from + C_CHALLENGE, 16);
    memcpy(c->traceability, from + C_TRACEABILITY, 16);
    c->capacity = from[C_CAPACITY];
    c->gp = from[C_GP];
    c->selected = from[C_SELECTED] != 0;
    memcpy(c->name, from + C_NAME, 16);
    c->name_length = (u8)number_at(from + C_NAME_LENGTH, 8);
    c->internal = from[C_INTERNAL];
    c->rows = (u16)number_at(from + C_ROWS, 2);
    c->last_tag = (u16)number_at(from + C_LAST_TAG, 2);
    load_open(c, from);
    memcpy(c->table, from + C_TABLE, TABLE * DESCRIPTOR);
    c->descriptors = (u8)number_at(from + C_DESCRIPTORS, 8);
    memcpy(c->serial, from + C_SERIAL, 8);
    memcpy(c->startup, from + C_STARTUP, 7);
    c->counter = (u32)number_at(from + C_COUNTER, 4);
    for (i = 0; i < SECRETS; i++) {
        memcpy(c->secrets[i].bytes, secret_at(from, i), SECRET);
        c->secrets[i].length = (u8)number_at(secret_at(from, i) + SECRET, 8);
    }
}

static void store_open(u8 *to, const struct card *c)
{
    to[C_OPEN] = c->open_tag == 0 ? 0 : c->open_tag == 0x3100 ? OPEN_TABLE : OPEN_RECORD;
    set_number(to + C_OPEN_TAG, 2, c->open_tag == 0x3100 ? 0 : c->open_tag);
    set_number(to + C_OPEN_COUNT, 8, c->open_count);
    set_number(to + C_OPEN_MISSING, 8, c->open_missing);
    memcpy(to + C_HELD, c->held, DESCRIPTOR);
}

void store_card(u8 *to, const struct card *c)
{
    u32 i;
    memcpy(to + C_REFERENCE, c->reference, 4);
    memcpy(to + C_CHALLENGE, c->challenge, 16);
    memcpy(to + C_TRACEABILITY, c->traceability, 16);
    to[C_CAPACITY] = c->capacity;
    to[C_GP] = c->gp;
    to[C_SELECTED] = c->selected;
    memcpy(to + C_NAME, c->name, 16);
    set_number(to + C_NAME_LENGTH, 8, c->name_length);
    to[C_INTERNAL] = c->internal;
    set_number(to + C_ROWS, 2, c->rows);
    set_number(to + C_LAST_TAG, 2, c->last_tag);
    store_open(to, c);
    memcpy(to + C_TABLE, c->table, TABLE * DESCRIPTOR);
    set_number(to + C_DESCRIPTORS, 8, c->descriptors);
    memcpy(to + C_SERIAL, c->serial, 8);
    memcpy(to + C_STARTUP, c->startup, 7);
    set_number(to + C_COUNTER, 4, c->counter);
    for (i = 0; i < SECRETS; i++) {
        u8 *s = to + C_SECRETS + i * C_SECRET_SIZE;
        memcpy(s, c->secrets[i].bytes, SECRET);
        set_number(s + SECRET, 8, c->secrets[i].length);
    }
}

/* The card as given, in the form in which it is printed. */
void normalise_card(u8 *bytes)
{
    bytes[C_SELECTED] = bytes[C_SELECTED] != 0;
    if (!is_open(bytes))
        memset(bytes + C_OPEN, 0, C_HELD - C_OPEN);
    if (bytes[C_OPEN] == OPEN_TABLE)
        set_number(bytes + C_OPEN_TAG, 2, 0);
}

/* The card afterwards; on a refusal it is the one given. */
static void keep_card(struct call *k, const struct card *c, u32 number)
{
    if (number == 0)
        store_card(k->card, c);
    else
        normalise_card(k->card);
}

/* ---------------------------------------------------------------- the calls */

static void make_play(struct call *k, struct result *r)
{
    struct memory *area = &k->lent[P_AREA], *answer = &k->lent[P_ANSWER], *record = &k->lent[P_RECORD];
    struct card c;
    struct step s;
    load_card(&c, k->card);
    s = play(&c, area->bytes, area->length, answer->bytes, answer->length, record->bytes, record->length);
    r->number = s.number;
    r->word = s.word;
    r->count = s.answer_length;
    keep_card(k, &c, s.number);
}

static void make_run(struct call *k, struct result *r)
{
    struct memory *area = &k->lent[P_AREA], *session = &k->lent[P_SESSION], *lent = &k->lent[P_WORDS];
    u32 i, room = lent->length / 2;
    u16 words[WORDS];
    struct card c;
    struct ran done;
    load_card(&c, k->card);
    for (i = 0; i < room; i++)
        words[i] = (u16)number_at(lent->bytes + 2 * i, 2);
    done = run(&c, area->bytes, area->length, session->bytes, session->length, words, room);
    for (i = 0; i < room; i++)
        set_number(lent->bytes + 2 * i, 2, words[i]);
    r->number = done.number;
    r->count = done.records;
    keep_card(k, &c, done.number);
}

static void make_shown(struct call *k, struct result *r)
{
    struct memory *area = &k->lent[P_AREA];
    struct card c;
    struct part p;
    load_card(&c, k->card);
    p = shown(&c, area->bytes, area->length, k->file[0], k->file[1]);
    r->number = p.number;
    if (p.number != 0)
        return;
    r->place = (u64)(p.bytes - area->bytes);
    r->part = p.bytes;
    r->length = p.length;
}

static void make_count(struct call *k, struct result *r)
{
    struct card c;
    memset(&c, 0, sizeof c);
    c.rows = (u16)number_at(k->rows, 2);
    r->count = taken(&c);
}

static void make_fresh(struct call *k, struct result *r)
{
    struct card c;
    r->number = fresh(&c, k->lent[P_CHIP].bytes, k->lent[P_CHIP].length);
    store_card(k->card, &c);            /* a refusal, too, gives a card */
}

static void make_write(struct call *k, struct result *r)
{
    struct memory *chip = &k->lent[P_CHIP], *order = &k->lent[P_ORDER], *room = &k->lent[P_ROOM];
    struct ran done = write_order(chip->bytes, chip->length, order->bytes, order->length, room->bytes, room->length);
    r->number = done.number;
    r->count = done.records;
}

/* The model's reader has a narrow place; a wider one is past the end of every order. */
static void make_pull(struct call *k, struct result *r)
{
    struct memory *order = &k->lent[P_ORDER];
    struct reader reader = { order->bytes, order->length, 0 };
    struct grouping g;
    r->next = number_at(k->place, 8);
    r->ending = AT_END;
    if (r->next < order->length) {
        reader.at = (u32)r->next;
        r->ending = pull(&reader, &g);
    }
    if (r->ending != PULLED)
        return;
    r->tag = g.tag;
    r->place = (u64)(g.value - order->bytes);
    r->next = reader.at;
    r->part = g.value;
    r->length = g.length;
}

void make_call(struct call *k, struct result *r)
{
    static void (*const makers[WHICH_END])(struct call *, struct result *) = {
        [PLAY] = make_play, [RUN] = make_run, [SHOW] = make_shown, [COUNT] = make_count,
        [FRESH] = make_fresh, [WRITE] = make_write, [PULL] = make_pull,
    };
    memset(r, 0, sizeof *r);
    makers[k->which](k, r);
}

/* ---------------------------------------------------------------- a call's line */

static void put_number(u64 value)
{
    put_char(' ');
    put_decimal(value);
}

static void put_four(u16 value)
{
    put_char(' ');
    put_hex(4, value);
}

static void put_memory(const u8 *bytes, u32 n)
{
    u64 sum = 0;
    u32 i;
    put_char(' ');
    if (n <= IN_FULL) {
        put_bytes(bytes, n);
        return;
    }
    for (i = 0; i < n; i++)
        sum += (u64)(i + 1) * bytes[i];
    put_decimal(n);
    put_char(':');
    put_decimal(sum);
}

static void put_lent(const struct call *k, enum part_name part)
{
    put_memory(k->lent[part].bytes, k->lent[part].length);
}

static void put_card(const struct call *k)
{
    put_char(' ');
    put_bytes(k->card, CARD);
}

static void put_pull(const struct result *r)
{
    put_number((u64)r->ending);
    put_four(r->tag);
    put_number(r->place);
    put_number(r->next);
    put_memory(r->part, r->length);
}

static void put_call(const struct call *k, const struct result *r)
{
    static const char *const names[WHICH_END] = { "", "play", "run", "shown", "count", "fresh", "write", "pull" };
    put_text(names[k->which]);
    if (k->which != COUNT && k->which != PULL)
        put_number(r->number);
    if (k->which == PLAY)
        put_four(r->word);
    if (k->which == PLAY || k->which == RUN || k->which == COUNT || k->which == WRITE)
        put_number(r->count);
    if (k->which == PLAY || k->which == RUN || k->which == FRESH)
        put_card(k);
    if (k->which == PLAY || k->which == RUN)
        put_lent(k, P_AREA);
    if (k->which == PLAY)
        put_lent(k, P_ANSWER);
    if (k->which == RUN)
        put_lent(k, P_WORDS);
    if (k->which == WRITE)
        put_lent(k, P_ROOM);
    if (k->which == SHOW) {
        put_number(r->place);
        put_memory(r->part, r->length);
    }
    if (k->which == PULL)
        put_pull(r);
    put_char('\n');
}

/* ---------------------------------------------------------------- reading */

enum { READ_AT_ONCE = 65536 };

enum got { A_CALL, NO_MORE, NO_CALL, UNREAD };

static u8 buffer[READ_AT_ONCE];
static u32 buffer_used, buffer_length;
static int read_error;

/* More of the input in an empty buffer; 0 at its end, and where it can't be read. */
static flag read_more(void)
{
    long got;
    do
        got = (long)read(0, buffer, sizeof buffer);
    while (got < 0 && errno == EINTR);
    read_error = got < 0 ? errno : 0;
    buffer_used = 0;
    buffer_length = got < 0 ? 0 : (u32)got;
    return got > 0;
}

/* The next n bytes; 0 if there are fewer. */
static flag take(u8 *to, u32 n)
{
    while (n > 0) {
        u32 now = buffer_length - buffer_used;
        if (now == 0) {
            if (!read_more())
                return 0;
            continue;
        }
        now = now < n ? now : n;
        memcpy(to, buffer + buffer_used, now);
        buffer_used += now;
        to += now;
        n -= now;
    }
    return 1;
}

static flag read_part(struct call *k, u32 part)
{
    u32 size, unit = unit_of(part);
    u8 count[2];
    if (part >= LENT_END)
        return take((u8 *)k + fixed_parts[part - LENT_END].at, fixed_parts[part - LENT_END].size);
    if (!take(count, 2))
        return 0;
    size = (u32)number_at(count, 2);
    if (size > (part == P_WORDS ? WORDS : MEMORY))
        return 0;
    k->lent[part].length = size * unit;
    return take(k->lent[part].bytes, size * unit);
}

static enum got read_call(struct call *k)
{
    const u8 *part;
    if (!take(&k->which, 1))
        return read_error != 0 ? UNREAD : NO_MORE;
    if (k->which < PLAY || k->which >= WHICH_END)
        return NO_CALL;
    for (part = parts_of[k->which]; *part != NO_PART; part++)
        if (!read_part(k, *part))
            return read_error != 0 ? UNREAD : NO_CALL;
    return A_CALL;
}

/* ---------------------------------------------------------------- the mode */

static int unwritten(void)
{
    fprintf(stderr, "calls: standard output cannot be written\n");
    return 2;
}

static int calls_end(enum got last, u64 count)
{
    if (last == NO_MORE) {
        put_text("END");
        put_number(count);
        put_char('\n');
    }
    if (!flush())
        return unwritten();
    if (last == NO_CALL)
        fprintf(stderr, "calls: number %llu is no call\n", count + 1);
    if (last == UNREAD)
        fprintf(stderr, "calls: standard input cannot be read: %s\n", strerror(read_error));
    return last == NO_MORE ? 0 : 2;
}

int calls(int argc, char **argv)
{
    static struct call k;
    struct result r;
    u64 count = 0;
    enum got last;
    (void)argv;
    if (argc != 2) {
        fprintf(stderr, "usage: second calls\n");
        return 2;
    }
    (void)signal(SIGPIPE, SIG_IGN);             /* so that a closed pipe is a failed write */
    while ((last = read_call(&k)) == A_CALL) {
        make_call(&k, &r);
        put_call(&k, &r);
        count++;
        if (!output_good())
            return unwritten();
    }
    return calls_end(last, count);
}
