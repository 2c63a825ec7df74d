/* lot.c: many jobs in one run, and jobs as text.
 *   second lot [-0] [--resume] [--part K/N] OUT    names of jobs on standard input, registers into OUT, a line a job
 *
 * Decided here, where the task leaves a point open:
 *  - A text is read to its end or its first fault: a fault wins over numbers 7, 9 and 10 wherever it stands.
 *  - Of a job as bytes no more than byte 8,193 of its order is read, as by cut.
 *  - Empty names have no number, so --part doesn't count them. A name with a zero byte in it cannot be read.
 *  - BASE is what stands before the last dot of the last component, and may be empty (".txt").
 *  - The size total is one of the file table's rules: where it is over, the place is the descriptor's.
 *  - A register of an earlier run that stands and cannot be removed makes its job "not done".
 *  - A register of an earlier run is removed wherever the job's line does not say 0.
 *  - A register of 65,536 bytes or more is not whole: no job has that many events.
 *  - OUT that isn't a folder, or names that cannot be read: a line on standard error, exit 2, and no END.
 *  - The lines are written out whenever more names must be read.
 */
#define _GNU_SOURCE         /* O_PATH */
#include <errno.h>
#include <fcntl.h>
#include <signal.h>
#include <stdio.h>
#include <stdlib.h>
#include <string.h>
#include <unistd.h>
#include "second.h"

/* ---------------------------------------------------------------- a job as text */

enum { START, MARK_1, MARK_2, BETWEEN, HALF, COMMENT };         /* where the text is */
enum { STRANGE, BLANK, LINE_FEED, HASH, DIGIT = 0x80 };         /* a character's class; a digit has its value too */

static const u8 classes[256] = {
    [' '] = BLANK, ['\t'] = BLANK, ['\r'] = BLANK, ['\n'] = LINE_FEED, ['#'] = HASH,
    ['0'] = 0x80, ['1'] = 0x81, ['2'] = 0x82, ['3'] = 0x83, ['4'] = 0x84,
    ['5'] = 0x85, ['6'] = 0x86, ['7'] = 0x87, ['8'] = 0x88, ['9'] = 0x89,
    ['A'] = 0x8A, ['B'] = 0x8B, ['C'] = 0x8C, ['D'] = 0x8D, ['E'] = 0x8E, ['F'] = 0x8F,
    ['a'] = 0x8A, ['b'] = 0x8B, ['c'] = 0x8C, ['d'] = 0x8D, ['e'] = 0x8E, ['f'] = 0x8F,
};

void begin_text(struct text *t)
{
    memset(t, 0, sizeof *t);
    t->line = 1;
    t->state = START;
}

static flag fault(struct text *t, u32 kind, u64 at)
{
    t->kind = kind;
    t->fault_at = at;
    t->fault_line = t->line;
    t->fault_column = at - t->from + 1;
    return 0;
}

/* Whole pairs and the blanks between them; how far. */
static u32 read_pairs(struct text *t, const u8 *bytes, u32 n, u8 *job)
{
    u64 length = t->length;
    u32 i = 0;
    while (n - i >= 2) {
        u32 high = classes[bytes[i]], low = classes[bytes[i + 1]];
        if (high & low & DIGIT) {
            if (length <= JOB)
                job[length] = (u8)(high << 4 | (low & 15));
            length++;
            i += 2;
        } else if (high == BLANK) {
            i++;
        } else {
            break;
        }
    }
    t->length = length;
    return i;
}

/* One character at this place. */
static flag read_character(struct text *t, u8 b, u64 at, u8 *job)
{
    u32 c = classes[b];
    if (t->state == MARK_1 || t->state == MARK_2) {
        if (b != (t->state == MARK_1 ? 0xBB : 0xBF))
            return fault(t, 1, 0);
        t->from = t->state == MARK_1 ? 0 : 3;
        t->state = t->state == MARK_1 ? MARK_2 : BETWEEN;
        return 1;
    }
    if (t->state == HALF) {
        const u8 pair[2] = { (u8)t->high, b };
        if (c < DIGIT)
            return c == STRANGE ? fault(t, 1, at) : fault(t, 2, at - 1);
        (void)read_pairs(t, pair, 2, job);
        t->state = BETWEEN;
        return 1;
    }
    if (c == STRANGE && !(t->state == START && b == 0xEF))
        return fault(t, 1, at);
    t->high = b;
    t->state = c == STRANGE ? MARK_1 : c >= DIGIT ? HALF : c == HASH ? COMMENT : BETWEEN;
    if (c == LINE_FEED) {
        t->line++;
        t->from = at + 1;
    }
    return 1;
}

/* Reads on; 0 at the first fault. */
flag read_text(struct text *t, const u8 *bytes, u32 n, u8 *job)
{
    u64 first = t->at;
    u32 i = 0;
    t->at += n;
    while (i < n) {
        if (t->state == BETWEEN && (i += read_pairs(t, bytes + i, n - i, job)) == n)
            break;
        if (t->state == COMMENT) {
            const u8 *end = memchr(bytes + i, '\n', n - i);
            if (!end)
                break;
            i = (u32)(end - bytes);
            t->state = BETWEEN;
        }
        if (!read_character(t, bytes[i], first + i, job))
            return 0;
        i++;
    }
    return 1;
}

/* The text's end: no half of a byte, no half of a mark. */
flag end_text(struct text *t)
{
    if (t->state == HALF)
        return fault(t, 2, t->at - 1);
    return t->state == MARK_1 || t->state == MARK_2 ? fault(t, 1, 0) : 1;
}

/* ---------------------------------------------------------------- files */

enum { READ_AT_ONCE = 65536, LONGEST_BASE = 4000, SHOWN = 1000 };

static u8 buffer[READ_AT_ONCE];

/* Reads n bytes, or fewer at the file's end; -1 on an error. */
static long read_some(int file, u8 *to, u32 n)
{
    u32 have = 0;
    while (have < n) {
        long got = (long)read(file, to + have, n - have);
        if (got < 0 && errno == EINTR)
            continue;
        if (got < 0)
            return -1;
        if (got == 0)
            break;
        have += (u32)got;
    }
    return (long)have;
}

static flag write_some(int file, const u8 *bytes, u32 n)
{
    while (n > 0) {
        long written = (long)write(file, bytes, n);
        if (written < 0 && errno == EINTR)
            continue;
        if (written <= 0)
            return 0;
        bytes += written;
        n -= (u32)written;
    }
    return 1;
}

/* ---------------------------------------------------------------- one job */

static struct {
    int out;                                /* the folder OUT */
    u8 end;                                 /* what ends a name */
    flag resume;
    u64 part, parts;
    u64 jobs, loaded, refused, undone;
} whole;

/* The job at hand. */
static const char *name;
static u64 name_length;
static char kept[LONGEST_BASE + 20], partial[LONGEST_BASE + 20];        /* its register, whole and not yet */
static u8 job[JOB + 1];
static u32 job_length;

static void show_name(u8 *to, u64 n)
{
    u64 i;
    for (i = 0; i < n; i++)
        to[i] = (u8)name[i] < 0x20 || name[i] == 0x7F ? '?' : (u8)name[i];
}

static void complain(const char *what)
{
    u8 text[SHOWN];
    int error = errno, n = (int)(name_length < SHOWN ? name_length : SHOWN);
    show_name(text, (u64)n);
    fprintf(stderr, "lot: %.*s: %s: %s\n", n, (const char *)text, what, strerror(error));
}

/* BASE.register and .BASE.register.part. (A BASE of 4,000 bytes is too long for any file, and stays so when cut.) */
static void name_register(void)
{
    u64 from = name_length, to = name_length, n;
    while (from > 0 && name[from - 1] != '/')
        from--;
    while (to > from && name[to - 1] != '.')
        to--;
    n = (to > from ? to - 1 : name_length) - from;
    if (n > LONGEST_BASE)
        n = LONGEST_BASE;
    partial[0] = '.';
    memcpy(kept, name + from, n);
    memcpy(partial + 1, name + from, n);
    memcpy(kept + n, ".register", 10);
    memcpy(partial + 1 + n, ".register.part", 15);
}

/* The events of a register that stands and is whole; 0 if it doesn't or isn't. */
static u32 kept_events(void)
{
    u8 last[LAST_LINE];
    const u8 *line = buffer;
    long length;
    u32 events, i;
    int file = openat(whole.out, kept, O_RDONLY | O_CLOEXEC);
    if (file < 0)
        return 0;
    length = read_some(file, buffer, sizeof buffer);
    (void)close(file);
    if (length < LINE + LAST_LINE || length == (long)sizeof buffer || (length - LAST_LINE) % LINE != 0)
        return 0;
    events = (u32)(length - LAST_LINE) / LINE;
    for (i = 0; i < events; i++, line += LINE)
        if (memchr(line, '\n', LINE) != line + LINE - 1)
            return 0;
    replay_end(last, events);
    return memcmp(line, last, LAST_LINE) == 0 && memcmp(line - LINE + 12, "9000 07 A5", 10) == 0 ? events : 0;
}

/* A register of an earlier run is removed; 0 if it stands and stays. */
static flag remove_register(void)
{
    if (unlinkat(whole.out, kept, 0) == 0 || errno == ENOENT || errno == ENAMETOOLONG)
        return 1;
    complain("the register of an earlier run cannot be removed");
    return 0;
}

static flag write_register(const u8 *bytes, u32 n)
{
    int file = openat(whole.out, partial, O_WRONLY | O_CREAT | O_TRUNC | O_CLOEXEC, 0666);
    flag good = file >= 0;
    int error = errno;
    if (good) {
        good = write_some(file, bytes, n);
        error = errno;
        if (close(file) != 0 && good) {
            good = 0;
            error = errno;
        }
        if (good && renameat(whole.out, partial, whole.out, kept) != 0) {
            good = 0;
            error = errno;
        }
        if (!good)
            (void)unlinkat(whole.out, partial, 0);
    }
    errno = error;
    if (!good)
        complain("the register cannot be written");
    return good;
}

/* Plays INSTALL, SELECT and the commands on a fresh card; what replay prints. */
static u32 play_session(const u8 *records, u32 count, struct card *c, u8 *text)
{
    static u8 area[AREA];
    u8 bytes[ANSWER];
    u32 i;
    (void)fresh(c, job, CHIP);
    for (i = 0; i < count; i++) {
        const u8 *r = records + i * RECORD;
        struct answer a = { bytes, 0 };
        u16 word = word_of(event(c, area, r, &a));      /* the writer's records have a right form */
        replay_line(text + i * LINE, i + 1, r, 0, word, c);
    }
    replay_end(text + count * LINE, count);
    return count * LINE + LAST_LINE;
}

/* ---------------------------------------------------------------- a job's line */

static void put_name(void)
{
    if (name_length <= SHOWN) {
        show_name(output_room((u32)name_length), name_length);
    } else {
        u64 i;
        for (i = 0; i < name_length; i++)
            put_char((u8)name[i] < 0x20 || name[i] == 0x7F ? '?' : name[i]);
    }
    put_char('\t');
}

static void line_loaded(u32 gp, u32 internal, u32 events, const u8 *serial)
{
    whole.loaded++;
    put_name();
    put_text("0\t");
    put_hex(2, gp);
    put_char('\t');
    put_hex(2, internal);
    put_char('\t');
    put_decimal(events);
    put_char('\t');
    put_bytes(serial, serial ? 8 : 0);
    put_text("\t-\t-\t-\n");
}

static void line_refused(u32 number)
{
    whole.refused++;
    put_name();
    put_decimal(number);
    put_text("\t-\t-\t0\t-\t");
    if (number == 10) {
        struct stop s = walk_order(job, job + CHIP, job_length - CHIP);
        put_decimal(s.place);
        put_char('\t');
        if (s.tagged)
            put_hex(4, s.tag);
        else
            put_char('-');
        put_char('\t');
        put_hex(4, stop_word(&s));
        put_char('\n');
    } else {
        put_text("-\t-\t-\n");
    }
}

/* Not done: a text that is wrong, or a file that cannot be read or written. */
static void line_undone(const struct text *t)
{
    whole.undone++;
    put_name();
    put_text("-\t-\t-\t0\t-\t");
    if (t) {
        put_decimal(t->fault_line);
        put_char(':');
        put_decimal(t->fault_column);
    } else {
        put_char('-');
    }
    put_text("\t-\t-\n");
}

/* ---------------------------------------------------------------- the job done */

enum got { GOT, UNREAD, WRONG };

static enum got read_job(int file, flag is_text, struct text *t)
{
    long got;
    if (!is_text) {
        got = read_some(file, job, sizeof job);
        job_length = (u32)got;
        return got < 0 ? UNREAD : GOT;
    }
    begin_text(t);
    do {
        got = read_some(file, buffer, sizeof buffer);
        if (got < 0)
            return UNREAD;
        if (!read_text(t, buffer, (u32)got, job))
            return WRONG;
    } while (got == (long)sizeof buffer);
    job_length = t->length > JOB ? JOB + 1 : (u32)t->length;
    return end_text(t) ? GOT : WRONG;
}

static enum got open_job(struct text *t)
{
    flag is_text = name_length >= 4 && memcmp(name + name_length - 4, ".txt", 4) == 0;
    int file = open(name, O_RDONLY | O_CLOEXEC);
    enum got g = UNREAD;
    if (file >= 0) {
        int error;
        g = read_job(file, is_text, t);
        error = errno;
        (void)close(file);
        errno = error;
    }
    if (g == UNREAD)
        complain("the job cannot be read");
    return g;
}

static void do_job(void)
{
    static u8 records[SESSION * RECORD], text[SESSION * LINE + LAST_LINE];
    struct text t;
    struct card c;
    struct ran done;
    enum got g;
    u32 events;
    whole.jobs++;
    if (memchr(name, 0, name_length)) {
        errno = ENOENT;
        complain("the job cannot be read");
        line_undone(0);
        return;
    }
    name_register();
    if (whole.resume && (events = kept_events()) > 0) {
        line_loaded(0x07, 0xA5, events, 0);
        return;
    }
    g = open_job(&t);
    if (g != GOT) {
        (void)remove_register();
        line_undone(g == WRONG ? &t : 0);
        return;
    }
    done = cut_job(job, job_length, records);
    if (done.number != 0 && remove_register())
        line_refused(done.number);
    else if (done.number == 0 && write_register(text, play_session(records, done.records, &c, text)))
        line_loaded(c.gp, c.internal, done.records, c.serial);
    else {
        (void)remove_register();
        line_undone(0);
    }
}

/* ---------------------------------------------------------------- all of them */

enum { NAMES = 262144 };

static u64 names_seen;

/* A name that ends in a zero byte. Empty ones are passed over; of the others a part may be asked for. */
static void take_name(const char *text, u64 n)
{
    if (n == 0 || names_seen++ % whole.parts != whole.part)
        return;
    name = text;
    name_length = n;
    do_job();
}

static int stopped(const char *what, int error)
{
    fprintf(stderr, "lot: %s: %s\n", what, strerror(error));
    return 2;
}

/* The names as they come. */
static int take_names(void)
{
    u64 room = NAMES, have = 0;
    char *names = malloc(room + 1), *more;
    while (names && flush()) {
        char *at = names, *end;
        long got = (long)read(0, names + have, room - have);
        if (got < 0 && errno == EINTR)
            continue;
        if (got < 0)
            return stopped("the names cannot be read", errno);
        have += (u64)got;
        while (output_good() && (end = memchr(at, whole.end, have - (u64)(at - names))) != NULL) {
            *end = 0;
            take_name(at, (u64)(end - at));
            at = end + 1;
        }
        have -= (u64)(at - names);
        memmove(names, at, have);
        if (got == 0) {
            names[have] = 0;
            take_name(names, have);
            free(names);
            return 0;
        }
        if (have == room) {
            more = realloc(names, (room *= 2) + 1);
            if (!more)
                free(names);
            names = more;
        }
    }
    return names ? 0 : stopped("the names cannot be kept", ENOMEM);
}

static int lines_end(void)
{
    put_text("END\t");
    put_decimal(whole.jobs);
    put_char('\t');
    put_decimal(whole.loaded);
    put_char('\t');
    put_decimal(whole.refused);
    put_char('\t');
    put_decimal(whole.undone);
    put_char('\n');
    if (flush())
        return 0;
    fprintf(stderr, "lot: standard output cannot be written\n");
    return 2;
}

/* K/N, K under N. */
static flag read_part(const char *text)
{
    char *end;
    if (*text < '0' || *text > '9')
        return 0;
    whole.part = strtoull(text, &end, 10);
    if (*end != '/' || end[1] < '0' || end[1] > '9')
        return 0;
    whole.parts = strtoull(end + 1, &end, 10);
    return *end == 0 && whole.part < whole.parts;
}

static flag read_options(int argc, char **argv)
{
    int i;
    whole.end = '\n';
    whole.parts = 1;
    for (i = 2; i < argc && argv[i][0] == '-'; i++)
        if (strcmp(argv[i], "-0") == 0)
            whole.end = 0;
        else if (strcmp(argv[i], "--resume") == 0)
            whole.resume = 1;
        else if (strcmp(argv[i], "--part") != 0 || ++i == argc || !read_part(argv[i]))
            return 0;
    return i + 1 == argc;
}

int lot(int argc, char **argv)
{
    int status;
    if (!read_options(argc, argv)) {
        fprintf(stderr, "usage: second lot [-0] [--resume] [--part K/N] OUT    (K is 0 to N - 1)\n");
        return 2;
    }
    whole.out = open(argv[argc - 1], O_PATH | O_DIRECTORY | O_CLOEXEC);
    if (whole.out < 0)
        return stopped(argv[argc - 1], errno);
    (void)signal(SIGPIPE, SIG_IGN);             /* so that a closed pipe is a failed write */
    status = take_names();
    if (status != 0) {
        (void)flush();
        return status;
    }
    return lines_end();
}
