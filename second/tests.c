/* tests.c: the second program's own tests; `second selftest`. Hexadecimal texts may hold blanks. */
#define _POSIX_C_SOURCE 200809L
#include <dirent.h>
#include <fcntl.h>
#include <stdio.h>
#include <stdlib.h>
#include <string.h>
#include <sys/stat.h>
#include <sys/wait.h>
#include <unistd.h>
#include "second.h"

static u32 tests, failures;

static void expect(flag ok, const char *what)
{
    tests++;
    if (!ok) {
        failures++;
        printf("FAILED: %s\n", what);
    }
}

/* ---------------------------------------------------------------- making inputs */

static u32 value_of(char c)
{
    return (u32)(c <= '9' ? c - '0' : c - 'A' + 10);
}

static u32 bytes_of(u8 *to, const char *hex)
{
    u32 n = 0;
    while (*hex != 0) {
        if (*hex == ' ') {
            hex++;
            continue;
        }
        to[n++] = (u8)(value_of(hex[0]) << 4 | value_of(hex[1]));
        hex += 2;
    }
    return n;
}

static void make_record(u8 *r, u8 kind, u8 p1, const char *hex)
{
    memset(r, 0, RECORD);
    r[0] = kind;
    r[1] = p1;
    r[3] = (u8)bytes_of(r + 4, hex);
}

static flag same(const u8 *bytes, u32 n, const char *hex)
{
    u8 other[2048];
    return bytes_of(other, hex) == n && memcmp(bytes, other, n) == 0;
}

#define NAMES "05 5041434B41 06 4D4F44554C45 "
#define NAME "315449432E"
#define LOAD_INSTALL NAMES "05" NAME "010002C90000"
#define DF "3F00 00 02 00 00 00 00000000 00000000 0000 00 "
#define DF_INVALID "3F00 00 02 00 00 00 00000000 00000000 0000 01 "
#define LINEAR_29_3 "2001 08 04 02 1D 03 1F101000 00010300 0000 00 "
#define COUNTERS_11 "2002 09 04 09 0B 01 00000000 00000000 0000 00 "
#define BINARY_300 "2003 0A 04 01 01 2C 00000000 00000000 0000 00 "
#define SIMULATED_3 "2004 0B 04 08 03 01 00000000 00000000 0903 00 "
#define SIMULATED_4 "2004 0B 04 08 03 01 00000000 00000000 0904 00 "
#define G2000 "2000 08 0102030405060708 "
#define G2100 "2100 07 1E112233440000 "
#define G2200 "2200 03 010203 "
#define G3100 "3100 5A " DF LINEAR_29_3 COUNTERS_11 BINARY_300 SIMULATED_3
#define G3800 "3800 02 A801 "
#define KEYS "4101 01 A1 4102 01 A2 4103 01 A3 "
#define G4104 "4104 01 A4 "
#define ORDER_HEX G2000 G2100 G2200 G3100 G3800 KEYS G4104 "0801 02 1122 0A00 01 77 "

static struct card card;
static u8 area[AREA], answer[ANSWER];
static u32 answer_length;

static void make_chip(u8 *chip, u8 capacity)
{
    u32 i;
    memset(chip, 0, CHIP);
    for (i = 0; i < 36; i++)
        chip[i] = (u8)(0x10 + i);
    chip[36] = capacity;
}

static u16 send(u8 kind, u8 p1, const char *hex)
{
    u8 r[RECORD];
    struct step s;
    make_record(r, kind, p1, hex);
    s = play(&card, area, AREA, answer, ANSWER, r, RECORD);
    expect(s.number == 0, "a well-formed event is not refused");
    expect(sound(&card), "the card stays sound");
    answer_length = s.answer_length;
    return s.word;
}

static u16 store(u8 p1, const char *hex)
{
    return send(STORE_DATA, p1, hex);
}

/* A card of this capacity: fresh, installed, selected. */
static void start(u8 capacity)
{
    u8 chip[CHIP];
    make_chip(chip, capacity);
    expect(fresh(&card, chip, CHIP) == 0, "the chip record passes");
    memset(area, 0xEE, AREA);
    expect(send(INSTALL, 0x0C, LOAD_INSTALL) == 0x9000, "INSTALL 0C");
    expect(send(SELECT, 0x00, NAME) == 0x9000, "SELECT");
}

/* The same after '9484' and this much more. */
static void load(const char *hex)
{
    start(20);
    expect(store(0x01, "948400") == 0x9000, "9484");
    if (*hex != 0)
        expect(store(0x00, hex) == 0x9000, "the load passes");
}

static flag state_is(u8 gp, u8 internal)
{
    return card.gp == gp && card.internal == internal;
}

static flag locked(void)
{
    return state_is(0x87, 0x5A) && !card.selected && card.open_tag == 0;
}

/* ---------------------------------------------------------------- numbered examples */

static flag length_is(const char *hex, u32 length)
{
    u8 bytes[8];
    struct header h;
    u32 n = bytes_of(bytes, hex);
    return read_header(bytes, n, &h) == PASSED && h.length == length && h.size == n;
}

static void example_1(void)
{
    expect(length_is("3800 FE", 254), "1: FE is 254");
    expect(length_is("3800 FF01AF", 431), "1: FF 01 AF is 431");
    expect(length_is("3800 FF0005", 5), "1: FF 00 05 is 5");
    start(20);
    expect(store(0x00, "3800 FFFFFF") == 0x6A80 && state_is(0x07, 0xCC), "1: FF FF FF 6A80");
    load(G2000 G2100 G3100 "3800 FF0005 0102030405");
    expect(card.secrets[0].length == 5, "1: a long form of a short value is kept");
}

static void example_2(void)
{
    u8 d[DESCRIPTOR];
    bytes_of(d, LINEAR_29_3);
    expect(file_size(d) == 87, "2: linear 29 x 3 is 87");
    bytes_of(d, BINARY_300);
    expect(file_size(d) == 300, "2: binary 01 2C is 300");
    load(G2000 G2100 "3100 24 " DF BINARY_300);
    expect(card.descriptors == 2, "2: binary 01 2C passes");
    load(G2000 G2100);
    expect(store(0x00, "3100 24 " DF "2003 0A 04 01 00 00 00000000 00000000 0000 00") == 0x6A80 && locked(),
           "2: binary 00 00 6A80");
}

static void example_3(void)
{
    load(G2000 G2100 "3100 36 " DF COUNTERS_11 SIMULATED_3);
    expect(card.descriptors == 3, "3: number 3 passes");
    load(G2000 G2100);
    expect(store(0x00, "3100 36 " DF COUNTERS_11 SIMULATED_4) == 0x6A80 && locked(), "3: number 4 6A80");
    expect(card.descriptors == 2 && card.rows == 0x07, "3: passed descriptors stay, row 5 isn't taken");
}

static void example_4(void)
{
    load(G2000 G2100 G3100);
    expect(card.rows == 0x17, "4: 3100 after 2100 passes");
    expect(store(0x00, G2200) == 0x6985 && locked(), "4: a later 2200 6985, locked");
}

static void example_5(void)
{
    load(G2000 G2100 G3100 G3800 KEYS);
    expect(store(0x00, "0801 01 AA") == 0x9000, "5: 0801 passes");
    expect(store(0x00, "0803 01 BB") == 0x9000, "5: 0803 passes");
    expect(store(0x00, "0801 01 CC") == 0x6985 && locked(), "5: 0801 again 6985");
    expect(area[0] == 0xAA && area[58] == 0xBB, "5: the records are written");
}

static u16 asked(u8 capacity, const char *hex)
{
    start(capacity);
    store(0x01, "948400");
    store(0x00, G2000);
    return store(0x00, hex);
}

static void example_6(void)
{
    expect(asked(5, "2100 07 37000000000000") == 0x6A84 && locked(), "6: capacity 5 6A84");
    expect(asked(6, "2100 07 37000000000000") == 0x9000 && card.startup[0] == 6, "6: capacity 6, asked 55: 6");
    expect(asked(20, "2100 07 05000000000000") == 0x6A80 && locked(), "6: asked 5 6A80");
    expect(asked(20, "2100 07 38000000000000") == 0x6A80 && locked(), "6: asked 56 6A80");
    expect(asked(20, "2100 07 06000000000000") == 0x9000 && card.startup[0] == 6, "6: asked 6 is kept");
    expect(asked(5, "2100 07 05000000000000") == 0x6A80, "6: asked 5 on capacity 5 6A80");
    expect(asked(20, "2100 07 06000000000100") == 0x6A80, "6: last two not zero 6A80");
}

static u16 key_of_length(u32 length)
{
    char hex[200] = "3800 00";
    u32 i;
    sprintf(hex, "3800 %02X", length);
    for (i = 0; i < length; i++)
        strcat(hex, "5C");
    load(G2000 G2100 G3100);
    return store(0x00, hex);
}

static void example_7(void)
{
    expect(key_of_length(1) == 0x9000 && card.secrets[0].length == 1, "7: key length 1 passes");
    expect(key_of_length(64) == 0x9000 && card.secrets[0].length == 64, "7: key length 64 passes");
    expect(key_of_length(0) == 0x6700 && locked(), "7: key length 0 6700");
    expect(key_of_length(65) == 0x6700 && locked(), "7: key length 65 6700");
}

static void example_8(void)
{
    start(20);
    expect(store(0x01, "84F200") == 0x9000 && same(answer, answer_length, "9F 70 01 07 9F DC 01 CC"), "8: 84F2");
}

static void example_9(void)
{
    start(20);
    expect(store(0x00, "2000") == 0x6A80 && state_is(0x07, 0xCC) && card.selected, "9: 20 00 in CC unlocked");
    load(G2000);
    expect(card.open_tag == 0 && store(0x00, "2000") == 0x6A80 && locked(), "9: 20 00 in 5A locked");
}

static void example_10(void)
{
    start(20);
    expect(store(0x00, G2000) == 0x6985 && state_is(0x87, 0x5A), "10: 2000 before 9484 6985, 87, 5A");
}

static void example_11(void)
{
    load(G2000 G2100 G3100 G3800 "4101 01 A1 4102 01 A2");
    expect(store(0x80, "0801 00") == 0x6985 && locked(), "11: 0801 before 4103 6985");
    load(G2000 G2100 G3100 G3800 "4101 01 A1");
    expect(store(0x80, "4102 01 A2") == 0x6985 && locked(), "11: bit 8 without 4103 6985, locked");
    load(G2000 G2100 G3100 G3800 "4101 01 A1 4102 01 A2");
    expect(store(0x80, "4103 01 A3") == 0x9000 && state_is(0x07, 0xA5) && card.selected, "11: with it A5");
}

/* 252 bytes of groupings (a secret of 64 and two records among them), then a 3-byte spannable header. */
static void example_12(void)
{
    u8 chip[CHIP], order[ORDER], room[20 * RECORD];
    u32 n = bytes_of(order, G2000 G2100 G3100 G3800 KEYS "4104 40");
    struct ran done;
    make_chip(chip, 20);
    memset(order + n, 0x22, 64);
    n += 64 + bytes_of(order + n + 64, "0801 1D");
    memset(order + n, 0x33, 29);
    n += 29 + bytes_of(order + n + 29, "0802 FF0011");
    memset(order + n, 0x44, 17);
    n += 17;
    expect(n == 252, "12: 252 bytes");
    n += bytes_of(order + n, "0A00 02 5566");
    done = write_order(chip, CHIP, order, n, room, sizeof room);
    expect(done.number == 0 && done.records == 3, "12: three records");
    expect(room[RECORD + 3] == 255 && room[RECORD + 1] == 0x00, "12: the header fits in the second");
    expect(same(room + RECORD + 4 + 252, 3, "0A00 02"), "12: it is there");
    expect(room[2 * RECORD + 3] == 2 && room[2 * RECORD + 1] == 0x80, "12: its value opens the next");
    expect(same(room + 2 * RECORD + 4, 2, "5566"), "12: the value");
}

/* ---------------------------------------------------------------- the modes, as programs */

struct mode_run { u8 bytes[200000]; u32 length; int status; char said[1000]; };

static int child_mode(const char *mode, const char *word)
{
    return strcmp(mode, "calls") == 0 ? calls(2, 0) : run_mode(mode, word);
}

/* Runs a mode, with a word behind it or none, in a child process on these bytes. */
static void run_child_with(const char *mode, const char *word, const u8 *in, u32 length, struct mode_run *m)
{
    FILE *from = tmpfile(), *to = tmpfile(), *said = tmpfile();
    pid_t child;
    if (from == NULL || to == NULL || said == NULL) {
        perror("tmpfile");
        exit(1);
    }
    fwrite(in, 1, length, from);
    fflush(from);
    rewind(from);
    fflush(stdout);
    child = fork();
    if (child == 0) {
        dup2(fileno(from), 0);
        dup2(fileno(to), 1);
        dup2(fileno(said), 2);
        _exit(child_mode(mode, word));
    }
    waitpid(child, &m->status, 0);
    m->status = WEXITSTATUS(m->status);
    rewind(to);
    m->length = (u32)fread(m->bytes, 1, sizeof m->bytes, to);
    rewind(said);
    m->said[fread(m->said, 1, sizeof m->said - 1, said)] = 0;
    fclose(from);
    fclose(to);
    fclose(said);
}

static void run_child(const char *mode, const u8 *in, u32 length, struct mode_run *m)
{
    run_child_with(mode, NULL, in, length, m);
}

static flag wrote(const struct mode_run *m, const char *text)
{
    return m->length == strlen(text) && memcmp(m->bytes, text, m->length) == 0;
}

static u32 sample_session(u8 *s)
{
    make_chip(s, 20);
    make_record(s + CHIP, INSTALL, 0x0C, LOAD_INSTALL);
    make_record(s + CHIP + RECORD, SELECT, 0x00, NAME);
    make_record(s + CHIP + 2 * RECORD, STORE_DATA, 0x01, "948400");
    make_record(s + CHIP + 3 * RECORD, STORE_DATA, 0x01, "84F200");
    make_record(s + CHIP + 4 * RECORD, STORE_DATA, 0x00, G2100);
    make_record(s + CHIP + 5 * RECORD, SELECT, 0x00, NAME);
    return CHIP + 6 * RECORD;
}

static void replay_sample(void)
{
    static struct mode_run m;
    static u8 s[CHIP + 7 * RECORD];
    u32 n = sample_session(s);
    static const char text[] = "00001 01 00 9000 07 CC 00\n00002 03 00 9000 07 CC 00\n"
                               "00003 02 00 9000 07 CC 01\n00004 02 00 9000 07 CC 01\n"
                               "00005 02 00 6985 87 5A 01\n00006 03 00 6283 87 5A 01\nEND 00006\n";
    run_child("replay", s, n, &m);
    expect(wrote(&m, text) && m.status == 0, "replay: the paper's sample");
    run_child("replay", s, n + 259, &m);
    expect(wrote(&m, text), "replay: a torn last record is not an event");
    run_child("replay", s, 39, &m);
    expect(wrote(&m, "END 00000\n"), "replay: 39 bytes");
    run_child("replay", s, CHIP, &m);
    expect(wrote(&m, "END 00000\n"), "replay: no events");
    s[CHIP] = 200;
    s[CHIP + RECORD] = 0;
    run_child("replay", s, CHIP + 2 * RECORD, &m);
    expect(wrote(&m, "00001 99 04 0000 00 CC 00\n00002 00 04 0000 00 CC 00\nEND 00002\n"), "replay: bad kinds");
    s[39] = 1;
    run_child("replay", s, n, &m);
    expect(wrote(&m, "END 00000\n"), "replay: a refused chip record");
    run_child("trace", s, n, &m);
    expect(wrote(&m, "REFUSED 07\n"), "trace: a refused chip record");
}

static void replay_numbers(void)
{
    u8 line[26], r[RECORD] = { 8 };
    start(20);
    replay_line(line, 99999, r, 5, 0x6A80, &card);
    expect(memcmp(line, "99999 08 05 6A80 07 CC 00\n", 26) == 0, "replay: event 99999");
    replay_line(line, 10000000001ull, r, 0, 0x9000, &card);
    expect(memcmp(line, "00001 08 00 9000 07 CC 00\n", 26) == 0, "replay: the last five digits");
}

/* The order writes '1122' to bytes 0 and 1 of the area and '77' to byte 98: 1 x 17 + 2 x 34 + 99 x 119. */
static void replay_sum(void)
{
    static struct mode_run m, n, cut;
    static u8 job[CHIP + ORDER];
    u32 length;
    make_chip(job, 20);
    length = CHIP + bytes_of(job + CHIP, ORDER_HEX);
    run_child("cut", job, length, &cut);
    run_child("replay", cut.bytes, cut.length, &m);
    expect(strcmp(m.said, "") == 0, "replay: says nothing of the area");
    run_child_with("replay", "--sum", cut.bytes, cut.length, &n);
    expect(strcmp(n.said, "AREA 0000011866\n") == 0 && n.status == 0, "replay --sum: its line");
    expect(n.length == m.length && memcmp(n.bytes, m.bytes, m.length) == 0, "replay --sum: the same register");
    run_child_with("replay", "--sum", cut.bytes, CHIP, &n);
    expect(strcmp(n.said, "AREA 0000000000\n") == 0 && wrote(&n, "END 00000\n"), "replay --sum: no events");
    cut.bytes[39] = 1;
    run_child_with("replay", "--sum", cut.bytes, cut.length, &n);
    expect(strcmp(n.said, "AREA 0000000000\n") == 0 && wrote(&n, "END 00000\n"), "replay --sum: a refused chip record");
    expect(run_mode("replay", "--su") < 0 && run_mode("trace", "--sum") < 0, "replay: no other word");
}

static void trace_sample(void)
{
    static struct mode_run m;
    static u8 s[CHIP + 7 * RECORD];
    char text[12000];
    u32 i;
    sample_session(s);
    make_record(s + CHIP + 3 * RECORD, STORE_DATA, 0x00, G2000 G2100 "3100 24 3F00");
    run_child("trace", s, CHIP + 4 * RECORD, &m);
    strcpy(text, "0 9000 07 CC 0 315449432E 0000 - 0000000000000000 00000000000000 200000 - - - - - 0 - - - 00000000\n"
                 "0 9000 07 CC 1 315449432E 0000 6F078405315449432E 0000000000000000 00000000000000 200000"
                 " - - - - - 0 - - - 00000000\n"
                 "0 9000 07 CC 1 315449432E 0001 101112131415161718191A1B1C1D1E1F20212223"
                 " 0000000000000000 00000000000000 200000 - - - - - 0 - - - 00000000\n"
                 "0 9000 07 5A 1 315449432E 0007 - 0102030405060708 14112233440000 200000"
                 " - - - - - 0 - 3100:2:34 3F00 00000000\nAREA ");
    for (i = 0; i < 2 * AREA; i++)
        strcat(text, "0");
    strcat(text, "\n");
    expect(wrote(&m, text), "trace: four events");
}

static void cut_and_groupings(void)
{
    static struct mode_run m, n;
    static u8 job[CHIP + ORDER + 1];
    u32 length;
    make_chip(job, 20);
    length = CHIP + bytes_of(job + CHIP, ORDER_HEX);
    run_child("cut", job, length, &m);
    expect(m.status == 0 && m.length == CHIP + 4 * RECORD && memcmp(m.bytes, job, CHIP) == 0, "cut: its size");
    expect(same(m.bytes + CHIP, 37, "01 0C 00 21 08 315449432E504B47 08 315449432E4D4F44 08 315449432E494341"
                                    "010002C90000"), "cut: INSTALL");
    expect(same(m.bytes + CHIP + RECORD, 12, "03 04 00 08 315449432E494341"), "cut: SELECT");
    expect(same(m.bytes + CHIP + 2 * RECORD, 7, "02 01 00 03 948400"), "cut: 9484");
    run_child("replay", m.bytes, m.length, &n);
    expect(wrote(&n, "00001 01 00 9000 07 CC 00\n00002 03 00 9000 07 CC 00\n00003 02 00 9000 07 CC 01\n"
                     "00004 02 00 9000 07 A5 11\nEND 00004\n"), "cut and replay: personalized");
    run_child("cut", job, 39, &m);
    expect(m.status == 1 && m.length == 0, "cut: 39 bytes refused");
    run_child("cut", job, length - 1, &m);
    expect(m.status == 1 && m.length == 0, "cut: an order not complete refused");
    run_child("cut", job, sizeof job, &m);
    expect(m.status == 1 && m.length == 0, "cut: an order of 8,193 bytes refused");
    length = bytes_of(job, "2000 02 0A0B 0000 00 FFFF FF0001 0C");
    run_child("groupings", job, length, &m);
    expect(wrote(&m, "2000 0A0B\n0000 -\nFFFF 0C\nend\n"), "groupings: end");
    run_child("groupings", job, length - 1, &m);
    expect(wrote(&m, "2000 0A0B\n0000 -\ntorn\n"), "groupings: torn value");
    run_child("groupings", job, 6, &m);
    expect(wrote(&m, "2000 0A0B\ntorn\n"), "groupings: torn header");
    run_child("groupings", job, 0, &m);
    expect(wrote(&m, "end\n"), "groupings: nothing");
}

/* Two values of 65,534 bytes, one of 5 and a torn end: more than the window holds. */
static void groupings_long(void)
{
    static u8 in[150000];
    static struct mode_run m;
    static const u8 head[5] = { 0x12, 0x34, 0xFF, 0xFF, 0xFE };
    u32 n = 0, i;
    for (i = 0; i < 2; i++) {
        memcpy(in + n, head, 5);
        memset(in + n + 5, 0x5A, 65534);
        n += 65539;
    }
    n += bytes_of(in + n, "0001 FF0005 0102030405 7777 FFFFFF 00");
    run_child("groupings", in, n, &m);
    expect(m.status == 0 && m.length == sizeof m.bytes, "groupings: long values fill the capture");
    expect(memcmp(m.bytes, "1234 5A5A", 9) == 0, "groupings: the first long value");
    expect(memcmp(m.bytes + 5 + 131068, "\n1234 5A", 8) == 0, "groupings: the second long value");
    run_child("groupings", in + 65539, n - 65539, &m);
    expect(m.length == 5 + 131068 + 1 + 16 + 5 &&
           memcmp(m.bytes + 5 + 131068, "\n0001 0102030405\ntorn\n", 22) == 0, "groupings: FFFF is torn");
}

/* ---------------------------------------------------------------- orders of refusal numbers */

static struct card before;
static u8 area_before[AREA], answer_before[ANSWER];

static void remember(void)
{
    memcpy(&before, &card, sizeof card);
    memcpy(area_before, area, AREA);
    memcpy(answer_before, answer, ANSWER);
}

static flag unchanged(void)
{
    return memcmp(&before, &card, sizeof card) == 0 && memcmp(area_before, area, AREA) == 0 &&
           memcmp(answer_before, answer, ANSWER) == 0;
}

static void refused(u32 number, u32 area_length, u32 room, const u8 *r, u32 length, const char *what)
{
    struct step s;
    remember();
    s = play(&card, area, area_length, answer, room, r, length);
    expect(s.number == number && s.word == 0 && s.answer_length == 0, what);
    expect(unchanged(), "a refusal changes nothing");
}

static void numbers_of_an_event(void)
{
    u8 r[RECORD + 1];
    load(G2000);
    memset(r, 0x77, sizeof r);
    card.rows = 0x8000;
    refused(1, 4095, 63, r, 259, "event: 1 first");
    refused(1, 4097, 64, r, 260, "event: 1 for a longer area");
    refused(2, 4096, 63, r, 259, "event: 2 next");
    refused(6, 4096, 64, r, 259, "event: 6 next");
    card.rows = 0x0003;
    refused(3, 4096, 64, r, 259, "event: 3 next");
    refused(3, 4096, 64, r, 261, "event: 3 for a longer record");
    refused(4, 4096, 64, r, 260, "event: 4 next");
    r[0] = 0;
    refused(4, 4096, 64, r, 260, "event: kind 0");
    r[0] = 9;
    refused(4, 4096, 64, r, 260, "event: kind 9");
    r[0] = 7;
    refused(5, 4096, 64, r, 260, "event: 5 last, for kinds 4 to 8 too");
    expect(state_is(0x07, 0x5A), "event: a refused record does not lock");
    make_record(r, LOCK, 0x99, "AABB");
    r[2] = 0x55;
    expect(play(&card, area, AREA, answer, 200, r, RECORD).word == 0x6985 && locked(), "event: P1, P2, data free");
}

static void padding(void)
{
    u8 r[RECORD];
    u32 i;
    start(20);
    for (i = 9; i < RECORD; i++) {
        make_record(r, SELECT, 0x00, NAME);
        r[i] = 1;
        refused(5, 4096, 64, r, RECORD, "event: each byte past n");
    }
    memset(r, 0x01, RECORD);
    r[3] = 255;
    refused(5, 4096, 64, r, RECORD, "event: the last byte");
    r[259] = 0;
    expect(record_form(r) == 0, "event: 255 data bytes");
}

static void numbers_of_a_session(void)
{
    u8 s[3 * RECORD];
    u16 words[4] = { 0x1111, 0x2222, 0x3333, 0x4444 };
    struct ran d;
    load(G2000);
    make_record(s, SELECT, 0x00, NAME);
    make_record(s + RECORD, 0, 0x00, "");
    make_record(s + 2 * RECORD, DESELECT, 0x00, "");
    card.internal = 0x00;
    remember();
    d = run(&card, area, 4095, s, 779, words, 1);
    expect(d.number == 1 && d.records == 0, "session: 1 first");
    d = run(&card, area, 4096, s, 779, words, 1);
    expect(d.number == 6 && d.records == 0, "session: 6 next");
    card.internal = 0x5A;
    remember();
    d = run(&card, area, 4096, s, 779, words, 1);
    expect(d.number == 3 && d.records == 0, "session: 3 next");
    d = run(&card, area, 4096, s, 780, words, 2);
    expect(d.number == 11 && d.records == 0, "session: 11 last");
    expect(unchanged() && words[0] == 0x1111, "session: a refusal changes nothing");
    d = run(&card, area, 4096, s, 0, words, 0);
    expect(d.number == 0 && d.records == 0 && unchanged(), "session: of 0 bytes");
    d = run(&card, area, 4096, s, 780, words, 3);
    expect(d.number == 0 && d.records == 3 && locked(), "session: an exact fit passes");
    expect(words[0] == 0x6283 && words[1] == 0 && words[2] == 0 && words[3] == 0x4444, "session: its words");
}

static flag shows(u8 sfi, u8 record, u32 start_at, u32 length)
{
    struct part p = shown(&card, area, AREA, sfi, record);
    return p.number == 0 && p.bytes == area + start_at && p.length == length;
}

static flag shows_nothing(u32 number, u32 area_length, u8 sfi, u8 record)
{
    struct part p = shown(&card, area, area_length, sfi, record);
    return p.number == number && p.length == 0;
}

static void shown_records(void)
{
    load(G2000 G2100 G3100 G3800 KEYS);
    expect(shows(0x08, 1, 0, 29) && shows(0x08, 3, 58, 29), "shown: linear");
    expect(shows(0x09, 1, 87, 11), "shown: counters");
    expect(shows(0x0A, 0, 98, 300), "shown: a binary file whole");
    expect(shows_nothing(8, AREA, 0x0B, 1) && shows_nothing(8, AREA, 0x0B, 0), "shown: 08 stores nothing");
    expect(shows_nothing(8, AREA, 0, 0) && shows_nothing(8, AREA, 0, 1), "shown: SFI 0");
    expect(shows_nothing(8, AREA, 0x07, 1) && shows_nothing(8, AREA, 0xFF, 1), "shown: no such SFI");
    expect(shows_nothing(8, AREA, 0x08, 0) && shows_nothing(8, AREA, 0x08, 4), "shown: no such record");
    expect(shows_nothing(8, AREA, 0x0A, 1), "shown: a binary's record 1");
    card.rows = 0xFFFF;
    expect(shows_nothing(1, 4097, 0, 0), "shown: 1 first");
    expect(shows_nothing(6, AREA, 0, 0), "shown: 6 next");
    expect(taken(&card) == 16, "taken: all ones, on an unsound set too");
    load(G2000 G2100 "3100 5A " DF LINEAR_29_3 "2002");
    expect(shows(0x08, 2, 29, 29), "shown: while 3100 is open");
    expect(store(0x00, "") == 0x6700 && locked() && shows(0x08, 2, 29, 29), "shown: after a lock in it");
}

static void numbers_of_the_writer(void)
{
    static u8 order[ORDER + 1], room[5 * RECORD];
    u8 chip[CHIP];
    u32 n = bytes_of(order, ORDER_HEX), i;
    memset(room, 0x99, sizeof room);
    make_chip(chip, 20);
    chip[37] = 1;
    expect(write_order(chip, CHIP, order, ORDER + 1, room, 0).number == 7, "writer: 7 first");
    chip[37] = 0;
    expect(write_order(chip, 39, order, ORDER + 1, room, 0).number == 7, "writer: 39 bytes");
    expect(write_order(chip, 41, order, n, room, 0).number == 7, "writer: 41 bytes");
    expect(write_order(chip, CHIP, order, ORDER + 1, room, 0).number == 9, "writer: 9 next");
    expect(write_order(chip, CHIP, order, ORDER, room, 0).number == 10, "writer: 10 next");
    expect(write_order(chip, CHIP, order, 0, room, 0).number == 10, "writer: an empty order");
    expect(write_order(chip, CHIP, order, n, room, 2 * RECORD - 1).number == 11, "writer: 11 last");
    for (i = 0; i < sizeof room && room[i] == 0x99; i++)
        continue;
    expect(i == sizeof room, "writer: a refusal changes nothing");
    expect(write_order(chip, CHIP, order, n, room, 2 * RECORD).records == 2, "writer: an exact fit");
    expect(room[2 * RECORD] == 0x99 && same(room, 7, "02 01 00 03 948400"), "writer: room past it stays");
    expect(same(room + RECORD, 4, "02 80 00 96") && room[2 * RECORD - 1] == 0, "writer: the last record");
    chip[36] = 5;
    expect(write_order(chip, CHIP, order, n, room, sizeof room).number == 10, "writer: capacity 5");
}

static flag order_is(const char *hex, enum outcome o)
{
    static u8 order[ORDER];
    u8 chip[CHIP];
    u32 n = bytes_of(order, hex);
    make_chip(chip, 20);
    return judge_order(chip, order, n) == o;
}

static void orders(void)
{
    expect(order_is(ORDER_HEX, PASSED), "order: complete");
    expect(order_is(G2000 G2100 G3100 G3800 KEYS, PASSED), "order: complete without the optional rows");
    expect(order_is("948400" ORDER_HEX, B_NOT_ALONE), "order: with 9484");
    expect(order_is("84F200", B_P1), "order: a query alone");
    expect(order_is(ORDER_HEX "818500", B_PLACE), "order: with 8185");
    expect(order_is(G2000 G2100 G3100 G3800 "4101 01 A1 4102 01 A2", END_MISSING), "order: a row missing");
    expect(order_is(ORDER_HEX "0B01 00", E_TYPE), "order: an 08 record");
    expect(order_is(G2000 G2100 G3100 G3800 KEYS "0801 03 1122", END_OPEN), "order: a value open");
    expect(order_is(G2000 G2100 G3100 G3800 "4101 01 A1 4102 01 A2 4103 02 A3", G_CUT), "order: cut short");
    expect(order_is(ORDER_HEX "00", A_TORN), "order: zeros left over");
}

static void fresh_cards(void)
{
    u8 chip[CHIP], zero[CHIP] = { 0 };
    struct card a, b;
    make_chip(chip, 20);
    expect(fresh(&a, chip, CHIP) == 0 && a.counter == 200000 && a.gp == 0 && a.internal == 0xCC, "fresh");
    expect(a.capacity == 20 && a.reference[0] == 0x10 && a.challenge[0] == 0x14 && a.traceability[0] == 0x24,
           "fresh: its facts");
    expect(fresh(&b, zero, CHIP) == 0 && b.counter == 200000, "fresh: of 40 zero bytes");
    expect(fresh(&a, chip, 39) == 7 && memcmp(&a, &b, sizeof a) == 0, "fresh: 39 bytes");
    expect(fresh(&a, chip, 41) == 7 && memcmp(&a, &b, sizeof a) == 0, "fresh: 41 bytes");
    chip[38] = 1;
    expect(fresh(&a, chip, CHIP) == 7 && memcmp(&a, &b, sizeof a) == 0, "fresh: a byte not zero");
    expect(sound(&a), "fresh: sound");
    expect(rows_agree(), "the set of mandatory rows is the table's");
}

/* ---------------------------------------------------------------- soundness, clause by clause */

static struct card kept;

static void given(void)
{
    memcpy(&card, &kept, sizeof card);
}

#define UNSOUND(change, what) do { given(); change; expect(!sound(&card), "unsound: " what); } while (0)
#define SOUND(change, what) do { given(); change; expect(sound(&card), "sound: " what); } while (0)

static void sound_states(void)
{
    load("");
    memcpy(&kept, &card, sizeof card);
    SOUND((void)0, "selected in CC");
    UNSOUND(card.gp = 0x01, "GP 01");
    UNSOUND((card.gp = 0x80, card.selected = 0), "GP 80");
    UNSOUND(card.internal = 0xCD, "internal");
    UNSOUND((card.gp = 0x03, card.internal = 0x5A, card.selected = 0), "5A at 03");
    UNSOUND((card.gp = 0x83, card.internal = 0xA5, card.selected = 0), "A5 at 83");
    SOUND((card.gp = 0x87, card.internal = 0xA5, card.selected = 0), "A5 at 87 with rows missing");
    UNSOUND(card.name_length = 4, "name of 4");
    UNSOUND(card.name_length = 17, "name of 17");
    UNSOUND(card.name_length = 0, "no name but present");
    UNSOUND((card.gp = 0x00, card.rows = 0, card.selected = 0), "a name but absent");
    UNSOUND((card.gp = 0x00, card.name_length = 0, card.selected = 0), "rows but absent");
    SOUND((card.gp = 0x00, card.rows = 0, card.name_length = 0, card.selected = 0, card.secrets[0].length = 64),
          "absent with a secret");
    UNSOUND(card.gp = 0x03, "selected at 03");
    UNSOUND(card.gp = 0x87, "selected at 87");
    UNSOUND((card.internal = 0x5A, card.selected = 0), "07 with 5A, not selected");
    SOUND(card.rows = 0x07FF, "CC with any rows");
    UNSOUND(card.rows = 0x0800, "row 12");
    UNSOUND(card.secrets[4].length = 65, "a secret of 65");
    SOUND(card.rows = 0x0010, "row 5 with no descriptor");
    UNSOUND((card.open_tag = 0x3100, card.open_missing = 18), "open in CC");
}

static void sound_tables(void)
{
    load(G2000 G2100 G3100);
    memcpy(&kept, &card, sizeof card);
    UNSOUND(card.rows = 0x07, "descriptors without row 5");
    SOUND((card.rows = 0x07, card.gp = 0x87, card.selected = 0), "descriptors, locked in 5A");
    UNSOUND((card.rows = 0x07, card.gp = 0x87, card.selected = 0, card.internal = 0xA5), "descriptors, locked in A5");
    UNSOUND(card.descriptors = 6, "a descriptor of zeros");
    UNSOUND(card.descriptors = 32, "32 descriptors");
    UNSOUND(card.table[0][D_SFI] = 1, "a DF with SFI 1");
    UNSOUND((card.table[3][D_REC] = 16, card.table[3][D_NUM] = 0), "a size total over 4,096");
    SOUND((card.table[3][D_REC] = 15, card.table[3][D_NUM] = 158), "a size total of 4,096");
    SOUND((card.open_tag = 0x0803, card.open_missing = 29), "an open ssnn with rows missing");
    SOUND((card.open_tag = 0x0803, card.open_count = 28, card.open_missing = 1), "an open ssnn of its record");
    UNSOUND((card.open_tag = 0x0803, card.open_count = 29, card.open_missing = 1), "an open ssnn too long");
    UNSOUND((card.open_tag = 0x0803, card.open_missing = 0), "an open ssnn missing nothing");
    UNSOUND((card.open_tag = 0x0804, card.open_missing = 1), "an open ssnn that e refuses");
    UNSOUND((card.open_tag = 0x0803, card.open_count = 0xFFFFFFFF, card.open_missing = 2), "a sum that wraps");
    UNSOUND((card.open_tag = 0x3100, card.open_missing = 18), "3100 open with row 5");
    UNSOUND((card.open_tag = 0x0803, card.open_missing = 1, card.gp = 0x87, card.selected = 0), "open at 87");
    UNSOUND((card.open_tag = 0x0803, card.open_missing = 1, card.internal = 0xA5), "open in A5");
}

static void sound_open_tables(void)
{
    load(G2000 G2100 "3100 5A " DF LINEAR_29_3 "20");
    memcpy(&kept, &card, sizeof card);
    SOUND((void)0, "3100 open");
    UNSOUND(card.open_missing = 54, "not a multiple of 18");
    UNSOUND(card.open_missing = 17 + 28 * 18 + 18, "over 558");
    SOUND(card.open_missing = 17 + 28 * 18, "of 558");
    UNSOUND((card.open_count = 18, card.open_missing = 18), "18 bytes held");
    UNSOUND((card.open_count = 0, card.open_missing = 0), "missing nothing");
    UNSOUND(card.open_tag = 0, "descriptors, not open");
    SOUND((card.last_tag = 0xFFFF, card.counter = 0xFFFFFFFF, card.held[17] = 9), "nothing asked of the rest");
}

/* ---------------------------------------------------------------- events */

static void install_events(void)
{
    u8 chip[CHIP];
    make_chip(chip, 20);
    fresh(&card, chip, CHIP);
    memset(area, 0xEE, AREA);
    expect(send(INSTALL, 0x00, "") == 0x6A86, "INSTALL: P1 before form");
    expect(send(INSTALL, 0x04, "") == 0x6A80, "INSTALL: empty");
    expect(send(INSTALL, 0x0C, LOAD_INSTALL "00") == 0x6A80, "INSTALL: nothing may follow");
    expect(send(INSTALL, 0x0C, NAMES "04 31544943 010002C90000") == 0x6A80, "INSTALL: a name of 4");
    expect(send(INSTALL, 0x08, "00 00 05" NAME "01000000") == 0x6A88, "INSTALL 08: absent");
    expect(send(LOCK, 0, "") == 0x6A88 && send(UNLOCK, 0, "") == 0x6A88, "LOCK, UNLOCK: absent");
    expect(send(RESET, 0, "") == 0x0000 && send(DESELECT, 0, "") == 0x0000, "RESET, DESELECT: absent");
    expect(send(SELECT, 0, "") == 0x6A82, "SELECT: absent");
    expect(area[0] == 0xEE, "INSTALL: the area stays");
    expect(send(INSTALL, 0x04, LOAD_INSTALL) == 0x9000 && state_is(0x03, 0xCC), "INSTALL 04");
    expect(area[0] == 0 && area[AREA - 1] == 0, "INSTALL: the area is zeros");
    expect(send(INSTALL, 0x04, LOAD_INSTALL) == 0x6985, "INSTALL: present");
    expect(send(SELECT, 0, NAME) == 0x6A82, "SELECT: at 03");
    expect(send(INSTALL, 0x08, "00 00 05" "315449432F" "01000000") == 0x6A88, "INSTALL 08: another name");
    expect(send(LOCK, 0, "") == 0x9000 && state_is(0x83, 0xCC), "LOCK at 03");
    expect(send(LOCK, 0, "") == 0x6985, "LOCK: locked");
    expect(send(INSTALL, 0x08, "00 00 05" NAME "01000000") == 0x6985, "INSTALL 08: not 03");
    expect(send(UNLOCK, 0, "") == 0x9000 && send(UNLOCK, 0, "") == 0x6985, "UNLOCK");
    expect(send(INSTALL, 0x08, "00 00 05" NAME "01000000") == 0x9000 && state_is(0x07, 0xCC), "INSTALL 08");
    expect(send(OTHER, 0, "") == 0x6985 && store(0x01, "84F200") == 0x6985, "not selected");
    expect(send(SELECT, 0, NAME) == 0x9000 && send(OTHER, 0, "") == 0x6D00, "kind 4: selected");
    expect(send(SELECT, 0, "3154494300") == 0x6A82 && card.selected, "SELECT of another name leaves it selected");
    expect(send(SELECT, 0, "31544943") == 0x6A82, "SELECT: the length too");
    expect(send(RESET, 0, "") == 0x0000 && !card.selected, "RESET");
}

static void kinds_in_5a(void)
{
    static const struct { u8 kind; const char *data; u16 word; } list[] = {
        { INSTALL, "", 0x6985 }, { SELECT, NAME, 0x6283 }, { SELECT, "31", 0x6A82 }, { OTHER, "", 0x6985 },
        { DESELECT, "", 0x0000 }, { RESET, "", 0x0000 }, { LOCK, "", 0x6985 }, { UNLOCK, "", 0x6985 },
    };
    u32 i;
    for (i = 0; i < 8; i++) {
        load(G2000);
        expect(send(list[i].kind, 0x00, list[i].data) == list[i].word && locked(), "5A: each kind but 2 locks");
        expect(send(list[i].kind, 0x00, list[i].data) == list[i].word && locked(), "5A: the same when locked");
        expect(store(0x00, "") == 0x6985 && store(0x01, "84F200") == 0x6985, "5A: STORE DATA when locked");
        expect(card.rows == 0x03 && card.serial[7] == 8, "5A: all else stays");
    }
    load(G2000);
    send(SELECT, 0, NAME);
    expect(same(answer, answer_length, "6F 07 84 05" NAME), "5A: the name FCI");
    load(G2000);
    expect(store(0x00, "") == 0x6700 && locked(), "5A: an empty STORE DATA locks");
    start(20);
    expect(store(0x00, "") == 0x6700 && state_is(0x07, 0xCC), "CC: an empty STORE DATA doesn't");
}

static void personalized(void)
{
    load(G2000 G2100 "3100 12 " DF_INVALID G3800 "4101 01 A1 4102 01 A2");
    expect(store(0x80, "4103 01 A3") == 0x9000 && state_is(0x07, 0xA5), "A5: reached");
    expect(send(SELECT, 0, NAME) == 0x6283 && same(answer, answer_length,
           "6F 1F 84 05" NAME "A5 16 BF 0C 13 C7 08 0102030405060708 53 07 14112233440000"), "A5: the full FCI");
    expect(store(0x01, "84F200") == 0x9000 && same(answer, answer_length, "9F70 01 07 9FDC 01 A5"), "A5: 84F2");
    expect(store(0x01, "8185FF0000") == 0x9000 && answer_length == 16, "A5: 8185 in the long form");
    expect(store(0x01, "948400") == 0x6985, "A5: 9484");
    expect(store(0x00, "FFFF00") == 0x6985 && store(0x00, "0801") == 0x6A80, "A5: c, after a");
    expect(store(0x80, "84F200") == 0x6A86 && state_is(0x07, 0xA5), "A5: P1");
    expect(send(OTHER, 0, "") == 0x6D00 && send(LOCK, 0, "") == 0x9000, "A5: kind 4, LOCK");
    expect(send(SELECT, 0, NAME) == 0x6A82 && send(UNLOCK, 0, "") == 0x9000, "A5: locked");
    expect(store(0x01, "84F200") == 0x6985 && send(SELECT, 0, NAME) == 0x6283, "A5: selected again");
    load(G2000 G2100 G3100 G3800 "4101 01 A1 4102 01 A2");
    expect(store(0x80, "4103 01 A3") == 0x9000 && send(SELECT, 0, NAME) == 0x9000, "A5: not invalidated");
}

/* ---------------------------------------------------------------- groupings */

static void rule_b_cases(void)
{
    start(20);
    expect(store(0x00, "948401AA") == 0x6A80, "b: not empty");
    expect(store(0x00, "948400 00") == 0x6A80, "b: not alone");
    expect(store(0x00, "948400") == 0x6A86 && store(0x81, "948400") == 0x6A86, "b: P1");
    expect(store(0x7F, "9484FF0000") == 0x9000 && card.rows == 1, "b: bits 2 to 7 are not read");
    expect(store(0x01, "948400") == 0x6985 && state_is(0x07, 0xCC), "b: once");
    expect(store(0x01, "8185 00") == 0x9000 && same(answer, answer_length, "2425262728292A2B2C2D2E2F30313233"),
           "b: 8185");
    load(G2000);
    expect(store(0x01, "84F200") == 0x9000 && same(answer, answer_length, "9F70 01 07 9FDC 01 5A"), "b: in 5A");
    expect(store(0x01, "948400") == 0x6985 && locked(), "b: 9484 in 5A locks");
    load(G2000);
    expect(store(0x01, G2100 "84F200") == 0x6A80 && locked() && card.rows == 0x07, "b: not at byte 0");
    load(G2000 G2100 "3100 24 " DF "20");
    expect(store(0x01, "84F200") == 0x9000 && answer_length == 0 && same(card.held, 4, "2084F200"),
           "b: bytes of an open value");
}

static void rules_c_to_g(void)
{
    load("");
    expect(store(0x00, "FFFF00") == 0x6A88 && state_is(0x87, 0x5A), "c: an unknown tag moves CC");
    load("");
    expect(store(0x00, "00FF00") == 0x6A88 && locked(), "d: 00FF unknown");
    load("");
    expect(store(0x00, "0100 00") == 0x6985 && locked(), "d before e");
    load(G2000 G2100);
    expect(store(0x00, "2100 00") == 0x6985 && locked(), "d before f");
    load(G2000 G2100 G3100 G3800 KEYS);
    expect(store(0x00, "1E01 FE") == 0x6A88 && locked(), "e before f");
    load(G2000);
    expect(store(0x00, "2100 08 AA") == 0x6700 && locked(), "f before g");
    load(G2000);
    expect(store(0x00, "2100 07 AA") == 0x6A80 && locked(), "g");
    load(G2000 G2100);
    expect(store(0x00, "3100 00") == 0x6700 && locked(), "f: 3100 of 0");
    load(G2000 G2100);
    expect(store(0x00, "3100 FF0240") == 0x6700 && locked(), "f: 3100 of 576");
    load(G2000 G2100 "3100 FF022E");
    expect(card.open_missing == 558, "f: 3100 of 558");
    load(G2000 G2100 G3100 G3800 KEYS);
    expect(store(0x00, "0801 1E") == 0x6700 && locked(), "f: ssnn over its record");
    load(G2000 G2100 G2200 G3100 G3800 KEYS G4104 "0801 00");
    expect(card.counter == 0x010203 && card.rows == 0x7FF && card.last_tag == 0x0801, "an empty ssnn takes row 11");
    expect(store(0x00, "0801 00") == 0x6985, "an empty ssnn counts for rising");
}

static void spanned_values(void)
{
    load(G2000 G2100 G3100 G3800 KEYS "0802 03 A1");
    expect(card.open_tag == 0x0802 && card.open_count == 1 && card.open_missing == 2, "ssnn: open");
    expect(area[29] == 0xA1 && area[30] == 0 && card.rows == 0x1F7, "ssnn: written as it comes");
    expect(store(0x80, "A2") == 0x6985 && locked() && area[30] == 0xA2, "ssnn: the end asked inside it");
    expect(card.rows == 0x1F7 && card.last_tag == 0, "ssnn: row 11 isn't taken");
    load(G2000 G2100 G3100 G3800 KEYS "0802 03 A1");
    expect(store(0x80, "A2A3") == 0x9000 && state_is(0x07, 0xA5) && card.rows == 0x5F7, "ssnn: closed and ended");
    load(G2000 G2100 "3100 24 " DF "2001 08 04 02");
    expect(store(0x80, "1D") == 0x6985 && locked() && card.descriptors == 1, "3100: the end asked inside it");
    load(G2000 G2100 "3100 24 " DF "FFFF FF");
    expect(store(0x00, "00 00000000000000000000000000 00") == 0x6A80, "3100: noticed at byte 18");
    expect(locked() && card.descriptors == 1 && same(card.held, 3, "000000"), "3100: held bytes go");
    load(G2000 G2100 "3100 12");
    expect(store(0x00, DF G3800) == 0x9000 && card.rows == 0x37, "3100: the next grouping behind its bytes");
}

static void descriptor_rules(void)
{
    static const struct { const char *hex; u16 word; } list[] = {
        { "2009 0C 04 02 01 01 00000000 00000000 0000 00", 0x9000 },
        { "2009 00 04 02 01 01 00000000 00000000 0000 00", 0x9000 },
        { "2009 1F 04 02 01 01 00000000 00000000 0000 00", 0x6A80 },
        { "2009 0C 02 02 01 01 00000000 00000000 0000 00", 0x6A80 },
        { "2009 0C 04 03 01 01 00000000 00000000 0000 00", 0x6A80 },
        { "2009 0C 04 02 00 01 00000000 00000000 0000 00", 0x6A80 },
        { "2009 0C 04 02 01 00 00000000 00000000 0000 00", 0x6A80 },
        { "2009 0C 04 02 01 01 02000000 00000000 0000 00", 0x6A80 },
        { "2009 0C 04 02 01 01 10000000 00000000 0000 00", 0x6A80 },
        { "2009 0C 04 02 01 01 10000000 04000000 0000 00", 0x6A80 },
        { "2009 0C 04 02 01 01 00000000 00000001 0000 00", 0x6A80 },
        { "2009 0C 04 02 01 01 00000000 00000000 0001 00", 0x6A80 },
        { "2009 0C 04 02 01 01 00000000 00000000 0000 01", 0x6A80 },
        { "3F00 0C 04 02 01 01 00000000 00000000 0000 00", 0x6A80 },
        { "2009 08 04 02 01 01 00000000 00000000 0000 00", 0x6A80 },
        { "2009 0C 04 01 0F 9E 00000000 00000000 0000 00", 0x6A84 },
        { "2009 0C 04 01 0E 72 00000000 00000000 0000 00", 0x9000 },
        { "2009 0C 04 01 0E 73 00000000 00000000 0000 00", 0x6A84 },
        { "2009 0C 04 08 01 01 00000000 00000000 0803 00", 0x6A80 },
        { "2009 0C 04 08 01 01 00000000 00000000 0900 00", 0x6A80 },
        { "2009 0C 04 08 01 00 00000000 00000000 0901 00", 0x6A80 },
        { "2009 0C 04 08 FF FF 00000000 00000000 0903 00", 0x9000 },
        { "2009 0C 04 08 01 01 00000000 00000000 0001 00", 0x6A80 },
    };
    u8 d[DESCRIPTOR];
    u32 i;
    load(G2000 G2100 G3100);
    for (i = 0; i < sizeof list / sizeof list[0]; i++) {
        bytes_of(d, list[i].hex);
        expect(word_of(judge_descriptor(&card, 5, d)) == list[i].word, list[i].hex);
    }
    bytes_of(d, DF);
    d[D_STATUS] = 2;
    expect(judge_descriptor(&card, 0, d) == T_DF_STATUS, "DF status 2");
}

/* A name or a secret is stored with zeros behind it; a descriptor that passes leaves the held bytes zero. */
static void bytes_past_lengths(void)
{
    u8 chip[CHIP], zero[64] = { 0 };
    make_chip(chip, 20);
    fresh(&card, chip, CHIP);
    memset(card.name, 0x99, 16);
    memset(card.secrets[0].bytes, 0x99, 64);
    memset(card.held, 0x99, 18);
    send(INSTALL, 0x0C, LOAD_INSTALL);
    expect(memcmp(card.name + 5, zero, 11) == 0, "a name with zeros behind it");
    send(SELECT, 0, NAME);
    store(0x01, "948400");
    store(0x00, G2000 G2100 "3100 24 " DF);
    expect(card.open_count == 0 && memcmp(card.held, zero, 18) == 0, "held bytes zero after a descriptor");
    store(0x00, LINEAR_29_3 G3800);
    expect(card.secrets[0].length == 2 && memcmp(card.secrets[0].bytes + 2, zero, 62) == 0, "a secret likewise");
    expect(card.last_tag == 0, "3100 is no last ssnn");
}

static void reader_endings(void)
{
    u8 order[64];
    u32 n = bytes_of(order, "2000 02 0A0B 1234 FF0000 5678 03 AA");
    struct reader r = { order, n, 0 };
    struct grouping g = { 0, 0, 0 };
    expect(pull(&r, &g) == PULLED && g.tag == 0x2000 && g.value == order + 3 && g.length == 2, "reader: first");
    expect(pull(&r, &g) == PULLED && g.tag == 0x1234 && g.length == 0 && r.at == 10, "reader: an empty value");
    expect(pull(&r, &g) == NOT_WHOLE && r.at == 10, "reader: a value not whole, the place stays");
    r.length = 12;
    expect(pull(&r, &g) == NOT_WHOLE && r.at == 10, "reader: a header not whole");
    r.length = 10;
    expect(pull(&r, &g) == AT_END && r.at == 10, "reader: at the end");
    r.at = 11;
    expect(pull(&r, &g) == AT_END && r.at == 11, "reader: past the end");
    r.length = bytes_of(order, "2000 FFFFFF 00");
    r.at = 0;
    expect(pull(&r, &g) == NOT_WHOLE && r.at == 0, "reader: FFFF");
}

/* ---------------------------------------------------------------- where an order's walk stops */

/* Place, tag (0x10000: none) and word. */
static flag stops(u8 capacity, const char *hex, u32 place, u32 tag, u16 word)
{
    static u8 order[ORDER];
    u8 chip[CHIP];
    u32 n = bytes_of(order, hex);
    struct stop s;
    make_chip(chip, capacity);
    s = walk_order(chip, order, n);
    return s.place == place && (s.tagged ? s.tag : 0x10000) == tag && stop_word(&s) == word;
}

static void stopping_places(void)
{
    expect(stops(20, "", 0, 0x10000, 0x6985), "stop: an empty order");
    expect(stops(20, G2000, 11, 0x10000, 0x6985), "stop: rows missing at the end");
    expect(stops(20, G2000 G2100 G3100 G3800 "4101 01 A1 4102 01 A2", 127, 0x10000, 0x6985), "stop: 4103 missing");
    expect(stops(20, ORDER_HEX "00", 150, 0x10000, 0x6A80), "stop: one byte left");
    expect(stops(20, ORDER_HEX "1E01", 150, 0x1E01, 0x6A80), "stop: two bytes left");
    expect(stops(20, ORDER_HEX "1E01 FF", 150, 0x1E01, 0x6A80), "stop: three bytes left");
    expect(stops(20, ORDER_HEX "1E01 FF00", 150, 0x1E01, 0x6A80), "stop: four bytes left");
    expect(stops(20, ORDER_HEX "1E01 FFFFFF", 150, 0x1E01, 0x6A80), "stop: FFFF");
    expect(stops(20, "84F200", 0, 0x84F2, 0x6A80), "stop: a query alone");
    expect(stops(20, "8185FF0000" ORDER_HEX, 0, 0x8185, 0x6A80), "stop: a query first");
    expect(stops(20, G2000 "9484 01 00", 11, 0x9484, 0x6A80), "stop: a query in the midst");
    expect(stops(20, G2000 "8484 00", 11, 0x8484, 0x6A88), "stop: an unknown tag");
    expect(stops(20, G2000 G3100, 11, 0x3100, 0x6985), "stop: a row not due");
    expect(stops(20, G2000 "2100 08", 11, 0x2100, 0x6700), "stop: a length");
    expect(stops(20, G2000 "2100 07 1E", 11, 0x2100, 0x6A80), "stop: cut short");
    expect(stops(5, G2000 G2100, 11, 0x2100, 0x6A84), "stop: capacity");
    expect(stops(20, G2000 G2100 "3100 36 " DF COUNTERS_11 SIMULATED_4, 21 + 3 + 36, 0x3100, 0x6A80),
           "stop: a descriptor");
    expect(stops(20, G2000 G2100 "3100 FF0024 " COUNTERS_11 DF, 21 + 5, 0x3100, 0x6A80),
           "stop: the first descriptor");
    expect(stops(20, G2000 G2100 "3100 36 " DF BINARY_300 "2005 0C 04 01 10 00 00000000 00000000 0000 00 ",
                 21 + 3 + 36, 0x3100, 0x6A84), "stop: the size total");
    expect(stops(20, G2000 G2100 "3100 36 " DF LINEAR_29_3, 21, 0x3100, 0x6985), "stop: 3100 open");
    expect(stops(20, G2000 G2100 "3100 36", 21, 0x3100, 0x6985), "stop: 3100 without a byte");
    expect(stops(20, G2000 G2100 "3100 36 " DF "FFFF FF FF", 21, 0x3100, 0x6985), "stop: 3100 open in a descriptor");
    expect(stops(20, ORDER_HEX "0A00 00", 150, 0x0A00, 0x6985), "stop: not rising");
    expect(stops(20, G2000 G2100 G3100 G3800 KEYS "0801 00 0A00 05 01020304", 134, 0x0A00, 0x6985),
           "stop: ssnn open");
    expect(stops(20, G2000 G2100 G3100 G3800 KEYS "0801 1E 00", 131, 0x0801, 0x6700), "stop: ssnn too long");
}

/* ---------------------------------------------------------------- jobs as text */

struct text_case { const char *text; u32 n; const char *hex; u32 kind, line, column; };

#define TEXT(text, hex) { text, sizeof text - 1, hex, 0, 0, 0 }
#define WRONG_TEXT(text, kind, line, column) { text, sizeof text - 1, 0, kind, line, column }

static const struct text_case text_cases[] = {
    TEXT("", ""), TEXT("\xEF\xBB\xBF", ""), TEXT("#", ""), TEXT("# 12\r34", ""), TEXT(" \t\r\n", ""),
    TEXT("0f F0aB", "0FF0AB"), TEXT("12345678", "12345678"), TEXT("12\t34\r\n56\n\n78 ", "12345678"),
    TEXT("12#34\n56", "1256"), TEXT("12 # 3\r4 \xEF zz\r\n56#", "1256"), TEXT("\xEF\xBB\xBF" "12", "12"),
    TEXT("\xEF\xBB\xBF\n12", "12"), TEXT("\xEF\xBB\xBF# 1\n12", "12"), TEXT("# \0 \n12", "12"),
    TEXT("AF\raf", "AFAF"),
    WRONG_TEXT("G1", 1, 1, 1), WRONG_TEXT("1G", 1, 1, 2), WRONG_TEXT("12 x", 1, 1, 4), WRONG_TEXT("0x12", 1, 1, 2),
    WRONG_TEXT("12\n\n 34 5:", 1, 3, 6), WRONG_TEXT("12\0" "34", 1, 1, 3), WRONG_TEXT("1\0", 1, 1, 2),
    WRONG_TEXT("12\v34", 1, 1, 3), WRONG_TEXT("1/", 1, 1, 2), WRONG_TEXT("@1", 1, 1, 1), WRONG_TEXT("1`", 1, 1, 2),
    WRONG_TEXT("12;34", 1, 1, 3), WRONG_TEXT("12\r\r\n\r-", 1, 2, 2),
    WRONG_TEXT("1", 2, 1, 1), WRONG_TEXT("123", 2, 1, 3), WRONG_TEXT("12 3 4", 2, 1, 4), WRONG_TEXT("1\t2", 2, 1, 1),
    WRONG_TEXT("12\n3\r\n", 2, 2, 1), WRONG_TEXT("12\n  3\n4", 2, 2, 3), WRONG_TEXT("12 3#4", 2, 1, 4),
    WRONG_TEXT("# a\n# b\n1", 2, 3, 1), WRONG_TEXT("1 G", 2, 1, 1), WRONG_TEXT("1 \xEF", 2, 1, 1),
    WRONG_TEXT("\xEF", 1, 1, 1), WRONG_TEXT("\xEF\xBB", 1, 1, 1), WRONG_TEXT("\xEF\xBB\xBE" "12", 1, 1, 1),
    WRONG_TEXT("\xEF\n12", 1, 1, 1), WRONG_TEXT("\xEF\xBB" "12", 1, 1, 1), WRONG_TEXT("\xFF\xFE", 1, 1, 1),
    WRONG_TEXT(" \xEF\xBB\xBF", 1, 1, 2), WRONG_TEXT("\xEF\xBB\xBF\xEF\xBB\xBF", 1, 1, 1),
    WRONG_TEXT("\xEF\xBB\xBF" "1", 2, 1, 1), WRONG_TEXT("\xEF\xBB\xBF" "12 3x", 1, 1, 5),
    WRONG_TEXT("\xEF\xBB\xBF\n12 3 ", 2, 2, 4), WRONG_TEXT("12#\n\xEF\xBB\xBF", 1, 2, 1),
};

/* The text in parts of this many bytes. */
static flag reads_as(const struct text_case *c, u32 part)
{
    u8 bytes[JOB + 1];
    struct text t;
    u32 at = 0;
    flag good = 1;
    begin_text(&t);
    while (good && at < c->n) {
        u32 n = c->n - at < part ? c->n - at : part;
        good = read_text(&t, (const u8 *)c->text + at, n, bytes);
        at += n;
    }
    good = good && end_text(&t);
    if (c->kind == 0)
        return good && t.kind == 0 && same(bytes, (u32)t.length, c->hex);
    return !good && t.kind == c->kind && t.fault_line == c->line && t.fault_column == c->column;
}

static void texts(void)
{
    static u8 many[3 * JOB + 10], bytes[JOB + 1];
    struct text t;
    u32 i, part;
    for (i = 0; i < sizeof text_cases / sizeof text_cases[0]; i++)
        for (part = 1; part <= text_cases[i].n + 1; part++)
            expect(reads_as(&text_cases[i], part), text_cases[i].text);
    for (i = 0; i < JOB + 3; i++)
        memcpy(many + 3 * i, "A5\n", 3);
    begin_text(&t);
    expect(read_text(&t, many, 3 * JOB, bytes) && t.length == JOB && bytes[JOB - 1] == 0xA5, "text: 8,232 bytes");
    expect(read_text(&t, many, 9, bytes) && t.length == JOB + 3 && bytes[JOB] == 0xA5, "text: more are only counted");
    expect(!read_text(&t, many + 1, 2, bytes) && t.kind == 2 && t.fault_line == JOB + 4 && t.fault_column == 1,
           "text: a fault behind them");
}

/* ---------------------------------------------------------------- lots */

static char folder[] = "/tmp/second-tests-XXXXXX";

static void write_file(const char *name, const void *bytes, u32 n)
{
    int file = open(name, O_WRONLY | O_CREAT | O_TRUNC, 0666);
    expect(file >= 0 && write(file, bytes, n) == (long)n && close(file) == 0, "a test's file");
}

static flag file_is(const char *name, const char *text)
{
    char bytes[2000];
    int file = open(name, O_RDONLY);
    long n = file < 0 ? -1 : (long)read(file, bytes, sizeof bytes);
    if (file >= 0)
        close(file);
    return n == (long)strlen(text) && memcmp(bytes, text, (size_t)n) == 0;
}

static flag stands(const char *name)
{
    return access(name, F_OK) == 0;
}

/* Runs `second lot` with these options (a blank between) on these names. */
static void run_lot(const char *options, const char *names, u32 n, struct mode_run *m, const char *to)
{
    char words[200], *argv[12];
    int argc = 2, out;
    FILE *from = tmpfile(), *captured = tmpfile();
    pid_t child;
    if (from == NULL || captured == NULL) {
        perror("tmpfile");
        exit(1);
    }
    fwrite(names, 1, n, from);
    fflush(from);
    rewind(from);
    fflush(stdout);
    out = to ? open(to, O_WRONLY) : fileno(captured);
    snprintf(words, sizeof words, "%s", options);
    for (argv[2] = strtok(words, " "); argv[argc] != NULL; argv[argc] = strtok(NULL, " "))
        argc++;
    child = fork();
    if (child == 0) {
        dup2(fileno(from), 0);
        dup2(out, 1);
        if (freopen("/dev/null", "w", stderr) == NULL)
            _exit(99);
        _exit(lot(argc, argv));
    }
    waitpid(child, &m->status, 0);
    m->status = WIFEXITED(m->status) ? WEXITSTATUS(m->status) : 100;
    rewind(captured);
    m->length = (u32)fread(m->bytes, 1, sizeof m->bytes, captured);
    fclose(from);
    fclose(captured);
    if (to)
        close(out);
}

/* These lines and status 0. */
static flag lot_writes(const char *options, const char *names, const char *lines)
{
    static struct mode_run m;
    run_lot(options, names, (u32)strlen(names), &m, 0);
    if (m.status == 0 && wrote(&m, lines))
        return 1;
    printf("lot wrote (status %d):\n%.*s", m.status, (int)m.length, (const char *)m.bytes);
    return 0;
}

#define REGISTER_TEXT "00001 01 00 9000 07 CC 00\n00002 03 00 9000 07 CC 00\n00003 02 00 9000 07 CC 01\n" \
                      "00004 02 00 9000 07 A5 11\nEND 00004\n"
#define LOADED "\t0\t07\tA5\t4\t0102030405060708\t-\t-\t-\n"
#define PASSED_OVER "\t0\t07\tA5\t4\t-\t-\t-\t-\n"
#define REFUSED(number) "\t" number "\t-\t-\t0\t-\t-\t-\t-\n"
#define UNDONE "\t-\t-\t-\t0\t-\t-\t-\t-\n"

/* good.job, good.text.txt and jobs that are refused, each in its way. */
static void make_lot_files(void)
{
    static u8 bytes[JOB + 10];
    static char text[4 * JOB];
    u32 n, i, at = 3;
    make_chip(bytes, 20);
    n = CHIP + bytes_of(bytes + CHIP, ORDER_HEX);
    write_file("good.job", bytes, n);
    write_file("plain", bytes, n);
    write_file("a.b.c", bytes, n);
    write_file("odd\tna\x7Fme\x01\xC3.job", bytes, n);
    memcpy(text, "\xEF\xBB\xBF", 3);
    for (i = 0; i < n; i++)
        at += (u32)sprintf(text + at, i % 2 == 0 ? "%02X " : "%02x # x\r\n", bytes[i]);
    write_file("good.text.txt", text, at);
    write_file(".txt", text, at);
    write_file("GOOD.TXT", text, at);                   /* by its name no text */
    text[at - 6] = 'g';
    write_file("wrong.txt", text, at);
    write_file("half.txt", "12 3", 4);
    write_file("short.job", bytes, CHIP - 1);
    write_file("none.job", bytes, 0);
    write_file("empty.job", bytes, CHIP);
    write_file("exact.job", bytes, JOB);
    write_file("long.job", bytes, JOB + 1);
    write_file("longer.job", bytes, JOB + 10);
    bytes[39] = 1;
    write_file("chip.job", bytes, JOB + 1);
}

static void lot_lines(void)
{
    expect(lot_writes("out", "", "END\t0\t0\t0\t0\n"), "lot: no names");
    expect(lot_writes("out", "good.job\n", "good.job" LOADED "END\t1\t1\t0\t0\n"), "lot: loaded");
    expect(file_is("out/good.register", REGISTER_TEXT) && !stands("out/.good.register.part"), "lot: its register");
    expect(lot_writes("out", "\n\ngood.text.txt\n\n./plain\n../" "a.b.c", "good.text.txt" LOADED "./plain" LOADED
                      "../a.b.c" UNDONE "END\t3\t2\t0\t1\n"), "lot: empty names, a last name without its end");
    expect(file_is("out/good.text.register", REGISTER_TEXT) && file_is("out/plain.register", REGISTER_TEXT),
           "lot: BASE");
    expect(lot_writes("out", "a.b.c\n.txt\n", "a.b.c" LOADED ".txt" LOADED "END\t2\t2\t0\t0\n") &&
           stands("out/a.b.register") && stands("out/.register"), "lot: the last extension only");
    expect(lot_writes("out", "odd\tna\x7Fme\x01\xC3.job", "odd?na?me?\xC3.job" LOADED "END\t1\t1\t0\t0\n"),
           "lot: a name as it is shown");
    expect(stands("out/odd\tna\x7Fme\x01\xC3.register"), "lot: and as it is");
    expect(lot_writes("out", "GOOD.TXT\nwrong.txt\nhalf.txt\n", "GOOD.TXT" REFUSED("7")
                      "wrong.txt\t-\t-\t-\t0\t-\t95:6\t-\t-\nhalf.txt\t-\t-\t-\t0\t-\t1:4\t-\t-\n"
                      "END\t3\t0\t1\t2\n"), "lot: wrong texts");
    expect(lot_writes("out", "short.job\nnone.job\nempty.job\nexact.job\nlong.job\nlonger.job\nchip.job",
                      "short.job" REFUSED("7") "none.job" REFUSED("7")
                      "empty.job\t10\t-\t-\t0\t-\t0\t-\t6985\nexact.job\t10\t-\t-\t0\t-\t150\t0000\t6A88\n"
                      "long.job" REFUSED("9") "longer.job" REFUSED("9") "chip.job" REFUSED("7")
                      "END\t7\t0\t7\t0\n"), "lot: refused");
    expect(!stands("out/empty.register") && !stands("out/long.register"), "lot: a refused job has no register");
}

/* Registers of an earlier run; files that cannot be read or written. */
static void lot_files(void)
{
    static char name[6000];
    static struct mode_run m;
    write_file("out/empty.register", "old", 3);
    write_file("out/half.register", "old", 3);
    write_file("out/gone.register", "old", 3);
    expect(lot_writes("out", "empty.job\nhalf.txt\ngone.job\nfolder\n",
                      "empty.job\t10\t-\t-\t0\t-\t0\t-\t6985\nhalf.txt\t-\t-\t-\t0\t-\t1:4\t-\t-\n"
                      "gone.job" UNDONE "folder" UNDONE "END\t4\t0\t1\t3\n"), "lot: no job to read");
    expect(!stands("out/empty.register") && !stands("out/half.register"), "lot: old registers are removed");
    expect(!stands("out/gone.register"), "lot: also where nothing was read");
    mkdir("out/good.register.d", 0777);
    unlink("out/good.register");
    mkdir("out/good.register", 0777);
    expect(lot_writes("out", "good.job\nplain\n", "good.job" UNDONE "plain" LOADED "END\t2\t1\t0\t1\n") &&
           !stands("out/.good.register.part"), "lot: a register that cannot be written");
    rmdir("out/good.register");
    rmdir("out/good.register.d");
    run_lot("out", "good.job\0\n", 10, &m, 0);
    expect(m.status == 0 && wrote(&m, "good.job?" UNDONE "END\t1\t0\t0\t1\n"), "lot: a zero byte in a name");
    memset(name, 'n', sizeof name);
    run_lot("out", name, sizeof name, &m, 0);
    expect(m.status == 0 && m.length == sizeof name + strlen(UNDONE "END\t1\t0\t0\t1\n") && m.bytes[5999] == 'n',
           "lot: a long name");
    run_lot("out", "good.job\n", 9, &m, "/dev/full");
    expect(m.status == 2, "lot: output that cannot be written");
    run_lot("nowhere", "good.job\n", 9, &m, 0);
    expect(m.status == 2 && m.length == 0, "lot: no folder");
    run_lot("plain", "good.job\n", 9, &m, 0);
    expect(m.status == 2 && m.length == 0, "lot: a file for a folder");
}

static void lot_options(void)
{
    static const char *const bad[] = { "", "out out", "-1 out", "--part out", "--part 2/2 out", "--part 0/0 out",
                                       "--part /1 out", "--part 1 out", "--part 0/1x out", "--resume" };
    static const char zeros[] = "\0good.job\0plain\0\0odd\nname\0a.b.c";
    static struct mode_run m;
    u32 i;
    run_lot("-0 out", zeros, sizeof zeros - 1, &m, 0);
    expect(m.status == 0 && wrote(&m, "good.job" LOADED "plain" LOADED "odd?name" UNDONE "a.b.c" LOADED
                                      "END\t4\t3\t0\t1\n"), "lot -0");
    expect(lot_writes("--part 1/3 out", "x\n\nplain\ny\nz\ngood.job", "plain" LOADED "good.job" LOADED
                      "END\t2\t2\t0\t0\n"), "lot --part");
    expect(lot_writes("--part 0/1 --resume out", "good.job\nplain", "good.job" PASSED_OVER "plain" PASSED_OVER
                      "END\t2\t2\t0\t0\n"), "lot --part --resume");
    for (i = 0; i < sizeof bad / sizeof bad[0]; i++) {
        run_lot(bad[i], "good.job\n", 9, &m, 0);
        expect(m.status == 2 && m.length == 0, "lot: options");
    }
}

/* Each register that isn't whole: the job is done again. */
static void lot_resume(void)
{
    static const char *const torn[] = {
        "", "END 00000\n", "00001 02 00 9000 07 A5 11\nEND 00002\n", "00001 02 00 9000 07 A5 11\nEND 00001",
        "00001 02 00 9000 07 A5 11\nEND 00001\n\n", "00001 02 00 9000 07 A5 11\n", "00001 02 00 9000 87 5A 11\nEND 00001\n",
        "00001 02 00 6985 07 A5 11\nEND 00001\n", "00001 02 00 9000 07 A5 1\n1END 00001\n",
        "00001\n02 00 9000 07 A5 11\nEND 00001\n",
        "00001 02 00 9000 07 A5 11\n00002 02 00 9000 07 5A 11\nEND 00002\n", "00001 02 00 9000 07 A5 11\nend 00001\n",
    };
    static char many[66000];
    u32 i;
    for (i = 0; i < sizeof torn / sizeof torn[0]; i++) {
        write_file("out/good.register", torn[i], (u32)strlen(torn[i]));
        expect(lot_writes("--resume out", "good.job\n", "good.job" LOADED "END\t1\t1\t0\t0\n") &&
               file_is("out/good.register", REGISTER_TEXT), "lot --resume: not whole");
    }
    unlink("out/good.register");
    expect(lot_writes("--resume out", "good.job\n", "good.job" LOADED "END\t1\t1\t0\t0\n"), "lot --resume: none");
    write_file("out/gone.register", "00001 02 00 9000 07 A5 11\nEND 00001\n", 36);
    expect(lot_writes("--resume out", "gone.job", "gone.job\t0\t07\tA5\t1\t-\t-\t-\t-\nEND\t1\t1\t0\t0\n"),
           "lot --resume: the job isn't read");
    for (i = 0; i < 1200; i++)
        memcpy(many + 26 * i, "00001 02 00 9000 07 A5 11\n", 26);
    memcpy(many + 26 * i, "END 01200\n", 10);
    write_file("out/gone.register", many, 26 * i + 10);
    expect(lot_writes("--resume out", "gone.job", "gone.job\t0\t07\tA5\t1200\t-\t-\t-\t-\nEND\t1\t1\t0\t0\n"),
           "lot --resume: many events");
}

/* What a lot writes is what cut and replay print. */
static void lot_is_cut_and_replay(void)
{
    static struct mode_run cut, replayed;
    static u8 bytes[JOB];
    static char text[2000];
    u32 n;
    make_chip(bytes, 6);
    n = CHIP + bytes_of(bytes + CHIP, G2000 G2100 G3100 G3800 KEYS "0801 1D");
    memset(bytes + n, 0x33, 29);
    n += 29 + bytes_of(bytes + n + 29, "0A00 FF012C");
    memset(bytes + n, 0x44, 300);
    n += 300;
    write_file("spanning.job", bytes, n);
    run_child("cut", bytes, n, &cut);
    run_child("replay", cut.bytes, cut.length, &replayed);
    memcpy(text, replayed.bytes, replayed.length);
    expect(replayed.length == 5 * 26 + 10 &&
           lot_writes("out", "spanning.job", "spanning.job\t0\t07\tA5\t5\t0102030405060708\t-\t-\t-\nEND\t1\t1\t0\t0\n") &&
           file_is("out/spanning.register", text), "lot: as cut and replay");
}

static void empty_folder(const char *name)
{
    DIR *d = opendir(name);
    struct dirent *e;
    char path[600];
    while (d != NULL && (e = readdir(d)) != NULL) {
        snprintf(path, sizeof path, "%s/%s", name, e->d_name);
        unlink(path);
    }
    if (d != NULL)
        closedir(d);
    rmdir(name);
}

static void lots(void)
{
    int here = open(".", O_RDONLY);
    if (here < 0 || mkdtemp(folder) == NULL || chdir(folder) != 0 || mkdir("out", 0777) != 0 || mkdir("folder", 0777) != 0) {
        perror(folder);
        exit(1);
    }
    make_lot_files();
    lot_lines();
    lot_files();
    lot_options();
    lot_resume();
    lot_is_cut_and_replay();
    empty_folder("out");
    empty_folder("folder");
    if (fchdir(here) != 0)
        perror("fchdir");
    close(here);
    empty_folder(folder);
}

/* ---------------------------------------------------------------- calls in a stored form */

/* A pattern with [n] for n zero bytes, [n:XX] for n bytes XX, '_' for a blank; its own blanks are left out. */
static void expand(char *to, const char *pattern)
{
    while (*pattern != 0) {
        char *end, pair[3] = "00";
        unsigned long n;
        if (*pattern == ' ') {
            pattern++;
            continue;
        }
        if (*pattern != '[') {
            *to++ = *pattern == '_' ? ' ' : *pattern;
            pattern++;
            continue;
        }
        n = strtoul(pattern + 1, &end, 10);
        if (*end == ':') {
            memcpy(pair, end + 1, 2);
            end += 3;
        }
        for (; n > 0; n--, to += 2)
            memcpy(to, pair, 2);
        pattern = end + 1;
    }
    *to = 0;
}

/* Calls in hexadecimal, and the lines that they give before END. */
static flag calls_give(const char *in, const char *lines, const char *end)
{
    static char hex[60000], text[60000];
    static u8 bytes[30000];
    static struct mode_run m;
    u32 n;
    expand(hex, in);
    n = bytes_of(bytes, hex);
    expand(text, lines);
    strcat(text, end);
    run_child("calls", bytes, n, &m);
    if (m.status == 0 && wrote(&m, text) && m.said[0] == 0)
        return 1;
    printf("calls wrote (status %d):\n%.*sand not\n%s", m.status, (int)m.length, (const char *)m.bytes, text);
    return 0;
}

static flag call_gives(const char *in, const char *line)
{
    return calls_give(in, line, "\nEND 1\n");
}

/* The parts of a card, as docs/CALLS.md orders them. */
#define FACTS "10111213 1415161718191A1B1C1D1E1F20212223 2425262728292A2B2C2D2E2F30313233 14 "
#define NAME_OF_5 NAME "[11] [7]05 "
#define NONE_OPEN "00 0000 [8] [8] "
#define NO_TABLE "[558] [8] "
#define NO_LOAD "[8] [7] 00030D40 [360] "
#define FRESH_CARD FACTS "00 00 [16] [8] CC 0000 0000 " NONE_OPEN "[18] " NO_TABLE NO_LOAD
#define INSTALLED(selected) FACTS "07 " selected NAME_OF_5 "CC 0000 0000 " NONE_OPEN "[18] " NO_TABLE NO_LOAD
#define IN_5A(gp, selected, rows, last, open, held) FACTS gp selected NAME_OF_5 "5A " rows last open held
#define TWO_FILES DF LINEAR_29_3 "[522] [7]02 "
#define EMPTY_AREA "1000 [4096:EE] "
#define AREA_STAYS "_4096:1996976128"          /* 238 x (1 + .. + 4,096) */
#define ANSWER_64 "0040 [64:EE] "
#define AN_EVENT(kind, p1, n, data, zeros) "0104 " kind p1 "00" n data "[" zeros "] "

static void calls_of_play(void)
{
    expect(call_gives("01" FRESH_CARD EMPTY_AREA ANSWER_64 AN_EVENT("01", "0C", "19", LOAD_INSTALL, "231"),
                      "play_0_9000_0_" INSTALLED("00") "_4096:0_[64:EE]"), "calls: INSTALL");
    expect(call_gives("01" INSTALLED("00") EMPTY_AREA "0041 [65:EE]" AN_EVENT("03", "00", "05", NAME, "251"),
                      "play_0_9000_9_" INSTALLED("01") AREA_STAYS "_65:502551"),
           "calls: SELECT");                                        /* 238 x (1 + .. + 65) - 7,959 */
    expect(call_gives("01" INSTALLED("7F") EMPTY_AREA ANSWER_64 AN_EVENT("03", "00", "05", NAME, "251"),
                      "play_0_9000_9_" INSTALLED("01") AREA_STAYS "_6F078405" NAME "[55:EE]"), "calls: the answer");
    expect(call_gives("01" INSTALLED("01") EMPTY_AREA ANSWER_64 AN_EVENT("02", "00", "03", "200008", "253"),
                      "play_0_6985_0_" IN_5A("87", "00", "0000", "0000", NONE_OPEN, "[18]") NO_TABLE NO_LOAD
                      AREA_STAYS "_[64:EE]"), "calls: 2000 before 9484");
}

/* A card with bytes past each length, and one that breaks sound in many ways; as given, and as printed. */
#define ODD_CARD(selected, open) FACTS "07 " selected NAME "[11:99] [7]05 CC 0000 ABCD " open \
                                 "[18:77] [558:66] [8] [8] [7] 00030D40 [360]"
#define ODD_IN ODD_CARD("05", "09 1234 [8:FF] [8:01] ")
#define ODD_OUT ODD_CARD("01", NONE_OPEN)
#define WRONG_CARD "FFFFFFFF [32] 14 07 80 [16] [8:FF] CC FFFF 1234 01 5678 [8:80] [7]12 [18:01] [558:02] 80[7] " \
                   "[8:03] [7:04] 05060708 [288:09] [64:0A] [7]41 "
#define WRONG_CARD_OUT "FFFFFFFF [32] 14 07 01 [16] [8:FF] CC FFFF 1234 01 0000 [8:80] [7]12 [18:01] [558:02] 80[7] " \
                       "[8:03] [7:04] 05060708 [288:09] [64:0A] [7]41 "
#define SELECT_RECORD AN_EVENT("03", "00", "05", NAME, "251")

static void calls_refused(void)
{
    expect(call_gives("01" WRONG_CARD "0FFF [4095:EE] 003F [63:EE] 0000", "play_1_0000_0_" WRONG_CARD_OUT
                      "_4095:1996001280_[63:EE]"), "calls: play 1");
    expect(call_gives("01" WRONG_CARD EMPTY_AREA "003F [63:EE] 0000", "play_2_0000_0_" WRONG_CARD_OUT AREA_STAYS
                      "_[63:EE]"), "calls: play 2");
    expect(call_gives("01" WRONG_CARD EMPTY_AREA ANSWER_64 "0000", "play_6_0000_0_" WRONG_CARD_OUT AREA_STAYS
                      "_[64:EE]"), "calls: play 6");
    expect(call_gives("01" ODD_IN EMPTY_AREA ANSWER_64 "0000", "play_3_0000_0_" ODD_OUT AREA_STAYS "_[64:EE]"),
           "calls: play 3");
    expect(call_gives("01" ODD_IN EMPTY_AREA ANSWER_64 "0104 [260:09]", "play_4_0000_0_" ODD_OUT AREA_STAYS
                      "_[64:EE]"), "calls: play 4");
    expect(call_gives("01" ODD_IN EMPTY_AREA ANSWER_64 "0104 [260:08]", "play_5_0000_0_" ODD_OUT AREA_STAYS
                      "_[64:EE]"), "calls: play 5");
    expect(call_gives("02" WRONG_CARD "0000 0001 00 0000", "run_1_0_" WRONG_CARD_OUT "_-_-"), "calls: run 1");
    expect(call_gives("02" WRONG_CARD EMPTY_AREA "0001 00 0001 1234", "run_6_0_" WRONG_CARD_OUT AREA_STAYS "_1234"),
           "calls: run 6");
    expect(call_gives("02" ODD_IN EMPTY_AREA "0103 [259] 0000", "run_3_0_" ODD_OUT AREA_STAYS "_-"), "calls: run 3");
    expect(call_gives("02" ODD_IN EMPTY_AREA "0208 [520] 0001 1234", "run_11_0_" ODD_OUT AREA_STAYS "_1234"),
           "calls: run 11");
    expect(call_gives("03" WRONG_CARD "0000 0101", "shown_1_0_-"), "calls: shown 1");
    expect(call_gives("03" WRONG_CARD EMPTY_AREA "0101", "shown_6_0_-"), "calls: shown 6");
    expect(call_gives("03" ODD_IN EMPTY_AREA "0101", "shown_8_0_-"), "calls: shown 8");
}

/* Bytes past a length stay but where a name, a secret, a passed descriptor or a dropped value zeroes them. */
static void calls_keep_bytes(void)
{
#define HELD "[18:77] "
#define NO_FILES "[558:66] [8] "
#define FILES DF LINEAR_29_3 "[522:66] [7]02 "
#define SSNN_OPEN "02 0802 [7]01 [7]02 "
    expect(call_gives("01" ODD_IN EMPTY_AREA ANSWER_64 SELECT_RECORD, "play_0_9000_9_" ODD_OUT AREA_STAYS
                      "_6F078405" NAME "[55:EE]"), "calls: SELECT leaves them");
    expect(call_gives("01" IN_5A("07", "01", "0001", "0000", NONE_OPEN, HELD) NO_FILES NO_LOAD EMPTY_AREA ANSWER_64
                      AN_EVENT("05", "00", "00", "", "256"), "play_0_0000_0_"
                      IN_5A("87", "00", "0001", "0000", NONE_OPEN, HELD) NO_FILES NO_LOAD AREA_STAYS "_[64:EE]"),
           "calls: a lock with nothing open leaves the held bytes");
    expect(call_gives("01" IN_5A("07", "01", "0010", "0000", SSNN_OPEN, HELD) FILES NO_LOAD EMPTY_AREA ANSWER_64
                      AN_EVENT("05", "00", "00", "", "256"), "play_0_0000_0_"
                      IN_5A("87", "00", "0010", "0000", NONE_OPEN, "[18]") FILES NO_LOAD AREA_STAYS "_[64:EE]"),
           "calls: a dropped value doesn't");
    expect(call_gives("01" IN_5A("07", "01", "0010", "0000", SSNN_OPEN, HELD) FILES NO_LOAD "1000 [4096] " ANSWER_64
                      AN_EVENT("02", "00", "02", "A1A2", "254"), "play_0_9000_0_"
                      IN_5A("07", "01", "0410", "0802", NONE_OPEN, HELD) FILES NO_LOAD "_4096:10175_[64:EE]"),
           "calls: an ssnn that comes to its end leaves them");     /* 31 x 161 + 32 x 162 */
    expect(call_gives("01" IN_5A("07", "01", "0007", "FFFF", NONE_OPEN, HELD) NO_FILES NO_LOAD EMPTY_AREA ANSWER_64
                      AN_EVENT("02", "00", "05", "310024 3F00", "251"), "play_0_9000_0_"
                      IN_5A("07", "01", "0007", "FFFF", "01 0000 [7]02 [7]22 ", "3F00 [16:77]") NO_FILES NO_LOAD
                      AREA_STAYS "_[64:EE]"), "calls: 3100 opens over them");
    expect(call_gives("01" IN_5A("07", "01", "0007", "0000", "01 0000 [7]02 [7]22 ", "3F00 [16:77]") NO_FILES NO_LOAD
                      EMPTY_AREA ANSWER_64 AN_EVENT("02", "00", "11", "00020000 [12] 20", "239"), "play_0_9000_0_"
                      IN_5A("07", "01", "0007", "0000", "01 0000 [7]01 [7]11 ", "20 [17]") DF "[540:66] [7]01" NO_LOAD
                      AREA_STAYS "_[64:EE]"), "calls: a descriptor that passes zeroes them");
    expect(call_gives("01" IN_5A("07", "01", "0017", "0000", NONE_OPEN, "[18]") FILES
                      "[8] [7] 00030D40 [64:55] [8] [288]" EMPTY_AREA ANSWER_64
                      AN_EVENT("02", "00", "05", "380002 A801", "251"), "play_0_9000_0_"
                      IN_5A("07", "01", "0037", "0000", NONE_OPEN, "[18]") FILES
                      "[8] [7] 00030D40 A801 [62] [7]02 [288]" AREA_STAYS "_[64:EE]"),
           "calls: a secret zeroes its own");
}

/* SELECT, a record of kind 0, DESELECT; words past the third stay. */
static void calls_of_run(void)
{
    expect(call_gives("02" INSTALLED("00") EMPTY_AREA "030C 03000005" NAME "[251] [260] 05[259] 0004 1111222233334444",
                      "run_0_3_" INSTALLED("00") AREA_STAYS "_9000000000004444"), "calls: run");
    expect(call_gives("02" INSTALLED("00") EMPTY_AREA "0104 03000005" NAME "[251] 0021 [66:01]",
                      "run_0_1_" INSTALLED("01") AREA_STAYS "_66:2352"), "calls: 33 words");    /* 2,211 + 143 - 2 */
    expect(call_gives("02" INSTALLED("00") EMPTY_AREA "0000 0000", "run_0_0_" INSTALLED("00") AREA_STAYS "_-"),
           "calls: a session of 0 bytes");
}

#define PERSONALIZED(count) FACTS "07 01" NAME_OF_5 "A5 0010 0000 " NONE_OPEN "[18] " DF LINEAR_29_3 BINARY_300 \
                            "[504:66]" count NO_LOAD

static void calls_of_shown(void)
{
#define THREE_RECORDS "1000 [29:11] [29:22] [29:33] [300:44] [3709:EE] "
    expect(call_gives("03" PERSONALIZED("[7]03") THREE_RECORDS "0802", "shown_0_29_[29:22]"), "calls: shown");
    expect(call_gives("03" PERSONALIZED("[7]03") THREE_RECORDS "0803", "shown_0_58_[29:33]"), "calls: the last");
    expect(call_gives("03" PERSONALIZED("[7]03") THREE_RECORDS "0804", "shown_8_0_-"), "calls: one past it");
    expect(call_gives("03" PERSONALIZED("[7]03") THREE_RECORDS "0A00", "shown_0_87_300:3070200"),
           "calls: a binary file");                                 /* 68 x (1 + .. + 300) */
    expect(call_gives("03" PERSONALIZED("[7]02") THREE_RECORDS "0A00", "shown_8_0_-"), "calls: one past the count");
    expect(call_gives("03" PERSONALIZED("[6]0103") THREE_RECORDS "0802", "shown_6_0_-"), "calls: 259 descriptors");
    expect(call_gives("03" PERSONALIZED("00000001[3]03") THREE_RECORDS "0802", "shown_6_0_-"),
           "calls: 2^32 + 3 descriptors");
}

static void calls_of_count_and_fresh(void)
{
    expect(calls_give("04 FFFF 04 0000 04 0417", "count_16\ncount_0\ncount_5", "\nEND 3\n"), "calls: count");
    expect(call_gives("05 0028" FACTS "000000", "fresh_0_" FRESH_CARD), "calls: fresh");
#define ZERO_CARD "[39] [16] [8] CC 0000 0000 " NONE_OPEN "[18] " NO_TABLE NO_LOAD
    expect(call_gives("05 0027" FACTS "0000", "fresh_7_" ZERO_CARD), "calls: fresh of 39 bytes");
    expect(call_gives("05 0029" FACTS "00000000", "fresh_7_" ZERO_CARD), "calls: fresh of 41 bytes");
    expect(call_gives("05 0028" FACTS "000001", "fresh_7_" ZERO_CARD), "calls: fresh with a last byte");
    expect(call_gives("05 0000", "fresh_7_" ZERO_CARD), "calls: fresh of nothing");
    expect(call_gives("05 0028 [40]", "fresh_0_" ZERO_CARD), "calls: fresh of zeros");
}

/* An order of 150 bytes in two records: room of 521 bytes keeps its last. */
static void calls_of_write(void)
{
    static u8 room[2 * RECORD];
    char line[60];
    u64 sum = 521 * 0xEE;
    u32 i;
    bytes_of(room, "02 01 00 03 948400");
    bytes_of(room + RECORD, "02 80 00 96" ORDER_HEX);
    for (i = 0; i < sizeof room; i++)
        sum += (u64)(i + 1) * room[i];
    sprintf(line, "write_0_2_521:%llu", sum);
    expect(call_gives("06 0028" FACTS "000000 0096" ORDER_HEX "0209 [521:EE]", line), "calls: write");
    expect(call_gives("06 0028" FACTS "000000 0096" ORDER_HEX "0207 [519:EE]", "write_11_0_519:32115720"),
           "calls: write 11");                                      /* 238 x (1 + .. + 519) */
    expect(call_gives("06 0028" FACTS "000000 0095 200008[146] 0000", "write_10_0_-"), "calls: write 10");
    expect(call_gives("06 0028" FACTS "000000 2001 [8193] 0001 EE", "write_9_0_EE"), "calls: write 9");
    expect(call_gives("06 0028" FACTS "000100 2001 [8193] 0001 EE", "write_7_0_EE"), "calls: write 7");
}

static void calls_of_pull(void)
{
#define THREE_GROUPINGS "07 000E 2000 02 0A0B 1234 FF0000 5678 03 AA "
    expect(call_gives(THREE_GROUPINGS "[8]", "pull_0_2000_3_5_0A0B"), "calls: pull");
    expect(call_gives(THREE_GROUPINGS "[7]05", "pull_0_1234_10_10_-"), "calls: pull of an empty value");
    expect(call_gives(THREE_GROUPINGS "[7]0A", "pull_2_0000_0_10_-"), "calls: a value not whole");
    expect(call_gives(THREE_GROUPINGS "[7]0C", "pull_2_0000_0_12_-"), "calls: a header not whole");
    expect(call_gives(THREE_GROUPINGS "[7]0E", "pull_1_0000_0_14_-"), "calls: at the end");
    expect(call_gives(THREE_GROUPINGS "00000001[4]", "pull_1_0000_0_4294967296_-"), "calls: past 32 bits");
    expect(call_gives(THREE_GROUPINGS "[8:FF]", "pull_1_0000_0_18446744073709551615_-"), "calls: the last place");
    expect(call_gives("07 0000 [8]", "pull_1_0000_0_0_-"), "calls: of nothing");
    expect(call_gives("07 0006 2000FFFFFF00 [8]", "pull_2_0000_0_0_-"), "calls: FFFF");
    expect(call_gives("07 0046 FFFF FF0041 [65:01] [8]", "pull_0_FFFF_5_70_65:2145"), "calls: a value of 65");
    expect(call_gives("07 0043 0001 40 [64:01] [8]", "pull_0_0001_3_67_[64:01]"), "calls: a value of 64");
}

/* These calls give these lines and no END; what is said names a number. */
static flag calls_stop(const char *in, const char *lines, const char *number)
{
    static char hex[60000], text[1000];
    static u8 bytes[30000];
    static struct mode_run m;
    u32 n;
    expand(hex, in);
    n = bytes_of(bytes, hex);
    expand(text, lines);
    run_child("calls", bytes, n, &m);
    return m.status == 2 && wrote(&m, text) && strstr(m.said, number) != NULL;
}

static void calls_that_are_none(void)
{
    expect(calls_give("", "", "END 0\n"), "calls: none at all");
    expect(calls_stop("00", "", "1"), "calls: of byte 0");
    expect(calls_stop("04 0001 08", "count_1\n", "2"), "calls: of byte 8");
    expect(calls_stop("04 0001 04 0003 04 00", "count_1\ncount_2\n", "3"), "calls: torn");
    expect(calls_stop("05", "", "1") && calls_stop("05 0028 [39]", "", "1"), "calls: torn memory");
    expect(calls_stop("07 30C1 [12481] [8]", "", "1"), "calls: memory that is too long");
    expect(call_gives("07 30C0 [12480] [8]", "pull_0_0000_3_3_-"), "calls: the longest");
    expect(calls_stop("02" FRESH_CARD "0000 0000 0041 [130]", "", "1"), "calls: words that are too many");
    expect(call_gives("02" FRESH_CARD "0000 0000 0040 [128]", "run_1_0_" FRESH_CARD "_-_128:0"), "calls: 64 words");
    expect(calls_stop("01 [1049]", "", "1"), "calls: a torn card");
}

/* `second calls` from a file (or folder) to a file. */
static int calls_status(const char *from, const char *to)
{
    int status = 0;
    pid_t child;
    fflush(stdout);
    child = fork();
    if (child == 0) {
        int in = open(from, O_RDONLY), out = open(to, O_WRONLY | O_CREAT | O_TRUNC, 0666);
        if (in < 0 || out < 0 || dup2(in, 0) < 0 || dup2(out, 1) < 0 || freopen("/dev/null", "w", stderr) == NULL)
            _exit(99);
        _exit(calls(2, 0));
    }
    waitpid(child, &status, 0);
    return WIFEXITED(status) ? WEXITSTATUS(status) : 100;
}

/* `second generatecalls` in a child, for it keeps what it counts. */
static int generate_status(const char *number, const char *count, const char *to)
{
    char mode[] = "generatecalls", seed[20], n[20], path[200], *argv[5] = { mode, mode, seed, n, path };
    int status = 0;
    pid_t child;
    snprintf(seed, sizeof seed, "%s", number);
    snprintf(n, sizeof n, "%s", count);
    snprintf(path, sizeof path, "%s", to);
    fflush(stdout);
    child = fork();
    if (child == 0) {
        if (freopen("/dev/null", "w", stdout) == NULL || freopen("/dev/null", "w", stderr) == NULL)
            _exit(99);
        _exit(generatecalls(5, argv));
    }
    waitpid(child, &status, 0);
    return WIFEXITED(status) ? WEXITSTATUS(status) : 100;
}

static flag same_files(const char *a, const char *b)
{
    FILE *x = fopen(a, "rb"), *y = fopen(b, "rb");
    int c = 0, d = 0;
    while (x != NULL && y != NULL && c == d && c != EOF) {
        c = getc(x);
        d = getc(y);
    }
    if (x != NULL)
        fclose(x);
    if (y != NULL)
        fclose(y);
    return c == EOF && d == EOF;
}

static flag ends_with(const char *path, const char *text)
{
    char bytes[100] = "";
    FILE *f = fopen(path, "rb");
    flag good = f != NULL && fseek(f, -(long)strlen(text), SEEK_END) == 0 &&
                fread(bytes, 1, strlen(text), f) == strlen(text);
    if (f != NULL)
        fclose(f);
    return good && strcmp(bytes, text) == 0;
}

static void generated_calls(void)
{
    static char calls_folder[] = "/tmp/second-calls-XXXXXX";
    int here = open(".", O_RDONLY);
    if (here < 0 || mkdtemp(calls_folder) == NULL || chdir(calls_folder) != 0) {
        perror(calls_folder);
        exit(1);
    }
    expect(generate_status("1", "1000", "a") == 0, "generatecalls: every number comes within 1,000");
    expect(generate_status("1", "1000", "b") == 0 && same_files("a", "b"), "generatecalls: the same by its seed");
    expect(generate_status("2", "1000", "b") == 0 && !same_files("a", "b"), "generatecalls: another by another");
    expect(generate_status("1", "10", "b") == 0, "generatecalls: few calls");
    expect(generate_status("1", "10", "/dev/full") == 2, "generatecalls: a file that cannot be written");
    expect(generate_status("1", "10", "none/b") == 2, "generatecalls: no such folder");
    expect(calls_status("a", "lines") == 0 && ends_with("lines", "\nEND 1000\n"), "calls: generated ones");
    expect(calls_status("a", "/dev/full") == 2, "calls: output that cannot be written");
    expect(calls_status("/", "lines") == 2, "calls: input that cannot be read");
    if (fchdir(here) != 0)
        perror("fchdir");
    close(here);
    empty_folder(calls_folder);
}

static void stored_calls(void)
{
    calls_of_play();
    calls_refused();
    calls_keep_bytes();
    calls_of_run();
    calls_of_shown();
    calls_of_count_and_fresh();
    calls_of_write();
    calls_of_pull();
    calls_that_are_none();
    generated_calls();
}

int selftest(void)
{
    example_1();
    example_2();
    example_3();
    example_4();
    example_5();
    example_6();
    example_7();
    example_8();
    example_9();
    example_10();
    example_11();
    example_12();
    replay_sample();
    replay_numbers();
    replay_sum();
    trace_sample();
    cut_and_groupings();
    groupings_long();
    numbers_of_an_event();
    padding();
    numbers_of_a_session();
    shown_records();
    numbers_of_the_writer();
    orders();
    fresh_cards();
    sound_states();
    sound_tables();
    sound_open_tables();
    install_events();
    kinds_in_5a();
    personalized();
    rule_b_cases();
    rules_c_to_g();
    spanned_values();
    descriptor_rules();
    bytes_past_lengths();
    reader_endings();
    stopping_places();
    texts();
    lots();
    stored_calls();
    if (failures != 0) {
        printf("second: %u of %u tests failed\n", failures, tests);
        return 1;
    }
    printf("second: %u tests passed\n", tests);
    return 0;
}
