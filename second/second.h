/* second.h: what the model (second.c) shows to lot.c, calls.c, the generators (generate.c, jobs.c, generate_calls.c)
 * and the tests (tests.c).
 * "The paper" is document 01; the decisions beyond it are at the top of second.c. */
#ifndef SECOND_H
#define SECOND_H

typedef unsigned char u8;
typedef unsigned short u16;
typedef unsigned int u32;
typedef unsigned long long u64;
typedef _Bool flag;

enum {
    AREA = 4096,        /* file area: exactly these lent bytes */
    ANSWER = 64,        /* answer buffer: at least these */
    RECORD = 260,       /* event record */
    DATA = 255,         /* its data bytes */
    CHIP = 40,          /* chip record */
    ORDER = 8192,       /* longest order */
    JOB = CHIP + ORDER, /* longest job */
    SESSION = 66,       /* more records than a job can fill: a closed command holds at least 187 bytes */
    LINE = 26,          /* replay's line for an event, */
    LAST_LINE = 10,     /* and its last */
    SUM_LINE = 16,      /* the line of replay --sum */
    TABLE = 31,         /* descriptors at most */
    DESCRIPTOR = 18,    /* bytes of one */
    SECRET = 64,        /* bytes of a secret at most */
    SECRETS = 5         /* '3800', '4101' to '4104' */
};

enum kind { INSTALL = 1, STORE_DATA, SELECT, OTHER, DESELECT, RESET, LOCK, UNLOCK };

/* Places of a descriptor's fields. */
enum {
    D_LID = 0, D_SFI = 2, D_FILE = 3, D_EF = 4, D_REC = 5, D_NUM = 6, D_AC = 7, D_KEY = 11, D_REF = 15, D_STATUS = 17
};

/* EF types. */
enum { BINARY = 0x01, LINEAR = 0x02, CYCLIC = 0x04, SIMULATED = 0x08, COUNTERS = 0x09 };

/* Every way in which an event can end, with its word. */
#define OUTCOMES(X) \
    X(PASSED,            0x9000, "passed") \
    X(NO_WORD,           0x0000, "DESELECT, RESET") \
    X(INVALIDATED,       0x6283, "SELECT: DF invalidated") \
    X(LOCKED_NAME,       0x6283, "locked in 5A: SELECT of the name") \
    X(LOCKED_OTHER,      0x6A82, "locked in 5A: SELECT of another name") \
    X(LOCKED_ELSE,       0x6985, "locked in 5A: all else") \
    X(INSTALL_P1,        0x6A86, "INSTALL: P1") \
    X(INSTALL_FORM,      0x6A80, "INSTALL: form of the data") \
    X(INSTALL_PRESENT,   0x6985, "INSTALL 04, 0C: card present") \
    X(INSTALL_ABSENT,    0x6A88, "INSTALL 08: absent") \
    X(INSTALL_NAME,      0x6A88, "INSTALL 08: another name") \
    X(INSTALL_NOT_03,    0x6985, "INSTALL 08: not 03") \
    X(SELECT_STATE,      0x6A82, "SELECT: state not 07") \
    X(SELECT_NAME,       0x6A82, "SELECT: another name") \
    X(LOCK_ABSENT,       0x6A88, "LOCK: absent") \
    X(LOCK_LOCKED,       0x6985, "LOCK: locked") \
    X(UNLOCK_ABSENT,     0x6A88, "UNLOCK: absent") \
    X(UNLOCK_UNLOCKED,   0x6985, "UNLOCK: not locked") \
    X(OTHER_SELECTED,    0x6D00, "kind 4: selected") \
    X(OTHER_UNSELECTED,  0x6985, "kind 4: not selected") \
    X(STORE_UNSELECTED,  0x6985, "STORE DATA: not selected") \
    X(STORE_EMPTY,       0x6700, "STORE DATA: empty") \
    X(A_TORN,            0x6A80, "a: header not whole") \
    X(A_FFFF,            0x6A80, "a: length FFFF") \
    X(B_PLACE,           0x6A80, "b: not at data byte 0") \
    X(B_NOT_EMPTY,       0x6A80, "b: not empty") \
    X(B_NOT_ALONE,       0x6A80, "b: not alone") \
    X(B_P1,              0x6A86, "b: P1") \
    X(B_STATE,           0x6985, "b: 9484 outside CC") \
    X(B_ONCE,            0x6985, "b: 9484 twice") \
    X(C_DONE,            0x6985, "c: in A5") \
    X(D_UNKNOWN,         0x6A88, "d: unknown tag") \
    X(D_MISSING,         0x6985, "d: mandatory row before it missing") \
    X(D_LATE,            0x6985, "d: it or a later row taken") \
    X(D_RISING,          0x6985, "d: ssnn not rising") \
    X(E_SFI,             0x6A88, "e: SFI not listed") \
    X(E_TYPE,            0x6A88, "e: SFI listed as 08") \
    X(E_RECORD,          0x6A88, "e: nn") \
    X(F_2000,            0x6700, "f: length of 2000") \
    X(F_2100,            0x6700, "f: length of 2100") \
    X(F_2200,            0x6700, "f: length of 2200") \
    X(F_3100,            0x6700, "f: length of 3100") \
    X(F_3800,            0x6700, "f: length of 3800") \
    X(F_410n,            0x6700, "f: length of 410n") \
    X(F_SSNN,            0x6700, "f: length of ssnn") \
    X(G_CUT,             0x6A80, "g: cut short") \
    X(H_FIRST,           0x6A80, "h: 2100 first byte not 6 to 55") \
    X(H_LAST,            0x6A80, "h: 2100 last two not zero") \
    X(H_CAPACITY,        0x6A84, "h: capacity under 6") \
    X(T_DF_SFI,          0x6A80, "table: DF SFI") \
    X(T_DF_FILE,         0x6A80, "table: DF FileType") \
    X(T_DF_EF,           0x6A80, "table: DF EFType") \
    X(T_DF_SIZE,         0x6A80, "table: DF sizes") \
    X(T_DF_REF,          0x6A80, "table: DF DataRef") \
    X(T_DF_STATUS,       0x6A80, "table: DF status") \
    X(T_EF_SFI,          0x6A80, "table: EF SFI over 1E") \
    X(T_EF_FILE,         0x6A80, "table: EF FileType") \
    X(T_EF_TYPE,         0x6A80, "table: EFType") \
    X(T_EF_STATUS,       0x6A80, "table: EF status") \
    X(T_LID,             0x6A80, "table: LID twice") \
    X(T_SFI,             0x6A80, "table: SFI twice") \
    X(T_AC,              0x6A80, "table: AC") \
    X(T_KEY,             0x6A80, "table: NKey") \
    X(T_SIZE,            0x6A80, "table: size 0") \
    X(T_REF_ZERO,        0x6A80, "table: DataRef not 0") \
    X(T_REF_FILE,        0x6A80, "table: DataRef names no earlier 09") \
    X(T_REF_NUMBER,      0x6A80, "table: DataRef number") \
    X(T_TOTAL,           0x6A84, "table: size total over 4,096") \
    X(END_MISSING,       0x6985, "end: mandatory row missing") \
    X(END_OPEN,          0x6985, "end: value open")

enum outcome {
#define OUTCOME_NAME(name, word, text) name,
    OUTCOMES(OUTCOME_NAME)
#undef OUTCOME_NAME
    OUTCOME_COUNT
};

struct secret { u8 length, bytes[SECRET]; };

struct card {
    u8 reference[4], challenge[16], traceability[16], capacity;
    u8 gp, internal;
    flag selected;
    u8 name_length, name[16];
    u16 rows;                       /* row r is bit r - 1 */
    u16 last_tag;                   /* the last 'ssnn' taken */
    u8 serial[8], startup[7];
    u32 counter;
    struct secret secrets[SECRETS];
    u8 descriptors;                 /* how many of the table stand */
    u8 table[TABLE][DESCRIPTOR];
    u16 open_tag;                   /* 0: no open value */
    u32 open_count;                 /* bytes held of a descriptor ('3100') or written ('ssnn') */
    u32 open_missing;
    u8 held[DESCRIPTOR];
};

struct answer { u8 *bytes; u32 length; };
struct step { u32 number; u16 word; u32 answer_length; };
struct ran { u32 number, records; };
struct stop { enum outcome why; u32 place; flag tagged; u16 tag; };     /* where an order's walk stops */
struct part { u32 number; const u8 *bytes; u32 length; };
struct header { u16 tag; u32 size, length; };
struct reader { const u8 *order; u32 length, at; };
struct grouping { u16 tag; const u8 *value; u32 length; };
enum pulled { PULLED, AT_END, NOT_WHOLE };

u16 word_of(enum outcome o);
u32 fresh(struct card *c, const u8 *chip, u32 length);
flag sound(const struct card *c);
u32 taken(const struct card *c);
u32 record_form(const u8 *record);
enum outcome event(struct card *c, u8 *area, const u8 *record, struct answer *a);
struct step play(struct card *c, u8 *area, u32 area_length, u8 *answer, u32 answer_room,
                 const u8 *record, u32 record_length);
struct ran run(struct card *c, u8 *area, u32 area_length, const u8 *session, u32 length, u16 *words, u32 room);
struct part shown(const struct card *c, const u8 *area, u32 area_length, u8 sfi, u8 record);
enum outcome judge_descriptor(const struct card *c, u32 before, const u8 *d);
u32 file_size(const u8 *d);
struct stop walk_order(const u8 *chip, const u8 *order, u32 length);
u16 stop_word(const struct stop *s);
enum outcome judge_order(const u8 *chip, const u8 *order, u32 length);
struct ran write_order(const u8 *chip, u32 chip_length, const u8 *order, u32 length, u8 *room, u32 room_length);
enum outcome read_header(const u8 *data, u32 length, struct header *h);
flag spans(u16 tag);
flag rows_agree(void);
enum pulled pull(struct reader *r, struct grouping *g);
void replay_line(u8 *line, u64 events, const u8 *record, u32 number, u16 word, const struct card *c);
void replay_end(u8 *line, u64 events);
struct ran cut_job(const u8 *job, u32 length, u8 *room);

/* Standard output, gathered. */
u8 *output_room(u32 n);
flag flush(void);
flag output_good(void);
void put_char(char c);
void put_text(const char *text);
void put_hex(u32 count, u32 value);
void put_decimal(u64 value);
void put_bytes(const u8 *bytes, u32 n);
void decimal(u8 *to, u32 count, u32 value);
void hexadecimal(u8 *to, u32 count, u32 value);

/* A job as text (lot.c). The text comes in parts of any size; the first JOB + 1 bytes that it gives are kept. */
struct text {
    u64 at;                     /* bytes of the text read */
    u64 line, from;             /* the line being read, and where its first column is */
    u32 state, high;
    u64 length;                 /* bytes given */
    u32 kind;                   /* of the fault: 1, 2; 0: none */
    u64 fault_at, fault_line, fault_column;
};
void begin_text(struct text *t);
flag read_text(struct text *t, const u8 *bytes, u32 n, u8 *job);
flag end_text(struct text *t);

int run_mode(const char *mode, const char *word);
int lot(int argc, char **argv);
int lotjobs(int argc, char **argv);
int realjobs(int argc, char **argv);
int generate(int argc, char **argv);
int big(int argc, char **argv);
int calls(int argc, char **argv);
int generatecalls(int argc, char **argv);
int selftest(void);

#endif
