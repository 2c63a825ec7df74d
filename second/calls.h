/* calls.h: calls in a stored form (docs/CALLS.md): what calls.c shows to their generator (generate_calls.c). */
#ifndef CALLS_H
#define CALLS_H
#include "second.h"

enum {
    CARD = 1050,            /* bytes of a card */
    MEMORY = 12480,         /* bytes of lent memory at most */
    WORDS = 64              /* lent words at most */
};

enum which { PLAY = 1, RUN, SHOW, COUNT, FRESH, WRITE, PULL, WHICH_END };

/* A call's parts. The first ones are lent memory, with a length before it; words are memory of two bytes each. */
enum part_name {
    NO_PART, P_AREA, P_ANSWER, P_RECORD, P_SESSION, P_CHIP, P_ORDER, P_ROOM, P_WORDS, LENT_END,
    P_CARD = LENT_END, P_FILE, P_ROWS, P_PLACE
};

/* Places of a card's fields. */
enum {
    C_REFERENCE = 0, C_CHALLENGE = 4, C_TRACEABILITY = 20, C_CAPACITY = 36, C_GP = 37, C_SELECTED = 38, C_NAME = 39,
    C_NAME_LENGTH = 55, C_INTERNAL = 63, C_ROWS = 64, C_LAST_TAG = 66, C_OPEN = 68, C_OPEN_TAG = 69, C_OPEN_COUNT = 71,
    C_OPEN_MISSING = 79, C_HELD = 87, C_TABLE = 105, C_DESCRIPTORS = 663, C_SERIAL = 671, C_STARTUP = 679,
    C_COUNTER = 686, C_SECRETS = 690, C_SECRET_SIZE = SECRET + 8
};

enum { OPEN_TABLE = 1, OPEN_RECORD = 2 };       /* the open value: '3100', an 'ssnn' */

struct memory { u32 length; u8 bytes[MEMORY]; };

/* A call as it is stored: each number with its most significant byte first. */
struct call {
    u8 which;
    struct memory lent[LENT_END];
    u8 card[CARD], file[2], rows[2], place[8];
};

/* What came back; the card and the lent bytes are the call's own. */
struct result {
    u32 number, count;              /* count: answer bytes, records or rows */
    u16 word, tag;
    enum pulled ending;
    u64 place, next;
    const u8 *part;
    u32 length;                     /* of the part */
};

u64 number_at(const u8 *from, u32 n);
void set_number(u8 *to, u32 n, u64 value);
void load_card(struct card *c, const u8 *from);
void store_card(u8 *to, const struct card *c);
void normalise_card(u8 *bytes);
void make_call(struct call *k, struct result *r);
u32 store_call(const struct call *k, u8 *to);

enum { LONGEST_CALL = 1 + CARD + 3 * (2 + MEMORY) };

#endif
