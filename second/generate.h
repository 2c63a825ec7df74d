/* generate.h: what the generator of sessions and jobs (generate.c) shows to those of lots (jobs.c) and calls
 * (generate_calls.c). */
#ifndef GENERATE_H
#define GENERATE_H
#include "second.h"

/* Chance. */
extern u64 seed;
u32 below(u32 n);
u32 between(u32 a, u32 b);
flag chance(u32 percent);
u8 any_byte(void);
void fill(u8 *to, u32 n);
void flip_bit(u8 *bytes, u32 n);
void spoil(u8 *bytes, u32 n, u32 a, u32 b);

/* An order as a list of groupings. */
enum { MAX_ORDER = 60000 };
struct item { u16 tag; u32 claimed, length, value; flag wide; };
extern struct item items[];
extern u32 item_count;
u8 *value_of(const struct item *it);
struct item *insert(u32 at, u32 tag, const u8 *value, u32 length);
void append(u32 tag, const u8 *value, u32 length);
u32 find(u16 tag);
u32 encode(u8 *to);
void clear_list(void);

/* The file table of that order. */
enum total { ANY_TOTAL, EXACT_TOTAL, OVER_TOTAL };
extern u8 table[TABLE * DESCRIPTOR];
extern u32 table_count, table_total;
u8 *descriptor(u32 i);
const u8 *listed(u32 sfi);
u32 record_size(const u8 *d);
u32 any_files(void);

/* Orders that pass, and damage to them. */
void make_chip_record(u8 *chip, flag low);
void make_order(u32 files, enum total total, u32 percent);
void make_long_order(u32 target);
enum total any_total(void);
u32 any_percent(void);
void damage_table(u32 turn);
void damage_reference(u32 turn);
void damage_length(u32 turn);
void damage_startup(u32 turn);
void damage_records(u32 turn);
void damage_grouping(u32 turn);

/* The session at hand. */
enum { MAX_EVENTS = 4000 };
extern u8 session[];
extern u32 events;
const u8 *session_name(u8 *length);
u8 *record_at(u32 i);
void new_session(void);
u32 make_session(u32 i);
void add_install(u8 p1);
void add_select(void);
void add_query(u32 tag, u8 p1);
void add_refused(void);
void add_noise(void);
void add_kind(u32 kind);
void set_cutting(void);
void cut_rest(const u8 *rest, u32 length);

/* What came, and what did not. */
extern u32 missing;
extern const char *const outcome_texts[OUTCOME_COUNT];
void report(const char *what, u32 count, flag wanted);

#endif
