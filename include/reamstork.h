/*
 * reamstork.h - a packet filter for gateways with a timing sheet
 *
 * A store holds a table of rules and a search tree built from it, in
 * words that the caller lends.  A lookup names the rule that decides a
 * packet and says how many cells of the tree it read.  An image is a store
 * frozen: read-only words in which a lookup reads fewer, larger pieces.
 *
 * This header is the manual.  It needs <stddef.h> and <stdint.h> and
 * nothing else.  The library allocates nothing, keeps no state between
 * calls and never blocks; of a C library it needs at most what a compiler
 * may ask for by itself, memcpy, memmove, memset and memcmp.
 *
 *     static uint32_t store[REAMSTORK_WORDS(1920)];
 *     size_t len = sizeof store / sizeof store[0];
 *
 *     reamstork_start(store, len, 1920);
 *     reamstork_insert(store, len, 10, 2, low, high);
 *     reamstork_found f = reamstork_lookup_packet(store, len, frame, n);
 *     if (f.answer == REAMSTORK_DONE) switch (f.action) { ... }
 *
 * Pages named here as docs/.. stand in the folder docs of the sources, and
 * in share/doc/reamstork where the library is installed.  docs/GUIDE.md is
 * the one to read next.
 *
 *
 * WHAT EVERY CALL PROMISES
 *
 *  - It ends, for all words, bytes, rules and sizes that it is handed.
 *  - It reads and writes only inside what it was lent.  No call relies on
 *    the caller having looked: words damaged in battery-backed memory, or
 *    written by somebody else, are taken like any other.
 *  - What it cannot take it refuses by a number from the table below.
 *    0 means done.  A refusal changes no word, and gives 0 in every other
 *    number of its answer; a refused list of edits alone names a place.
 *  - LOOK AT THE ANSWER FIRST.  The zeros of a refusal are real numbers
 *    too: a table may have a rule 0, and an action 0 is often "drop".
 *    Nothing but the answer tells a refusal from a decision.
 *  - The answer, and all words afterwards, are a function of the arguments
 *    and of what they point to.  The same call on the same words always
 *    gives the same answer and leaves the same words.
 *
 *
 * WHAT THE CALLER MUST KEEP
 *
 * These cannot be seen from inside a call.  If one is broken, nothing is
 * promised.
 *
 *  - `words` points to at least `len` words of 32 bits, aligned as
 *    uint32_t is; so does `image` to at least `image_len` words, or `len`
 *    where it is the only one, and `from` to at least `from_len` words;
 *    `packet` points to at least `packet_len` bytes; `low` and `high` point
 *    to six words each; `tallies` points to a reamstork_tallies; `records`
 *    points to at least `count` of reamstork_record and `edits` to at least
 *    `count` of reamstork_edit; `out` points to at least `len` bytes and
 *    `data` to at least `data_len` bytes.  No pointer is null, not even with
 *    a length or count of 0.
 *  - A call that writes its words (start, start_with, carry, insert,
 *    delete, edit_list) has them to itself while it runs: no other thread,
 *    interrupt or device reads or writes them, and neither `low` and `high`
 *    nor any of `edits` nor any word of `from` lie within them.
 *    freeze has its image to itself in the same way, and it does not
 *    overlap the words.  A call that is lent tallies has these to itself
 *    too, and they lie neither within its words nor within its packet.
 *    A call that writes a capture has its bytes to itself as well, and they
 *    do not overlap the data, which nobody writes meanwhile.
 *  - While a call that only reads its words runs, nobody writes them, its
 *    packet or its records, and the words and the packet do not overlap.
 *    The words of an image are meant as well, and `from`, which carry only
 *    reads, and `edits`, which edit_list only reads.
 *    Any number of such calls may run at once over the same words; those
 *    that count have a tally record each.
 *
 *
 * RULES
 *
 * A packet has six values, a rule a range for each, both ends belonging
 * to it.  These are the fields, in this order, DESTINATION BEFORE SOURCE:
 *
 *     field                    in the arrays low and high   top
 *     1  destination address   REAMSTORK_DESTINATION        4,294,967,295
 *     2  source address        REAMSTORK_SOURCE             4,294,967,295
 *     3  protocol              REAMSTORK_PROTOCOL           255
 *     4  destination port      REAMSTORK_DESTINATION_PORT   65,535
 *     5  source port           REAMSTORK_SOURCE_PORT        65,535
 *     6  portless              REAMSTORK_PORTLESS           1
 *
 * Fields count from 1.  The arrays of C begin at 0, so the constants are 0
 * to 5.  A rule is written by name, and then no field can be swapped:
 *
 *     uint32_t low[REAMSTORK_FIELDS] = { [REAMSTORK_PROTOCOL] = 17, ... };
 *
 * Numbers are in the machine's own order: 10.0.0.1 is 167,772,161.  A
 * range from 0 to the top is full: it holds every value.
 *
 * A rule has a number, 0 to 65,534, and an action, any 32-bit number,
 * whose meaning is the caller's.  A table has at most 512 rules, in a small
 * store 64, no two with the same number, and besides them the default rule:
 * number 65,535, full ranges, and the action given at the start, 0 where
 * none is named.
 *
 * A packet is decided by the rule with the least number among those whose
 * six ranges all hold its values.  The default always holds them.
 *
 *
 * PACKETS WITHOUT PORTS
 *
 * Field 6, portless, is 0 where a packet has ports: its protocol is 6
 * (TCP) or 17 (UDP), and its fragment offset is 0.  It is 1 where it has
 * none: every other protocol, such as ICMP, and every later fragment, whose
 * ports went ahead in the first one.  The ports of such a packet read as 0.
 *
 * THE PORT RULE: a rule whose two port ranges are not both full, 0 to
 * 65,535, asks for 0 to 0 in field 6.  Otherwise it is refused with 2.  So
 * a rule for destination ports 0 to 1023 cannot catch ICMP, nor the later
 * fragments of a firmware transfer, by a port 0 that they do not have.
 *
 * A rule whose port ranges are both full has the choice:
 *
 *     0 to 0   packets with ports alone, whatever their ports
 *     1 to 1   packets without ports alone
 *     0 to 1   both
 *
 * For some ports and for packets without ports take two rules with the
 * same action, one with those ports and 0 to 0, one with full port ranges
 * and 1 to 1.
 *
 * Arrays written by name that leave field 6 out have 0 there.  Such a rule
 * asks for 0 to 0 and holds neither ICMP nor later fragments.  A rule that
 * is to hold them as well names the high end:
 *
 *     uint32_t high[REAMSTORK_FIELDS] = {
 *         [REAMSTORK_PORTLESS] = REAMSTORK_TOP_PORTLESS, ... };
 *
 *
 * TWO KINDS OF STORE
 *
 * A large store takes 512 rules besides the default, and of c cells it is
 * REAMSTORK_WORDS(c) words.  Every start makes one.  A small store takes 64,
 * and of c cells it is REAMSTORK_SMALL_WORDS(c) words.  These are the stores
 * of the versions 2.0 to 4.2, such as stand in battery-backed memory, and no
 * call makes another.
 *
 *                         large                      small
 *     rules at most       REAMSTORK_RULES_MAX, 512   REAMSTORK_SMALL_RULES_MAX, 64
 *     words of a store    8,192 + 8 c                1,024 + 8 c
 *     words of an image   8,192 + 16 for each block  1,024 + 16 for each block
 *     word 2 of either    REAMSTORK_LARGE, 4         REAMSTORK_SMALL, 0
 *
 * Every call that is lent a store or an image takes both kinds, and sees by
 * word 2 which it has.  A small store is checked, read, edited and frozen in
 * its own words, and keeps its limit and its size; reamstork_carry carries
 * its table into a large one.  The same rules take the same cells and the
 * same blocks in both, every packet is decided alike, and the counts of
 * reads are the same.
 *
 *
 * CELLS AND READS
 *
 * The ends of a rule in a field are its high end and, if its low end is
 * above 0, the low end less 1.  The tree has in field 1 one location for
 * each distinct end of all rules, the default included, and below each
 * location the tree, over the next fields, of the rules that cover it.
 * One location takes one cell.  The default alone takes 6.
 *
 * A lookup in a store that passes the check reads, in each field, one cell
 * and one more for each distinct end below the packet's value, taken over
 * the rules whose ranges hold its earlier values.  The count of reads is a
 * function of the table and the packet.  With n rules besides the default
 * it is at most 2 n + 1 in each field, and at most 7 n + 6 in all: both
 * are proved.  reamstork_worst gives the greatest count of one table.
 *
 * A lookup touches the cells that it counts and six words besides; this
 * is measured, not proved.  check goes over all cells of the store, and so
 * do insert, delete, edit_list, read, rule_at, cells, dead, worst,
 * image_words, freeze and carry, which run it first; insert, delete and
 * edit_list then build the tree anew, once, carry lays it in the new store,
 * and dead, worst, image_words and freeze go through it.
 *
 * The words of a store are a function of its kind, c, the default's action
 * and the rules.  Two stores with the same of these have the same words, bit
 * for bit, whatever edits brought them there, and can be compared by memcmp
 * or a checksum.  docs/STORE.md has the layout, docs/TIMING.md what a
 * lookup costs.
 *
 *
 * COPIES, AND EDITS WHILE FRAMES FLOW
 *
 * A store may be copied and moved: it holds no address.  Its words,
 * REAMSTORK_WORDS(c) or those of a small store, REAMSTORK_SMALL_WORDS(c),
 * copied by memcpy to other words, are the same store, also in another
 * program, and on another machine of the same byte order.
 *
 * An edit needs its words to itself.  So that frames need not wait, have
 * two stores of the same size, and a pointer to the one that is in use:
 *
 *  1. Each thread that decides frames loads the pointer anew for each
 *     frame, and uses what it loaded for that frame alone.
 *  2. Whoever edits copies the store in use to the spare one and edits
 *     there.  If an edit is refused, the pointer stays: nothing happened.
 *  3. If all are done, it writes the spare one's address to the pointer,
 *     in C11 by atomic_store; the threads load it by atomic_load.
 *  4. A call that began before may still be reading the old store.  Do not
 *     write that one until each such thread has ended the frame that it
 *     was at.  Then it is the spare one.
 *
 * docs/GUIDE.md has this as a program.
 */
#ifndef REAMSTORK_H
#define REAMSTORK_H

#include <stddef.h>
#include <stdint.h>

#ifdef __cplusplus
extern "C" {
#endif

/*
 * VERSION
 *
 * A higher minor number adds to this header; a higher major number changes
 * what stands here.  CHANGELOG.md says what.  From 2.0 on every version
 * takes the stores of 2.0 as they are: they are small.  A version before 5.0
 * takes no large one.  Words of 1.0 or 1.1, or of a later version than this,
 * may be no store of this one: run reamstork_check before the first lookup
 * in them.
 */
#define REAMSTORK_VERSION          "5.2"
#define REAMSTORK_VERSION_MAJOR    5
#define REAMSTORK_VERSION_MINOR    2

/*
 * LIMITS
 */
#define REAMSTORK_FIELDS           6            /* values of a packet       */
#define REAMSTORK_RULES_MAX        512          /* rules besides the default */
#define REAMSTORK_SMALL_RULES_MAX  64           /* the same in a small store */
#define REAMSTORK_NUMBER_MAX       65534        /* greatest number of a rule */
#define REAMSTORK_DEFAULT          65535        /* number of the default     */
#define REAMSTORK_DEFAULT_ACTION   0            /* of reamstork_start        */
#define REAMSTORK_CELLS_MIN        6            /* least c                   */
#define REAMSTORK_CELLS_MAX        65536        /* greatest c                */
#define REAMSTORK_LIST_MAX         32           /* edits of a list, at most  */
#define REAMSTORK_PLACES           513          /* slots of a tally record, not places of rules */
#define REAMSTORK_UNUSED           4294967295u  /* key of an unused slot     */
#define REAMSTORK_CAPTURE_HEADER   24           /* bytes in front of the records of a capture */
#define REAMSTORK_RECORD_HEADER    16           /* bytes in front of the data of a record     */
#define REAMSTORK_RECORD_MOST      16384        /* bytes of data of a record, at most         */

/* Where a field stands in the arrays low and high of a rule. */
#define REAMSTORK_DESTINATION      0            /* field 1 */
#define REAMSTORK_SOURCE           1            /* field 2 */
#define REAMSTORK_PROTOCOL         2            /* field 3 */
#define REAMSTORK_DESTINATION_PORT 3            /* field 4 */
#define REAMSTORK_SOURCE_PORT      4            /* field 5 */
#define REAMSTORK_PORTLESS         5            /* field 6 */

/* The greatest value in each field. */
#define REAMSTORK_TOP_ADDRESS      4294967295u
#define REAMSTORK_TOP_PROTOCOL     255
#define REAMSTORK_TOP_PORT         65535
#define REAMSTORK_TOP_PORTLESS     1

/* Word 2 of a store or an image, by its kind.  No other number is one. */
#define REAMSTORK_SMALL            0
#define REAMSTORK_LARGE            4

/*
 * The words of a store of c cells, as a start or a carrying makes it, and of
 * a small store of c cells; constants where c is one.  For c within the
 * limits they do not overflow.  Words behind these are never read or
 * written, so `len` may be greater.
 */
#define REAMSTORK_WORDS(c)         (8192ul + 8ul * (c))
#define REAMSTORK_SMALL_WORDS(c)   (1024ul + 8ul * (c))

/*
 * Words enough for the image of any table whose tree takes that many cells
 * or fewer, so for every store of that many, of either kind, a constant where
 * the number is one.  reamstork_image_words has the exact total, which is
 * often much less.
 */
#define REAMSTORK_IMAGE_WORDS_MOST(cells) (8192ul + 16ul * (cells))

/*
 * ANSWERS
 *
 * Each is given exactly when its condition holds and none that stands
 * before it in the call's own order does.  The calls below say each
 * condition in full.  reamstork_answer gives the text that stands here.
 */
#define REAMSTORK_DONE             0   /* done */
#define REAMSTORK_BAD_NUMBER       1   /* rule number too high */
#define REAMSTORK_BAD_RANGE        2   /* low end above high end, high end above top, or ports asked of packets without ports */
#define REAMSTORK_NUMBER_TAKEN     3   /* rule number already there */
#define REAMSTORK_NO_SUCH_NUMBER   4   /* no such rule */
#define REAMSTORK_TABLE_FULL       5   /* table full */
#define REAMSTORK_NO_ROOM          6   /* too few cells for the new tree */
#define REAMSTORK_UNREADABLE       7   /* packet not readable */
#define REAMSTORK_BAD_SIZE         8   /* number of cells outside its limits, or too few words or bytes */
#define REAMSTORK_BAD_STORE        9   /* store or image fails the check */
#define REAMSTORK_BAD_PREFIX       10  /* prefix too long, or address not a multiple of its size */
#define REAMSTORK_BAD_VALUE        11  /* value above its top */
#define REAMSTORK_TOO_LONG         12  /* capture not accepted, or record too long for one */
#define REAMSTORK_NO_PLACE         13  /* no slot left in the tally record */
#define REAMSTORK_CUT              14  /* packet cut short: fewer bytes than its total length */
#define REAMSTORK_BAD_LIST         15  /* list of edits empty or too long */

typedef struct { uint32_t answer, rule, action, reads; } reamstork_found;
typedef struct { uint32_t answer, number, action, low[6], high[6]; } reamstork_rule;
typedef struct { uint32_t answer, cells; } reamstork_count;
typedef struct { uint32_t answer, dead, value[6]; } reamstork_life;
typedef struct { uint32_t answer, reads, value[6]; } reamstork_most;
typedef struct { uint32_t answer, low, high; } reamstork_range;
typedef struct { uint32_t key[513], packets[513], bytes[513]; } reamstork_tallies;
typedef struct { uint32_t number, action, low[6], high[6]; } reamstork_record;
typedef struct { uint32_t answer, rule, action; } reamstork_winner;
typedef struct { uint32_t answer, words; } reamstork_size;
typedef struct { uint32_t answer, bytes; } reamstork_written;
typedef struct { uint32_t remove, number, action, low[6], high[6]; } reamstork_edit;
typedef struct { uint32_t answer, place; } reamstork_listed;

/*
 * AN ANSWER AS A TEXT
 *
 * The text that stands beside the number above, for 0 to 15, and for any
 * other number "unknown answer".  For people: compare numbers, not texts.
 */
static inline const char *reamstork_answer(uint32_t answer)
{
	switch (answer) {
	case REAMSTORK_DONE: return "done";
	case REAMSTORK_BAD_NUMBER: return "rule number too high";
	case REAMSTORK_BAD_RANGE: return "low end above high end, high end above top, or ports asked of packets without ports";
	case REAMSTORK_NUMBER_TAKEN: return "rule number already there";
	case REAMSTORK_NO_SUCH_NUMBER: return "no such rule";
	case REAMSTORK_TABLE_FULL: return "table full";
	case REAMSTORK_NO_ROOM: return "too few cells for the new tree";
	case REAMSTORK_UNREADABLE: return "packet not readable";
	case REAMSTORK_BAD_SIZE: return "number of cells outside its limits, or too few words or bytes";
	case REAMSTORK_BAD_STORE: return "store or image fails the check";
	case REAMSTORK_BAD_PREFIX: return "prefix too long, or address not a multiple of its size";
	case REAMSTORK_BAD_VALUE: return "value above its top";
	case REAMSTORK_TOO_LONG: return "capture not accepted, or record too long for one";
	case REAMSTORK_NO_PLACE: return "no slot left in the tally record";
	case REAMSTORK_CUT: return "packet cut short: fewer bytes than its total length";
	case REAMSTORK_BAD_LIST: return "list of edits empty or too long";
	default: return "unknown answer";
	}
}

/*
 * A RULE THAT WAS READ, AS A RECORD FOR A SCAN
 *
 * The same number, action and ranges.  Look at rule.answer first: the zeros
 * of a refusal make a record of a rule 0.
 */
static inline reamstork_record reamstork_record_of(reamstork_rule rule)
{
	reamstork_record record;
	int i;

	record.number = rule.number;
	record.action = rule.action;
	for (i = 0; i < REAMSTORK_FIELDS; i++) {
		record.low[i] = rule.low[i];
		record.high[i] = rule.high[i];
	}
	return record;
}

/*
 * START A STORE
 *
 * Makes the first REAMSTORK_WORDS(c) of the words, whatever they hold, a
 * large store of c cells with the default rule alone.  reamstork_start gives the
 * default action 0, reamstork_start_with the action named.  So where 0 is
 * the caller's "drop", packets that no rule holds are dropped unless another
 * action is named.
 *
 *   8  c is below 6 or above 65,536, or len below REAMSTORK_WORDS(c)
 *   0  done
 *
 * Done: the first REAMSTORK_WORDS(c) words are the new store, every word
 * behind them is as before.  Refused: all words are as before.
 */
uint32_t reamstork_start(uint32_t *words, size_t len, uint32_t c);
uint32_t reamstork_start_with(uint32_t *words, size_t len, uint32_t c, uint32_t action);

/*
 * CARRY A TABLE INTO A NEW STORE
 *
 * Makes the first REAMSTORK_WORDS(c) of the words, whatever they hold, a
 * large store of c cells with the table that the store `from` holds: its
 * default, with its action, and all of its rules.  For a table that stands
 * in a small store and is to grow past 64 rules, and for one that is to have
 * more cells, or fewer: `from` may be of either kind, with a c of its own.
 *
 *   9  from fails the check
 *   8  c is below 6 or above 65,536, or len below REAMSTORK_WORDS(c): as for
 *      a start
 *   6  the tree of the table has more locations than c
 *   0  done
 *
 * in this order: the answer is the first whose condition holds.
 *
 * Done: the first REAMSTORK_WORDS(c) words are the new store, bit for bit
 * what a start with the same c and default action, and inserts of the same
 * rules in any order, leave.  It passes the check, and every word behind it
 * is as before.  Every lookup in it gives the answer, rule, action and reads
 * that it gives in `from`, and its image is that of `from` but for the front,
 * which is of the new kind.  Refused: all words are as before, and none is
 * written.
 *
 * No word of `from` is written in any case.  Until the answer is 0 it is the
 * table's one copy, and it may be used meanwhile by calls that only read it.
 * After that it may be given up, and its words used for something else.  So
 * where `from` stands in memory that keeps it, a loss of power while the call
 * runs loses nothing: carry again.  Tallies go on as they are, since the
 * rules keep their numbers.
 *
 * reamstork_cells(from, from_len) says what c has to be at least.  A gateway
 * finds in battery-backed memory a small store of an earlier version, kept_len
 * words at kept, and has len words there for a large one of 4,096 cells:
 *
 *     uint32_t answer = reamstork_carry(kept, kept_len, store, len, 4096);
 *
 *     if (answer == REAMSTORK_DONE)
 *         in_use = store, in_use_len = len;
 *     else
 *         in_use = kept, in_use_len = kept_len;
 *
 * With 9 the kept words are damaged, and there is no table to go on with.
 * With 8 or 6 the small store is as good as before, with its limit of 64
 * rules: a greater c may do.
 */
uint32_t reamstork_carry(const uint32_t *from, size_t from_len, uint32_t *words, size_t len, uint32_t c);

/*
 * INSERT A RULE
 *
 *   9  the store fails the check
 *   1  number above 65,534
 *   2  in some field low above high, or high above the field's top; or a
 *      port range that is not 0 to 65,535, with another range than 0 to 0
 *      in field 6, portless
 *   3  a rule with this number is there
 *   5  512 rules besides the default are there, in a small store 64
 *   6  the tree of the table with the new rule has more locations than
 *      the store has cells
 *   0  done
 *
 * in this order: the answer is the first whose condition holds.
 *
 * Done: the store holds the rules that it held and this one, passes the
 * check, and every word behind it is as before.  Refused: all words are as
 * before; an insert is never done halfway, and no word is written before
 * it can no longer be refused.
 *
 * Two rules may have equal ranges.  Whether 6 is given does not depend on
 * the order in which rules were inserted, and neither do the words left.
 */
uint32_t reamstork_insert(uint32_t *words, size_t len, uint32_t number, uint32_t action, const uint32_t low[6], const uint32_t high[6]);

/*
 * DELETE A RULE
 *
 *   9  the store fails the check
 *   1  number above 65,534: the default cannot be deleted
 *   4  no rule with this number is there
 *   0  done
 *
 * in this order.  Done: the store holds the rules that it held without
 * this one, passes the check, uses no more cells than before, and every
 * word behind it is as before.  Refused: all words are as before.
 */
uint32_t reamstork_delete(uint32_t *words, size_t len, uint32_t number);

/*
 * EDIT BY A LIST, ALL OR NOTHING
 *
 * For a group of rules that is swapped as one.  Of up to REAMSTORK_LIST_MAX
 * edits, 32, either all are done, in their order, as if given singly, or
 * none is.
 *
 * An edit whose remove is 0 inserts the rule of its number, action, low and
 * high, as reamstork_insert does.  With any other remove it deletes the rule
 * of its number, as reamstork_delete does, and its other numbers play no
 * part.
 *
 *  15  count is 0 or above 32; place is 0
 *   9  the store fails the check; place is 1
 *   1, 2, 3, 5, 6 for an insert, 1, 4 for a delete
 *      what the edit is refused with in the table that the edits before it
 *      in the list leave; place is the edit's place in the list, from 1 on.
 *      It is the first that is refused: those before it would be done
 *   0  all are done; place is 0
 *
 * in this order.
 *
 * Done: the words are, bit for bit, those that the edits leave one by one.
 * The store passes the check, and every word behind it is as before.
 * Refused: all words are as before, and none is written, neither for the
 * edits before the one that is refused nor to write them back.  Changes no
 * edit in any case.  With a count above 32 no edit is read.
 *
 * Each edit is taken in the table that it meets, so the order counts.  Where
 * a list deletes first, what it deletes makes room: it may be done where the
 * same edits in another order are refused with 5 or 6.  A number that was
 * deleted can be inserted again, so a rule is changed by a delete and an
 * insert of its number.  A rule that the list itself has inserted can be
 * deleted by it.
 *
 * A crew takes rules 10 and 11 out and puts another rule 10 in:
 *
 *     const reamstork_edit group[] = {
 *         { .remove = 1, .number = 10 },
 *         { .remove = 1, .number = 11 },
 *         { .number = 10, .action = 2, .low = { ... }, .high = { ... } },
 *     };
 *     reamstork_listed l = reamstork_edit_list(words, len, group, 3);
 *
 *     if (l.answer != REAMSTORK_DONE)
 *         printf("edit %u: %s\n", l.place, reamstork_answer(l.answer));
 *
 * Each call runs the check once, counts the cells of the table once for each
 * insert, and then, where all are done, builds the tree once.  Until it
 * answers the words are nobody else's, as with any edit: where frames flow
 * meanwhile take two stores, above.
 */
reamstork_listed reamstork_edit_list(uint32_t *words, size_t len, const reamstork_edit *edits, size_t count);

/*
 * CHECK A STORE
 *
 *   0  the words are those of a store: word 2 is 4 for a large one or 0 for
 *      a small one, word 0 is a c of 6 to 65,536, len is at least
 *      REAMSTORK_WORDS(c) or REAMSTORK_SMALL_WORDS(c), and the first so
 *      many words hold a table within the limits of the kind and the port
 *      rule above, its tree, and every other cell on the free chain once,
 *      laid as docs/STORE.md has it and in no other way
 *   9  otherwise
 *
 * Every store that an accepted start, carrying, insert, delete or list of
 * edits leaves passes.  Changes no word.  insert, delete, edit_list, read,
 * rule_at, cells, dead, worst, image_words, freeze and carry run it first.
 *
 * The check cannot see a change that makes the words another store, such
 * as another action, or another number that leaves the numbers rising.
 * docs/GUIDE.md says what to do where words can be damaged.
 */
uint32_t reamstork_check(const uint32_t *words, size_t len);

/*
 * READ A RULE
 *
 *   9  the store fails the check
 *   1  number above 65,535
 *   4  no rule with this number is there
 *   0  done: number, action and ranges of the rule with this number;
 *      65,535 gives the default
 *
 * in this order.  Changes no word.
 *
 * What is read can be inserted into another store as it is:
 *
 *     reamstork_rule r = reamstork_read(words, len, 10);
 *     if (r.answer == REAMSTORK_DONE)
 *         reamstork_insert(other, other_len, r.number, r.action, r.low, r.high);
 *
 * and reamstork_record_of(r) is the same rule as a record for
 * reamstork_scan.
 */
reamstork_rule reamstork_read(const uint32_t *words, size_t len, uint32_t number);

/*
 * READ A RULE BY ITS PLACE
 *
 * The rules of a table have the places 1, 2, 3 and so on, by rising
 * number: the rule with the least number has place 1.  The default has no
 * place.
 *
 *   9  the store fails the check
 *   4  place is 0, or greater than the number of rules besides the default
 *   0  done: number, action and ranges of the rule at this place
 *
 * in this order.  Changes no word.  So a table of either kind is listed, with
 * a list of REAMSTORK_RULES_MAX records:
 *
 *     reamstork_rule r;
 *     uint32_t n = 0;
 *
 *     while ((r = reamstork_rule_at(words, len, n + 1)).answer == REAMSTORK_DONE)
 *         list[n++] = reamstork_record_of(r);
 *
 * What ended the list is r.answer: 4 behind the last rule, 9 where the
 * store fails the check.  The default is not in the list: reamstork_read
 * gives it, under REAMSTORK_DEFAULT.
 *
 * An edit moves the rules behind the one that came or went to other
 * places, so let nobody edit the store between two calls of one list.
 * Each call runs the check.
 */
reamstork_rule reamstork_rule_at(const uint32_t *words, size_t len, uint32_t place);

/*
 * COUNT THE CELLS IN USE
 *
 *   9  the store fails the check
 *   0  done: cells is the number of locations of the table's tree, 6 to c
 *
 * The other cells are free: in use and free add up to c.  Changes no word.
 */
reamstork_count reamstork_cells(const uint32_t *words, size_t len);

/*
 * FIND OUT WHETHER A RULE EVER WINS
 *
 * Tables grow for years and nobody dares to delete.  A rule is dead where
 * no six values within their tops make it the rule that decides: rules with
 * lesser numbers hold, together, all that it holds.
 *
 *   9  the store fails the check
 *   1  number above 65,535
 *   4  no rule with this number is there
 *   0  done: dead is 1 where the rule with this number is dead, and every
 *      value is 0.  Otherwise dead is 0, and value has the six values, in
 *      the order of the fields, of the least record for which
 *      reamstork_lookup names this rule.  65,535 asks for the default
 *
 * in this order.  Changes no word.
 *
 * Of two records the lesser is the one with the lesser value in the first
 * field in which they differ.  Values that no header gives count like any
 * others, such as protocol 1 with ports: so a live rule may still be one
 * that no packet meets, but a dead one is named by no lookup.  Look at dead
 * before value: six zeros are a record too.
 *
 *     reamstork_life f = reamstork_dead(words, len, 10);
 *     if (f.answer == REAMSTORK_DONE && f.dead)
 *         reamstork_delete(words, len, 10);
 *
 * Deleting a dead rule changes rule and action of no lookup, and no other
 * rule's life or least record.  So all dead rules of a table may go, in any
 * order.  Reads and cells in use may become fewer.
 *
 * Deleting a live rule is another matter: it may bring a dead one to life.
 * Of two rules with equal ranges the one with the greater number is dead,
 * and where the other is deleted it decides in its place.  Inserting a rule
 * may make others dead, but never brings one to life.
 *
 * The default is dead where the other rules hold all values.  It cannot be
 * deleted.
 *
 * Each call runs the check once, and then goes through the tree until it
 * finds the record, at most once.
 */
reamstork_life reamstork_dead(const uint32_t *words, size_t len, uint32_t number);

/*
 * FIND THE WORST PACKET OF A TABLE
 *
 * For a timing sheet.  The bound 7 n + 6 holds for any table of n rules,
 * and a table can stay far below it.  This gives the worst case of the one
 * table that the store holds.
 *
 *   9  the store fails the check
 *   0  done: reads is the greatest count of reads that reamstork_lookup
 *      reports for any six values within their tops, and value has the six
 *      values, in the order of the fields, of the least record for which it
 *      reports that many
 *
 * Changes no word.  So no lookup in this store reads more cells than reads,
 * by values or by packet, and the lookup of value reads exactly that many.
 * The default alone gives 6 and six zeros.
 *
 *     reamstork_most m = reamstork_worst(words, len);
 *     if (m.answer == REAMSTORK_DONE)
 *         worst_time = fixed_time + m.reads * time_of_a_read;
 *
 * Of two records the lesser is the one with the lesser value in the first
 * field in which they differ.  Values that no header gives count like any
 * others, such as protocol 1 with ports: so it may be that no packet ever
 * takes that many reads, but none takes more.
 *
 * The answer is a function of the rules' ranges alone.  Numbers, actions,
 * c and the order of loading play no part.  It holds for the rules that are
 * there: after an insert or a delete ask again.
 *
 * Each call runs the check once, and then goes through the tree once.
 * For an image, whose lookups count blocks, ask reamstork_image_worst.
 */
reamstork_most reamstork_worst(const uint32_t *words, size_t len);

/*
 * LOOK UP SIX VALUES
 *
 *  11  protocol above 255, a port above 65,535, or portless above 1
 *   9  the walk is lost, see below
 *   0  done: number and action of the rule that decides, and the cells
 *      that were read
 *
 * in this order.  Changes no word.
 *
 * portless is 0 for a packet with ports and 1 for one without.  Any values
 * within their tops are looked up as they are, also such as no header
 * gives: nothing ties portless to the protocol and the ports.
 *
 * A lookup does not run the check.  In a store that passes it 9 is never
 * given, and the rule and the reads are those said at the top.  Over any
 * other words the answer follows the walk:
 *
 *   Words.  Word 0 is c, and word 2 names the kind of store: 4 for a large
 *   one, 0 for a small one.  9 at once unless len is at least 3, word 2 is
 *   one of these, c is 6 to 65,536, and len is at least REAMSTORK_WORDS(c),
 *   or REAMSTORK_SMALL_WORDS(c) for a small one.
 *
 *   Fields.  The walk begins at the cell that word 8191 names, in a small
 *   store word 1023, and goes through the six fields in order.  Cell k is
 *   the words 8192 + 8 k on, in a small store 1024 + 8 k: its end, the next
 *   cell, and what is below it.  9 at a cell that is c or more.  A cell
 *   whose end is below the field's value leads to the next cell; the first
 *   other one leads down, to the cell where the next field begins.  9 after
 *   c cells of one field that all led to the next.
 *
 *   Rule.  The last field leads down to p, the word of the rows at which
 *   a rule's row begins: 0 for the default, 15 for the first rule, 30 for
 *   the second, and so on.  9 if p is above 15 times word 1, above 15
 *   times 512, in a small store 15 times 64, or no multiple of 15, which is
 *   the middle of a row.  The rule's number and action are the words 495 + p
 *   and 496 + p, in a small store 47 + p and 48 + p.
 *
 *   Reads.  The number of cells so read, at most 6 c.
 */
reamstork_found reamstork_lookup(const uint32_t *words, size_t len, uint32_t destination, uint32_t source, uint32_t protocol, uint32_t destination_port, uint32_t source_port, uint32_t portless);

/*
 * LOOK UP AN IPV4 PACKET
 *
 * `packet` begins at the IPv4 header.
 *
 *   7  packet not readable
 *  14  packet cut short
 *   9  as in reamstork_lookup
 *   0  as in reamstork_lookup, for the values that the header gives
 *
 * in this order.  Changes neither words nor packet.
 *
 * A packet is not readable exactly when one of these holds: packet_len is
 * below 20; the version is not 4; the header length is below 5 words; the
 * total length is below the header's; the protocol is 6 or 17, the fragment
 * offset is 0, and the total length leaves fewer than 4 bytes behind the
 * header.
 *
 * A packet is cut short exactly when none of these holds and packet_len is
 * below the total length.  So 14 tells a short capture from a bad header:
 * the first 20 bytes are sound, and the rest of the packet was not lent.
 * That is typical of a capture with a snapshot length.  The first 24 bytes
 * of a sound UDP packet of 28 get 14, its first 19 get 7.  A packet that is
 * cut short is not decided, also where the bytes that are there would give
 * all of its values.
 *
 * Where the protocol is 6 or 17 and the fragment offset is 0 the ports are
 * the first two 16-bit numbers behind the header, source first, and
 * portless is 0.  Otherwise, for other protocols and for later fragments,
 * both ports are 0 and portless is 1.  Bytes past the total length,
 * options and checksums are ignored.
 */
reamstork_found reamstork_lookup_packet(const uint32_t *words, size_t len, const uint8_t *packet, size_t packet_len);

/*
 * TALLIES FOR EACH RULE
 *
 * A tally record has 513 slots, one for each rule of a full table and one
 * for the default, and serves stores and images of either kind.  Slot i is
 * unused where key[i] is above 65,535, whatever it is.  Otherwise it is the
 * tally of the rule with the number key[i]: packets[i] and bytes[i] count the
 * packets that the rule decided and their total lengths.  Both are Counter32
 * (RFC 2578): after 4,294,967,295 they start again at 0.
 *
 * The words of a record may be any numbers.  Whoever deletes a rule drops
 * its tally, by setting key[i] to REAMSTORK_UNUSED where key[i] is its
 * number: a later rule with that number would go on counting there.  Read
 * and drop tallies between calls, not while one runs.
 *
 * reamstork_tallies_clear makes every slot unused, with REAMSTORK_UNUSED
 * for its key and 0 for both counts.  It never refuses.  Clear a record
 * before its first use: a record of zeros is not clear, each of its slots
 * is the tally of rule 0.
 */
void reamstork_tallies_clear(reamstork_tallies *tallies);

/*
 * LOOK UP AN IPV4 PACKET, AND COUNT IT
 *
 *   7  as in reamstork_lookup_packet
 *  14  as in reamstork_lookup_packet
 *   9  as in reamstork_lookup
 *  13  no slot holds the number of the rule that decides, and none is
 *      unused
 *   0  done: the answer is that of reamstork_lookup_packet
 *
 * in this order.  Done: at the first slot that holds the rule's number,
 * or where none does at the first unused slot, whose key becomes the
 * number and whose counts begin at 0, packets grows by 1 and bytes by the
 * packet's total length, which its header says.  Every other word of the
 * record is as before.  Refused: all of them are.  Changes neither words
 * nor packet.
 *
 * After 13 reamstork_lookup_packet still gives the decision.  A record that
 * began clear, and from which the tally of each deleted rule is dropped, has
 * room for a full table and its default.
 *
 * Besides the lookup this goes over the 513 keys at most once.  The other
 * lookups count nothing.
 */
reamstork_found reamstork_lookup_packet_tally(const uint32_t *words, size_t len, const uint8_t *packet, size_t packet_len, reamstork_tallies *tallies);

/*
 * THE DIFFERENCE OF TWO READINGS OF A COUNT
 *
 * later less earlier, modulo 2^32.  It is what was added between the two
 * readings if that was less than 2^32 and the tally was not dropped in
 * between.  It never refuses.
 */
uint32_t reamstork_tally_difference(uint32_t earlier, uint32_t later);

/*
 * THE WORDS OF AN IMAGE
 *
 * A table that seldom changes can be frozen: into words of which a lookup
 * reads few pieces of 64 bytes, called blocks, where in the store it reads
 * many cells.
 *
 *   9  the store fails the check
 *   0  done: words is the exact total of the image's words, 8,192 in front,
 *      for a small store 1,024, and 16 for each block
 *
 * Changes no word.  The total is a function of the kind and the rules'
 * ranges, and the blocks are one of the ranges alone: the m distinct ends of
 * a field, under one location of the field before, stand in m / 8 blocks,
 * rounded up, eight to a block; where these are more than one, with blocks
 * above them, a link for each, rounded up in the same way; and so on until
 * one is left.  A tree never has more blocks than cells.  docs/IMAGE.md has
 * the layout.
 */
reamstork_size reamstork_image_words(const uint32_t *words, size_t len);

/*
 * FREEZE A TABLE
 *
 *   9  the store fails the check
 *   8  image_len is below the total that reamstork_image_words gives
 *   0  done
 *
 * in this order.  Done: the first words of the image, as many as the total,
 * are the image of the table that the store holds, whatever they held; every
 * word behind them is as before.  Refused: all words of the image are as
 * before, and none is written.  The store is as before in any case.
 *
 *     reamstork_size s = reamstork_image_words(words, len);
 *     if (s.answer == REAMSTORK_DONE && s.words <= room)
 *         reamstork_freeze(words, len, image, room);
 *
 * An image is read-only: no call edits one.  After an insert or a delete in
 * the store freeze anew, into other words where frames flow meanwhile, and
 * change over as with stores, above.
 *
 * An image holds no address and nothing of the store but its kind and its
 * table: not its c, and nothing of the edits that brought it there.  Stores of
 * one kind with the same default action and the same rules have the same
 * image, bit for bit.  So it may be copied anywhere, to flash as well, and be
 * read where it stands.
 *
 * Lent at an address that is a multiple of 64, each block of it is one line
 * of a cache that has lines of 64 bytes.  No call asks for more than the
 * alignment of uint32_t.
 *
 *     _Alignas(64) static uint32_t image[REAMSTORK_IMAGE_WORDS_MOST(1920)];
 */
uint32_t reamstork_freeze(const uint32_t *words, size_t len, uint32_t *image, size_t image_len);

/*
 * CHECK AN IMAGE
 *
 *   0  the words, all len of them, are the image of a store that passes the
 *      check: of a kind that word 2 names, a table within its limits and the
 *      port rule, whose tree takes at most 65,536 cells, and its blocks, laid
 *      as docs/IMAGE.md has it and in no other way
 *   9  otherwise
 *
 * len is the exact total: with a word more or less the answer is 9.  Every
 * image that an accepted freeze leaves passes, and no store does.  Changes
 * no word.  Like a store's check it cannot see a change that makes the
 * words another image, such as another action.
 */
uint32_t reamstork_image_check(const uint32_t *image, size_t len);

/*
 * FIND THE WORST PACKET OF AN IMAGE
 *
 * For the timing sheet of a program that decides frames by an image.
 *
 *   9  the image fails the check; len is the exact total there too
 *   0  done: reads is the greatest count of blocks that
 *      reamstork_image_lookup reports for any six values within their tops,
 *      and value has the six values, in the order of the fields, of the
 *      least record for which it reports that many
 *
 * Changes no word.  So no lookup over this image reads more blocks than
 * reads, by values or by packet, and the lookup of value reads exactly that
 * many.  The default alone gives 6 and six zeros.  No table gives less than
 * 6, and none more than 24; no table of up to 255 rules, so no small image,
 * gives more than 18.
 *
 *     reamstork_most m = reamstork_image_worst(image, len);
 *     if (m.answer == REAMSTORK_DONE)
 *         worst_time = fixed_time + m.reads * time_of_a_block;
 *
 * Records are compared as in reamstork_worst, and values that no header
 * gives count here too.  The answer is a function of the rules' ranges
 * alone.  The worst packet of the store may be another one: there the cells
 * below a value are counted, here the levels of blocks, whatever the value.
 *
 * Each call runs the image check once, and then goes through the rules that
 * the image holds once.
 */
reamstork_most reamstork_image_worst(const uint32_t *image, size_t len);

/*
 * LOOK UP SIX VALUES IN AN IMAGE
 *
 *  11  protocol above 255, a port above 65,535, or portless above 1
 *   9  the walk is lost, see below
 *   0  done: number and action of the rule that decides, and in reads the
 *      blocks that were read
 *
 * in this order.  Changes no word.  len may be greater than the total.
 *
 * Over the image of a store rule and action are those of reamstork_lookup
 * in the store, for all values, and 9 is never given.  In each field the
 * blocks read are the least L of at least 1 with 8^L not below m, the
 * distinct ends of the rules whose ranges hold the earlier values.  With n
 * rules besides the default m is at most 2 n + 1: so 6 blocks suffice for
 * up to 3 rules, 12 for up to 31, 18 for up to 255, so for every small
 * image, and 24 for a full table of 512.
 *
 * Besides its blocks a lookup touches the words 1 and 2 of the image and
 * two words of a row; this is measured, not proved.
 *
 * A lookup does not run the check.  Over any other words the answer follows
 * the walk:
 *
 *   Words.  9 at once unless len is at least 3 and word 2 is 4 with len at
 *   least 8,192, or 0 with len at least 1,024.
 *
 *   Fields.  The walk begins at block 0 and goes through the six fields in
 *   order.  Block b is the words 8192 + 16 b on, in a small image
 *   1024 + 16 b: eight ends, and a link for each.  9 at a block that is not
 *   within len.  As many ends as are below the field's value, so many links
 *   are passed over, and the next one is taken; 9 if all eight ends are below
 *   it.  A link below 2,147,483,648 names a block, and the walk goes on there
 *   in this field.  Of any other the rest, less 2,147,483,648, is the block
 *   where the next field begins.  9 after 8 blocks of one field that all led
 *   on within it.
 *
 *   Rule.  In the last field that rest is p, the word of the rows at which
 *   a rule's row begins, and p is taken or refused as in reamstork_lookup.
 *
 *   Reads.  The number of blocks so read, at most 48.
 */
reamstork_found reamstork_image_lookup(const uint32_t *image, size_t len, uint32_t destination, uint32_t source, uint32_t protocol, uint32_t destination_port, uint32_t source_port, uint32_t portless);

/*
 * LOOK UP AN IPV4 PACKET IN AN IMAGE
 *
 *   7  as in reamstork_lookup_packet
 *  14  as in reamstork_lookup_packet
 *   9  as in reamstork_image_lookup
 *   0  as in reamstork_image_lookup, for the values that the header gives
 *
 * in this order.  Changes neither image nor packet.
 */
reamstork_found reamstork_image_lookup_packet(const uint32_t *image, size_t len, const uint8_t *packet, size_t packet_len);

/*
 * LOOK UP AN IPV4 PACKET IN AN IMAGE, AND COUNT IT
 *
 *   7  as in reamstork_lookup_packet
 *  14  as in reamstork_lookup_packet
 *   9  as in reamstork_image_lookup
 *  13  as in reamstork_lookup_packet_tally
 *   0  done: the answer is that of reamstork_image_lookup_packet
 *
 * in this order.  The tallies become what reamstork_lookup_packet_tally
 * makes of them, where the same rule decides.  Changes neither image nor
 * packet.
 */
reamstork_found reamstork_image_lookup_packet_tally(const uint32_t *image, size_t len, const uint8_t *packet, size_t packet_len, reamstork_tallies *tallies);

/*
 * LOOK UP SIX VALUES IN A LIST OF RULES
 *
 * For whoever holds no store: runs through `count` records from the first.
 *
 *  11  protocol above 255, a port above 65,535, or portless above 1
 *   0  done: number and action of the record with the least number among
 *      those whose six ranges all hold the values; of several with that
 *      number the first.  Where none holds them, 65,535 and default_action
 *
 * in this order.  Changes no record, and reports no reads.  65,535 in the
 * answer may also be a record's own number.
 *
 * A record may hold any numbers: its own may be above 65,534, or stand in
 * the list more than once, a high end may be above its top, and a range
 * whose low end is above its high end holds nothing.  The port rule is not
 * asked of it: its ranges are taken as they are.
 *
 * For the rules of a store that passes the check, in any order, and with
 * the action of its default, answer, rule and action are those of
 * reamstork_lookup, for all values.  reamstork_record_of makes a record of
 * a rule that was read.
 */
reamstork_winner reamstork_scan(const reamstork_record *records, size_t count, uint32_t default_action, uint32_t destination, uint32_t source, uint32_t protocol, uint32_t destination_port, uint32_t source_port, uint32_t portless);

/*
 * TURN AN ADDRESS PREFIX INTO A RANGE
 *
 *  10  length above 32, or address not a multiple of 2^(32 - length)
 *   0  done: low is the address, high the address plus
 *      2^(32 - length) - 1
 *
 * 10.0.0.0 of length 24 gives 10.0.0.0 to 10.0.0.255; 10.0.0.1 of length
 * 24 gives 10; 0.0.0.0 of length 0 gives the full range.
 */
reamstork_range reamstork_prefix(uint32_t address, uint32_t length);

/*
 * BEGIN A CAPTURE
 *
 * A capture is a file that tcpdump and Wireshark read, of the classic
 * layout: a header, and behind it a record for each packet.  These two calls
 * write one into bytes that the caller lends, header and record by a call
 * each.  What becomes of the bytes is the caller's: they may go to a file or
 * over a line as soon as a call has answered.
 *
 *   8  len is below REAMSTORK_CAPTURE_HEADER
 *   0  done: bytes is REAMSTORK_CAPTURE_HEADER, 24
 *
 * Done: the first 24 bytes of out are the header, whatever they held, and
 * every byte behind them is as before.  Refused: all bytes are as before, and
 * none is written.
 *
 * The header is the same each time.  Its numbers stand least significant
 * byte first, on every machine:
 *
 *     bytes     what                         value
 *     0 to 3    D4 C3 B2 A1, which says so
 *     4 to 7    version, two of 16 bits      2 and 4
 *     8 to 15   two numbers                  0 and 0
 *     16 to 19  snapshot length              16,384
 *     20 to 23  link type                    101: packets begin at the IP header
 */
reamstork_written reamstork_capture_begin(uint8_t *out, size_t len);

/*
 * ADD A RECORD TO A CAPTURE
 *
 * `data` is the packet from its IPv4 header on, or the first bytes of it that
 * were kept.  `original` is the length that it had before it was cut, and
 * data_len where it is whole.  `seconds` and `fraction`, in millionths, are
 * the time of its arrival.  These are numbers of the caller's, and any are
 * taken: they are written as they are.
 *
 *  12  data_len is above REAMSTORK_RECORD_MOST, 16,384
 *   8  len is below REAMSTORK_RECORD_HEADER + data_len
 *   0  done: bytes is REAMSTORK_RECORD_HEADER + data_len, 16 and the data
 *
 * in this order.  Done: the first `bytes` bytes of out are the record, and
 * every byte behind them is as before: seconds, fraction, data_len and
 * original, in 4 bytes each, least significant byte first, and then the
 * data.  Refused: all bytes of out are as before, and none is written.
 * Changes no byte of data.
 *
 * out is where this record begins, not where the capture does: move on by
 * bytes after each call.  No call asks whether a header stands in front.
 *
 * One header and then records, each behind the one before, are a capture
 * that the bench program and every other reader of this layout take.  Read
 * back it has exactly these records, with these numbers and these bytes, in
 * this order, and ends behind the last one.  So a capture may be ended after
 * any record: nothing has to be written at its end.
 *
 * A gateway keeps the packets of one action, for whoever is to look at them
 * later.  Of room bytes at file, used are in use; a packet that is refused by
 * the lookup has no action and is left out:
 *
 *     reamstork_written w = reamstork_capture_begin(file, room);
 *     size_t used = w.bytes;
 *
 *     while (w.answer == REAMSTORK_DONE && next_frame(&frame)) {
 *         reamstork_found f = reamstork_lookup_packet(words, len, frame.data, frame.n);
 *         if (f.answer != REAMSTORK_DONE || f.action != wanted)
 *             continue;
 *         w = reamstork_capture_add(file + used, room - used, frame.seconds,
 *                                   frame.millionths, frame.n, frame.data, frame.n);
 *         used += w.bytes;
 *     }
 *
 * What ended the loop is w.answer: 0 where there are no more frames, 8 where
 * the room is full, 12 where a frame is longer than a record can be.  In each
 * case the first used bytes are a whole capture, and with 0 bytes for a
 * refusal used stays right.  Who would rather go on after 12 may add the
 * first 16,384 bytes of such a frame, with its own length for original.
 */
reamstork_written reamstork_capture_add(uint8_t *out, size_t len, uint32_t seconds, uint32_t fraction, uint32_t original, const uint8_t *data, size_t data_len);

#ifdef __cplusplus
}
#endif

#endif
