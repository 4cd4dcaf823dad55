/* Drives the C face of Reamstork from another program.

   Reads batches of commands on standard input, makes the calls, and writes
   the results on standard output. It knows nothing of the library but
   reamstork.h and the one sentence of request P9 on room: a store of c cells
   takes 8,192 + 8 x c words, and words behind those are never touched. Of words
   that it did not start itself it is told how many they are.

   What it watches by itself, at every call:
   - guard words in front of and behind a store's words;
   - every word of a store against a copy, after each call that may not
     write and after each refused edit;
   - the words behind the lent slice, and those behind the store inside it,
     after each accepted start, edit, list of edits or carrying;
   - the bytes of a packet, the ends of a rule, the records of a list and the
     edits of one, lent for reading.
   The words of an image are kept like a store's: every word of it is seen to
   after each call that reads it and after each refused freeze, and after an
   accepted one those behind the total that the command says.
   A store can be laid against memory that can't be read at all, at its
   front or at its end, and a packet, a list of records, a list of edits and a
   tally record always end against such memory, so that a read outside them
   ends the program. In front of a tally record stand guard words.
   The bytes that a capture is written into end against such memory, or have
   guard bytes behind them, and have guard bytes in front. Every one of them is
   seen to after a refused call, and after another one those behind the bytes
   that it says it wrote.

   A batch is one number, its length in words, and then that many words. All
   numbers are 32 bits, least significant byte first. The answer to a batch is
   seven numbers (words of results, calls made, faults seen; and of the first
   fault: place of its command, kind, store, position) and then the results.
   The whole batch is read before anything is written. */

#define _DEFAULT_SOURCE
#include <stdint.h>
#include <stdio.h>
#include <stdlib.h>
#include <string.h>
#include <sys/mman.h>
#include <unistd.h>

#include "reamstork.h"

enum { STORES = 64, GUARD = 256, BLOCK = 65536, MOST_WORDS = 1 << 21, OUTPUT = 40000 };

/* Stores longer than this are compared once in a batch and around each edit,
   not after each call that may not write. */
enum { COMPARED_AT_ONCE = 1 << 14 };

enum {
  RESET = 0, MAKE = 1, LEND = 2, SET = 3, GET = 4, DIGEST = 5, SAME = 6, COPY = 7, HOLDS = 8,
  START = 16, START_WITH = 17, INSERT = 18, DELETE = 19, CHECK = 20, READ = 21,
  CELLS = 22, LOOKUP = 23, PACKET = 24, PREFIX = 25, SCAN = 26, RULE_AT = 27, DEAD = 28,
  WORST = 29, CARRY = 30, EDIT_LIST = 31,
  TALLY = 32, CLEAR = 33, DIFFERENCE = 34, RECORDS = 35, LIST_FAR = 36,
  IMAGE_WORDS = 40, FREEZE = 41, IMAGE_CHECK = 42, IMAGE_LOOKUP = 43, IMAGE_PACKET = 44,
  IMAGE_TALLY = 45, IMAGE_WORST = 46,
  CAPTURE_BEGIN = 48, CAPTURE_ADD = 49, CAPTURE_FAR = 50
};

/* How a store lies in memory. */
enum { GUARDED = 0, END_AT_WALL = 1, FRONT_AT_WALL = 2 };

/* Kinds of fault. */
enum {
  GUARD_IN_FRONT = 1, GUARD_BEHIND = 2, READER_WROTE = 3, REFUSED_EDIT_WROTE = 4,
  WROTE_BEHIND = 5, PACKET_WRITTEN = 6, ENDS_WRITTEN = 7, GUARD_OF_RECORD = 8,
  RECORDS_WRITTEN = 9, GUARD_OF_OUTPUT = 10, REFUSED_WROTE = 11, OUTPUT_BEHIND = 12, DATA_WRITTEN = 13,
  MORE_THAN_LENT = 14, EDITS_WRITTEN = 15
};

struct store {
  uint32_t *words, *copy, *front, *behind;
  size_t total, lent;
  size_t size; /* the words of the store that they hold; 0 when not known */
  char *area;
  size_t area_size;
  int uncompared;
};

static struct store stores[STORES];
static uint32_t *batch, *results;
static size_t batch_room, results_room, at, batch_size, given;
static uint32_t calls, faults, fault_command, fault_kind, fault_store, fault_position, command;
static uint8_t *packet_end, *output_end, *output_copy;
static reamstork_tallies *record;

static void stop(const char *why) {
  fprintf(stderr, "driver: %s\n", why);
  exit(2);
}

static void *room(void *old, size_t size) {
  void *fresh = realloc(old, size ? size : 1);
  if (!fresh) stop("no memory");
  return fresh;
}

static uint32_t next(void) {
  if (at >= batch_size) stop("batch ends inside a command");
  return batch[at++];
}

static const uint32_t *next_many(size_t n) {
  if (n > batch_size - at) stop("batch ends inside a command");
  at += n;
  return batch + at - n;
}

static uint32_t *give(size_t n) {
  if (given + n > results_room) {
    results_room = 2 * (given + n);
    results = room(results, 4 * results_room);
  }
  given += n;
  return results + given - n;
}

static void give_one(uint32_t number) { *give(1) = number; }

static void fault(uint32_t kind, const struct store *s, size_t position) {
  if (faults++) return;
  fault_command = command;
  fault_kind = kind;
  fault_store = s ? (uint32_t)(s - stores) : 0;
  fault_position = (uint32_t)position;
}

/* ---- stores ---- */

static uint32_t guard_word(size_t i) { return 0x9E3779B1u * (uint32_t)(i + 1) ^ 0x5AFE5AFEu; }

static struct store *next_store(void) {
  uint32_t id = next();
  if (id >= STORES) stop("no such store");
  return &stores[id];
}

static void release(struct store *s) {
  if (s->area) munmap(s->area, s->area_size);
  free(s->copy);
  memset(s, 0, sizeof *s);
}

/* Memory of some blocks with a block at either side that can't be touched.
   Blocks are as large as the largest pages in use. */
static uint32_t *walled(size_t inner, char **area, size_t *size) {
  *size = inner + 3 * BLOCK;
  *area = mmap(NULL, *size, PROT_READ | PROT_WRITE, MAP_PRIVATE | MAP_ANONYMOUS, -1, 0);
  if (*area == MAP_FAILED) stop("no memory");
  char *wall = *area + (BLOCK - (uintptr_t)*area % BLOCK) % BLOCK;
  if (mprotect(wall, BLOCK, PROT_NONE) || mprotect(wall + BLOCK + inner, BLOCK, PROT_NONE))
    stop("no wall");
  return (uint32_t *)(wall + BLOCK);
}

static void make(struct store *s, size_t total, uint32_t how, uint32_t fill) {
  release(s);
  if (total > MOST_WORDS) stop("store too long");
  s->total = s->lent = total;
  s->copy = room(NULL, 4 * total);
  size_t inner = (4 * (total + 2 * GUARD) + BLOCK - 1) / BLOCK * BLOCK;
  uint32_t *first = walled(inner, &s->area, &s->area_size), *last = first + inner / 4;
  if (how == GUARDED) s->words = first + GUARD;
  if (how == END_AT_WALL) s->words = last - total;
  if (how == FRONT_AT_WALL) s->words = first;
  if (!s->words) stop("no such place for a store");
  if (how != FRONT_AT_WALL) s->front = s->words - GUARD;
  if (how != END_AT_WALL) s->behind = s->words + total;
  for (size_t i = 0; i < GUARD; i++) {
    if (s->front) s->front[i] = guard_word(i);
    if (s->behind) s->behind[i] = guard_word(i + GUARD);
  }
  for (size_t i = 0; i < total; i++) {
    fill ^= fill << 13, fill ^= fill >> 17, fill ^= fill << 5;
    s->words[i] = s->copy[i] = fill;
  }
}

static void look_at_guards(const struct store *s) {
  for (size_t i = 0; i < GUARD; i++) {
    if (s->front && s->front[i] != guard_word(i)) {
      fault(GUARD_IN_FRONT, s, i);
      s->front[i] = guard_word(i);
    }
    if (s->behind && s->behind[i] != guard_word(i + GUARD)) {
      fault(GUARD_BEHIND, s, i);
      s->behind[i] = guard_word(i + GUARD);
    }
  }
}

/* Compares the words from one position on with the copy. */
static void compare_from(const struct store *s, size_t from, uint32_t kind) {
  if (from >= s->total || !memcmp(s->words + from, s->copy + from, 4 * (s->total - from))) return;
  size_t i = from;
  while (s->words[i] == s->copy[i]) i++;
  fault(kind, s, i);
  memcpy(s->copy, s->words, 4 * s->total);
}

static void after_reader(struct store *s) {
  calls++;
  look_at_guards(s);
  s->uncompared = s->total > COMPARED_AT_ONCE;
  if (!s->uncompared) compare_from(s, 0, READER_WROTE);
}

static void compare_late(struct store *s) {
  if (s->uncompared) compare_from(s, 0, READER_WROTE);
  s->uncompared = 0;
}

/* After a call that may write the words up to an end, and did. */
static void accepted(struct store *s, size_t end) {
  compare_from(s, end < s->lent ? end : s->lent, WROTE_BEHIND);
  if (s->total) memcpy(s->copy, s->words, 4 * s->total);
}

static void after_edit(struct store *s, uint32_t answer) {
  calls++;
  give_one(answer);
  look_at_guards(s);
  if (answer) {
    compare_from(s, 0, REFUSED_EDIT_WROTE);
    return;
  }
  accepted(s, s->size ? s->size : s->lent);
}

/* ---- commands that are no calls ---- */

static void housekeeping(uint32_t op) {
  if (op == RESET) {
    for (size_t i = 0; i < STORES; i++) release(&stores[i]);
    return;
  }
  struct store *s = next_store();
  if (op == MAKE) {
    size_t total = next();
    uint32_t how = next();
    make(s, total, how, next());
    return;
  }
  if (op == LEND) {
    s->lent = next();
    if (s->lent > s->total) stop("more lent than there is");
    return;
  }
  if (op == HOLDS) {
    s->size = next();
    return;
  }
  if (op == SAME || op == COPY) {
    struct store *t = next_store();
    size_t n = next();
    if (n > s->total || n > t->total) stop("words that are not there");
    if (op == COPY) {
      if (n) memcpy(t->words, s->words, 4 * n), memcpy(t->copy, s->words, 4 * n);
      t->size = s->size;
      return;
    }
    size_t i = 0;
    while (i < n && s->words[i] == t->words[i]) i++;
    give_one(i < n ? (uint32_t)i : UINT32_MAX);
    return;
  }
  size_t from = next(), n = next();
  if (from > s->total || n > s->total - from) stop("words that are not there");
  if (op == SET) {
    const uint32_t *given_words = next_many(n);
    if (n) memcpy(s->words + from, given_words, 4 * n), memcpy(s->copy + from, given_words, 4 * n);
  } else if (op == GET) {
    uint32_t *out = give(n);
    if (n) memcpy(out, s->words + from, 4 * n);
  } else {
    uint64_t h = 0xCBF29CE484222325u;
    for (size_t i = from; i < from + n; i++) h = (h ^ s->words[i]) * 0x100000001B3u, h ^= h >> 29;
    give_one((uint32_t)h);
    give_one((uint32_t)(h >> 32));
  }
}

/* ---- calls ---- */

static void call_insert(struct store *s) {
  uint32_t number = next(), action = next(), ends[2 * REAMSTORK_FIELDS], lent_ends[2 * REAMSTORK_FIELDS];
  memcpy(ends, next_many(2 * REAMSTORK_FIELDS), sizeof ends);
  memcpy(lent_ends, ends, sizeof ends);
  uint32_t answer =
      reamstork_insert(s->words, s->lent, number, action, lent_ends, lent_ends + REAMSTORK_FIELDS);
  after_edit(s, answer);
  if (memcmp(ends, lent_ends, sizeof ends)) fault(ENDS_WRITTEN, s, 0);
}

static void edit(uint32_t op) {
  struct store *s = next_store();
  compare_late(s);
  if (op == INSERT) {
    call_insert(s);
    return;
  }
  uint32_t number = next(), answer;
  size_t size = s->size;
  if (op != DELETE) s->size = REAMSTORK_WORDS((size_t)number);
  if (op == START) answer = reamstork_start(s->words, s->lent, number);
  else if (op == START_WITH) answer = reamstork_start_with(s->words, s->lent, number, next());
  else answer = reamstork_delete(s->words, s->lent, number);
  if (answer) s->size = size;
  after_edit(s, answer);
}

static void give_found(reamstork_found found) {
  uint32_t *out = give(4);
  out[0] = found.answer, out[1] = found.rule, out[2] = found.action, out[3] = found.reads;
}

/* A tally record comes in a batch as its words, and goes back as such. */
static void lend_record(void) {
  memcpy(record, next_many(sizeof *record / 4), sizeof *record);
}

static void give_record(void) {
  uint32_t *guard = (uint32_t *)record - GUARD;
  memcpy(give(sizeof *record / 4), record, sizeof *record);
  for (size_t i = 0; i < GUARD; i++) {
    if (guard[i] != guard_word(i)) fault(GUARD_OF_RECORD, NULL, i);
    guard[i] = guard_word(i);
  }
}

static void call_packet(struct store *s, uint32_t op) {
  size_t size = next();
  if (size > 2 * BLOCK) stop("packet too long");
  int counts = op == TALLY || op == IMAGE_TALLY;
  if (counts) lend_record();
  const uint32_t *bytes = next_many((size + 3) / 4);
  uint8_t *packet = packet_end - size;
  memcpy(packet, bytes, size);
  if (op == PACKET) give_found(reamstork_lookup_packet(s->words, s->lent, packet, size));
  if (op == TALLY)
    give_found(reamstork_lookup_packet_tally(s->words, s->lent, packet, size, record));
  if (op == IMAGE_PACKET) give_found(reamstork_image_lookup_packet(s->words, s->lent, packet, size));
  if (op == IMAGE_TALLY)
    give_found(reamstork_image_lookup_packet_tally(s->words, s->lent, packet, size, record));
  if (counts) give_record();
  if (memcmp(packet, bytes, size)) fault(PACKET_WRITTEN, s, 0);
}

/* Reads every number from one to another; gives how many are there and the
   first 65 of them. */
static void scan(struct store *s) {
  uint32_t from = next(), to = next(), found = 0, *out = give(66);
  memset(out, 0, 66 * 4);
  for (uint32_t n = from; n <= to && n >= from; n++, calls++)
    if (!reamstork_read(s->words, s->lent, n).answer && ++found <= 65) out[found] = n;
  out[0] = found;
}

static void look(uint32_t op) {
  struct store *s = next_store();
  if (op == CHECK) give_one(reamstork_check(s->words, s->lent));
  if (op == READ || op == RULE_AT) {
    uint32_t asked = next();
    reamstork_rule rule = op == READ ? reamstork_read(s->words, s->lent, asked)
                                     : reamstork_rule_at(s->words, s->lent, asked);
    uint32_t *out = give(3 + 2 * REAMSTORK_FIELDS);
    out[0] = rule.answer, out[1] = rule.number, out[2] = rule.action;
    memcpy(out + 3, rule.low, sizeof rule.low);
    memcpy(out + 3 + REAMSTORK_FIELDS, rule.high, sizeof rule.high);
  }
  if (op == DEAD) {
    reamstork_life life = reamstork_dead(s->words, s->lent, next());
    uint32_t *out = give(2 + REAMSTORK_FIELDS);
    out[0] = life.answer, out[1] = life.dead;
    memcpy(out + 2, life.value, sizeof life.value);
  }
  if (op == WORST || op == IMAGE_WORST) {
    reamstork_most most = op == WORST ? reamstork_worst(s->words, s->lent)
                                      : reamstork_image_worst(s->words, s->lent);
    uint32_t *out = give(2 + REAMSTORK_FIELDS);
    out[0] = most.answer, out[1] = most.reads;
    memcpy(out + 2, most.value, sizeof most.value);
  }
  if (op == CELLS) {
    reamstork_count count = reamstork_cells(s->words, s->lent);
    uint32_t *out = give(2);
    out[0] = count.answer, out[1] = count.cells;
  }
  if (op == LOOKUP) {
    const uint32_t *v = next_many(REAMSTORK_FIELDS);
    give_found(reamstork_lookup(s->words, s->lent, v[0], v[1], v[2], v[3], v[4], v[5]));
  }
  if (op == IMAGE_WORDS) {
    reamstork_size size = reamstork_image_words(s->words, s->lent);
    uint32_t *out = give(2);
    out[0] = size.answer, out[1] = size.words;
  }
  if (op == IMAGE_CHECK) give_one(reamstork_image_check(s->words, s->lent));
  if (op == IMAGE_LOOKUP) {
    const uint32_t *v = next_many(REAMSTORK_FIELDS);
    give_found(reamstork_image_lookup(s->words, s->lent, v[0], v[1], v[2], v[3], v[4], v[5]));
  }
  if (op == PACKET || op == TALLY || op == IMAGE_PACKET || op == IMAGE_TALLY) call_packet(s, op);
  if (op == SCAN) scan(s);
  after_reader(s);
}

static void call_freeze(void) {
  struct store *s = next_store(), *image = next_store();
  size_t total = next();
  if (s == image) stop("a store frozen into itself");
  compare_late(image);
  uint32_t answer = reamstork_freeze(s->words, s->lent, image->words, image->lent);
  give_one(answer);
  after_reader(s);
  look_at_guards(image);
  if (answer) compare_from(image, 0, REFUSED_EDIT_WROTE);
  else image->size = 0, accepted(image, total);
}

/* The store that is carried is seen to as after a call that only reads it, the other one as after
   a start. */
static void call_carry(void) {
  struct store *from = next_store(), *s = next_store();
  uint32_t c = next();
  if (from == s) stop("a store carried into itself");
  compare_late(from);
  compare_late(s);
  uint32_t answer = reamstork_carry(from->words, from->lent, s->words, s->lent, c);
  look_at_guards(from);
  compare_from(from, 0, READER_WROTE);
  if (!answer) s->size = REAMSTORK_WORDS((size_t)c);
  after_edit(s, answer);
}

static void give_listed(struct store *s, reamstork_listed listed) {
  after_edit(s, listed.answer);
  give_one(listed.place);
}

/* A list of edits, 15 words each, which ends where the packets end. */
static void call_edit_list(void) {
  struct store *s = next_store();
  size_t count = next(), size = count * sizeof(reamstork_edit);
  if (size > 2 * BLOCK) stop("too many edits");
  const uint32_t *numbers = next_many(15 * count);
  void *edits = packet_end - size;
  memcpy(edits, numbers, size);
  compare_late(s);
  give_listed(s, reamstork_edit_list(s->words, s->lent, edits, count));
  if (memcmp(edits, numbers, size)) fault(EDITS_WRITTEN, s, 0);
}

/* So many edits that none of them is read, a count in two words, the lower one first: they begin where
   nothing can be read. */
static void call_list_far(void) {
  struct store *s = next_store();
  size_t count = next();
  count += (size_t)next() << 32;
  void *edits = mmap(NULL, BLOCK, PROT_NONE, MAP_PRIVATE | MAP_ANONYMOUS, -1, 0);
  if (edits == MAP_FAILED) stop("no memory");
  compare_late(s);
  give_listed(s, reamstork_edit_list(s->words, s->lent, edits, count));
  munmap(edits, BLOCK);
}

static void call_prefix(void) {
  uint32_t address = next();
  reamstork_range range = reamstork_prefix(address, next());
  uint32_t *out = give(3);
  out[0] = range.answer, out[1] = range.low, out[2] = range.high;
  calls++;
}

static void call_clear(void) {
  lend_record();
  reamstork_tallies_clear(record);
  give_record();
  calls++;
}

static void call_difference(void) {
  uint32_t earlier = next();
  give_one(reamstork_tally_difference(earlier, next()));
  calls++;
}

/* A scan through a list of records, 14 words each, which ends where the packets end. */
static void call_records(void) {
  uint32_t action = next();
  const uint32_t *v = next_many(REAMSTORK_FIELDS);
  size_t count = next(), size = count * sizeof(reamstork_record);
  if (count > 2048) stop("too many records");
  const uint32_t *numbers = next_many(14 * count);
  void *records = packet_end - size;
  memcpy(records, numbers, size);
  reamstork_winner winner =
      reamstork_scan(records, count, action, v[0], v[1], v[2], v[3], v[4], v[5]);
  uint32_t *out = give(3);
  out[0] = winner.answer, out[1] = winner.rule, out[2] = winner.action;
  if (memcmp(records, numbers, size)) fault(RECORDS_WRITTEN, NULL, 0);
  calls++;
}

/* ---- captures ---- */

/* So many bytes, full of a pattern, to write into: they end at the wall, or so many guard bytes in
   front of it. */
static uint8_t *lend_output(size_t len, size_t behind, uint32_t fill) {
  if (len > OUTPUT || behind > GUARD) stop("output too long");
  for (uint8_t *p = output_end - OUTPUT - 2 * GUARD; p < output_end; p++) {
    fill ^= fill << 13, fill ^= fill >> 17, fill ^= fill << 5;
    *p = (uint8_t)fill;
  }
  memcpy(output_copy, output_end - OUTPUT - 2 * GUARD, OUTPUT + 2 * GUARD);
  return output_end - behind - len;
}

/* Gives the answer, the bytes said to be written, and the first `shown` bytes of the output. */
static void give_written(reamstork_written written, const uint8_t *out, size_t len, size_t shown) {
  const uint8_t *first = output_end - OUTPUT - 2 * GUARD;
  size_t from = (size_t)(out - first), end = from + (written.answer ? 0 : written.bytes);
  if (shown > len) stop("bytes that are not there");
  uint32_t *give_to = give(2 + (shown + 3) / 4);
  give_to[0] = written.answer, give_to[1] = written.bytes;
  memset(give_to + 2, 0, (shown + 3) / 4 * 4);
  if (shown) memcpy(give_to + 2, out, shown);
  if (!written.answer && written.bytes > len) fault(MORE_THAN_LENT, NULL, written.bytes), end = from + len;
  for (size_t i = 0; i < OUTPUT + 2 * GUARD; i++)
    if ((i < from || i >= end) && first[i] != output_copy[i])
      fault(i < from || i >= from + len ? GUARD_OF_OUTPUT : written.answer ? REFUSED_WROTE : OUTPUT_BEHIND, NULL, i - from);
  calls++;
}

static void call_begin(void) {
  size_t len = next(), behind = next();
  uint8_t *out = lend_output(len, behind, next());
  size_t shown = next();
  give_written(reamstork_capture_begin(out, len), out, len, shown);
}

static void call_add(void) {
  size_t len = next(), behind = next();
  uint8_t *out = lend_output(len, behind, next());
  size_t shown = next();
  uint32_t seconds = next(), fraction = next(), original = next();
  size_t size = next();
  if (size > 2 * BLOCK) stop("data too long");
  const uint32_t *bytes = next_many((size + 3) / 4);
  uint8_t *data = packet_end - size;
  memcpy(data, bytes, size);
  give_written(reamstork_capture_add(out, len, seconds, fraction, original, data, size), out, len, shown);
  if (memcmp(data, bytes, size)) fault(DATA_WRITTEN, NULL, 0);
}

/* Lengths that 32 bits do not hold: a header and a record of so many bytes into 2^32 bytes and some,
   and a record of 2^32 bytes and some into as many. Gives the answers and the bytes written of the
   three, or six times the greatest number where there is no such memory. */
static void call_far(void) {
  size_t more = next(), size = next(), whole = ((size_t)1 << 32) + more;
  int how = MAP_PRIVATE | MAP_ANONYMOUS | MAP_NORESERVE;
  if (more > BLOCK || size > BLOCK) stop("too far");
  uint32_t *to = give(6);
  memset(to, 0xFF, 24);
  uint8_t *out = mmap(NULL, whole + BLOCK, PROT_READ | PROT_WRITE, how, -1, 0);
  uint8_t *data = mmap(NULL, whole + BLOCK, PROT_READ, how, -1, 0);
  if (out != MAP_FAILED && data != MAP_FAILED) {
    reamstork_written head = reamstork_capture_begin(out, whole);
    reamstork_written one = reamstork_capture_add(out, whole, 1, 2, 3, data, size);
    reamstork_written none = reamstork_capture_add(out, whole, 1, 2, 3, data, whole);
    to[0] = head.answer, to[1] = head.bytes, to[2] = one.answer, to[3] = one.bytes;
    to[4] = none.answer, to[5] = none.bytes;
    calls += 3;
  }
  if (out != MAP_FAILED) munmap(out, whole + BLOCK);
  if (data != MAP_FAILED) munmap(data, whole + BLOCK);
}

/* ---- batches ---- */

static int take(void *into, size_t size) {
  char *p = into;
  while (size) {
    ssize_t n = read(0, p, size);
    if (n <= 0) return 0;
    p += n, size -= (size_t)n;
  }
  return 1;
}

static void put(const void *from, size_t size) {
  const char *p = from;
  while (size) {
    ssize_t n = write(1, p, size);
    if (n <= 0) exit(2);
    p += n, size -= (size_t)n;
  }
}

static void run_batch(void) {
  at = given = 0;
  calls = faults = fault_command = fault_kind = fault_store = fault_position = command = 0;
  for (; at < batch_size; command++) {
    uint32_t op = next();
    if (op <= HOLDS) housekeeping(op);
    else if (op >= START && op <= DELETE) edit(op);
    else if (op == PREFIX) call_prefix();
    else if (op == CLEAR) call_clear();
    else if (op == DIFFERENCE) call_difference();
    else if (op == RECORDS) call_records();
    else if (op == FREEZE) call_freeze();
    else if (op == CARRY) call_carry();
    else if (op == EDIT_LIST) call_edit_list();
    else if (op == LIST_FAR) call_list_far();
    else if (op == CAPTURE_BEGIN) call_begin();
    else if (op == CAPTURE_ADD) call_add();
    else if (op == CAPTURE_FAR) call_far();
    else if ((op >= CHECK && op <= WORST) || op == TALLY || (op >= IMAGE_WORDS && op <= IMAGE_WORST)) look(op);
    else stop("no such command");
  }
  for (size_t i = 0; i < STORES; i++) compare_late(&stores[i]);
}

int main(void) {
  char *area;
  size_t size;
  uint32_t length;
  packet_end = (uint8_t *)walled(2 * BLOCK, &area, &size) + 2 * BLOCK;
  record = (reamstork_tallies *)(walled(BLOCK, &area, &size) + BLOCK / 4) - 1;
  for (size_t i = 0; i < GUARD; i++) ((uint32_t *)record - GUARD)[i] = guard_word(i);
  output_end = (uint8_t *)walled(BLOCK, &area, &size) + BLOCK;
  output_copy = room(NULL, OUTPUT + 2 * GUARD);
  while (take(&length, 4)) {
    batch_size = length;
    if (batch_size > batch_room) {
      batch_room = batch_size;
      batch = room(batch, 4 * batch_room);
    }
    if (!take(batch, 4 * batch_size)) break;
    run_batch();
    uint32_t head[7] = {(uint32_t)given, calls, faults, fault_command,
                        fault_kind, fault_store, fault_position};
    put(head, sizeof head);
    put(results, 4 * given);
  }
  return 0;
}
