/* Makes calls of the library for trace.py, which holds what they load and store
   against docs/TIMING.md.

   Reads commands on standard input, all of them before the first is run, and
   writes at the end where its stack and its own code and constants lie, and then
   the results. All numbers are words of 32 bits. All that is lent lies at fixed
   addresses below BASE, with a pattern in between that no call may touch. The
   word at BASE is written before each call and after it, so that a trace shows
   where a call begins and ends. */

#define _GNU_SOURCE
#include <stdint.h>
#include <stdio.h>
#include <stdlib.h>
#include <string.h>
#include <sys/mman.h>
#include <unistd.h>

#include "reamstork.h"

/* Known to trace.py as well. */
#define BASE 0x300000000u
enum { ENDS = 0x1000, TALLIES = 0x2000, PACKET = 0x4000, RECORDS = 0x8000, STORE = 0x10000,
       IMAGE = 0x80000, SIZE = 0x100000, PATTERN = 0xA5 };
enum { FILL, GET, START, START_WITH, INSERT, DELETE, CHECK, READ, RULE_AT, DEAD, WORST, CELLS,
       LOOKUP, LOOKUP_PACKET, LOOKUP_TALLY, SCAN, PREFIX, CLEAR, DIFFERENCE, IMAGE_WORDS, FREEZE,
       IMAGE_CHECK, IMAGE_LOOKUP, IMAGE_PACKET, IMAGE_TALLY, IMAGE_WORST, CARRY, CAPTURE_BEGIN,
       CAPTURE_ADD, EDIT_LIST };

extern char __executable_start, end;

static char *lent;
static uint32_t *input, *results, *words;
static size_t input_size, at, given, len;
static int patterned; /* a file of SIZE bytes of the pattern */

static void stop(const char *why) {
  fprintf(stderr, "trace: %s\n", why);
  exit(2);
}

/* Fills a place of what is lent with the pattern. The system writes it, since what the program
   itself stores has lines in the trace. */
static void pattern(void *to, size_t size) {
  if (pread(patterned, to, size, 0) != (ssize_t)size) stop("the pattern cannot be read");
}

static uint32_t next(void) {
  if (at >= input_size) stop("the commands end inside one");
  return input[at++];
}

/* Copies the next n words to a place of what is lent. */
static void *lend(size_t place, size_t n) {
  if (n > input_size - at || place + 4 * n > SIZE) stop("too many words");
  memcpy(lent + place, input + at, 4 * n);
  at += n;
  return lent + place;
}

static void give(const void *from, size_t n) {
  memcpy(results + given, from, 4 * n);
  given += n;
}

/* What is loaded for a call is loaded before the mark, and what it gives is stored after it. */
static inline void mark(uint32_t what) {
  __asm__ volatile("" ::: "memory");
  *(volatile uint32_t *)lent = what;
  __asm__ volatile("" ::: "memory");
}

#define CALL(type, call) type r; mark(1); r = call; mark(2); give(&r, sizeof r / 4)

static void edit(uint32_t op) {
  uint32_t a = next(), b = op == START_WITH || op == INSERT ? next() : 0;
  if (op == START) { CALL(uint32_t, reamstork_start(words, len, a)); }
  if (op == START_WITH) { CALL(uint32_t, reamstork_start_with(words, len, a, b)); }
  if (op == DELETE) { CALL(uint32_t, reamstork_delete(words, len, a)); }
  if (op == INSERT) {
    uint32_t *ends = lend(ENDS, 2 * REAMSTORK_FIELDS);
    CALL(uint32_t, reamstork_insert(words, len, a, b, ends, ends + REAMSTORK_FIELDS));
  }
}

static void look(uint32_t op) {
  uint32_t a = op == READ || op == RULE_AT || op == DEAD ? next() : 0;
  if (op == CHECK) { CALL(uint32_t, reamstork_check(words, len)); }
  if (op == READ) { CALL(reamstork_rule, reamstork_read(words, len, a)); }
  if (op == RULE_AT) { CALL(reamstork_rule, reamstork_rule_at(words, len, a)); }
  if (op == DEAD) { CALL(reamstork_life, reamstork_dead(words, len, a)); }
  if (op == WORST) { CALL(reamstork_most, reamstork_worst(words, len)); }
  if (op == CELLS) { CALL(reamstork_count, reamstork_cells(words, len)); }
  if (op == IMAGE_WORDS) { CALL(reamstork_size, reamstork_image_words(words, len)); }
  if (op == IMAGE_CHECK) { CALL(uint32_t, reamstork_image_check(words, len)); }
  if (op == IMAGE_WORST) { CALL(reamstork_most, reamstork_image_worst(words, len)); }
}

/* Into as many words as are said, all full of the pattern. */
static void freeze(void) {
  uint32_t *image = (void *)(lent + IMAGE);
  size_t image_len = next();
  if (IMAGE + 4 * image_len > SIZE) stop("too many words");
  pattern(image, SIZE - IMAGE);
  CALL(uint32_t, reamstork_freeze(words, len, image, image_len));
}

/* Into a store in as many words as are said, all full of the pattern, where images stand. */
static void carry(void) {
  uint32_t *store = (void *)(lent + IMAGE);
  size_t store_len = next();
  uint32_t c = next();
  if (IMAGE + 4 * store_len > SIZE) stop("too many words");
  pattern(store, SIZE - IMAGE);
  CALL(uint32_t, reamstork_carry(words, len, store, store_len, c));
}

/* Into as many bytes as are said, all full of the pattern, where images stand; data lies where
   packets do, and may go on over the room of records. Both begin as many bytes further on as is said, so
   that they are aligned in every way. */
static void capture(uint32_t op) {
  size_t out_len = next(), out_shift = next();
  uint8_t *out = (uint8_t *)lent + IMAGE + out_shift;
  if (IMAGE + out_shift + out_len > SIZE) stop("too many bytes");
  pattern(lent + IMAGE, SIZE - IMAGE);
  if (op == CAPTURE_BEGIN) {
    CALL(reamstork_written, reamstork_capture_begin(out, out_len));
    return;
  }
  uint32_t seconds = next(), fraction = next(), original = next();
  size_t size = next(), shift = next();
  if (PACKET + shift + size + 8 > STORE) stop("too many bytes");
  pattern(lent + PACKET, STORE - PACKET);
  uint8_t *data = (uint8_t *)lend(PACKET, (shift + size + 3) / 4) + shift;
  memset(lent + PACKET, PATTERN, shift);
  memset(data + size, PATTERN, 4);
  CALL(reamstork_written, reamstork_capture_add(out, out_len, seconds, fraction, original, data, size));
}

static void lookup(uint32_t op) {
  uint32_t a = next(), b = next(), c = next(), d = next(), e = next(), f = next();
  if (op == LOOKUP) { CALL(reamstork_found, reamstork_lookup(words, len, a, b, c, d, e, f)); }
  else { CALL(reamstork_found, reamstork_image_lookup(words, len, a, b, c, d, e, f)); }
}

static void lookup_packet(uint32_t op) {
  reamstork_tallies *tallies = (void *)(lent + TALLIES);
  int counts = op == LOOKUP_TALLY || op == IMAGE_TALLY;
  if (counts) lend(TALLIES, sizeof *tallies / 4);
  size_t size = next();
  uint8_t *packet = lend(PACKET, (size + 3) / 4);
  memset(packet + size, PATTERN, 4);
  if (op == LOOKUP_PACKET) {
    CALL(reamstork_found, reamstork_lookup_packet(words, len, packet, size));
  } else if (op == LOOKUP_TALLY) {
    CALL(reamstork_found, reamstork_lookup_packet_tally(words, len, packet, size, tallies));
  } else if (op == IMAGE_PACKET) {
    CALL(reamstork_found, reamstork_image_lookup_packet(words, len, packet, size));
  } else {
    CALL(reamstork_found, reamstork_image_lookup_packet_tally(words, len, packet, size, tallies));
  }
  if (counts) give(tallies, sizeof *tallies / 4);
}

static void scan(void) {
  uint32_t action = next(), a = next(), b = next(), c = next(), d = next(), e = next(), f = next();
  size_t count = next();
  reamstork_record *records = lend(RECORDS, 14 * count);
  CALL(reamstork_winner, reamstork_scan(records, count, action, a, b, c, d, e, f));
}

/* Edits lie where records do, with the pattern behind them. */
static void edit_list(void) {
  size_t count = next();
  memset(lent + RECORDS, PATTERN, STORE - RECORDS);
  if (RECORDS + count * sizeof(reamstork_edit) > STORE) stop("too many edits");
  reamstork_edit *edits = lend(RECORDS, 15 * count);
  CALL(reamstork_listed, reamstork_edit_list(words, len, edits, count));
}

static void small(uint32_t op) {
  uint32_t a = op == CLEAR ? 0 : next(), b = op == CLEAR ? 0 : next();
  reamstork_tallies *tallies = (void *)(lent + TALLIES);
  if (op == PREFIX) { CALL(reamstork_range, reamstork_prefix(a, b)); }
  if (op == DIFFERENCE) { CALL(uint32_t, reamstork_tally_difference(a, b)); }
  if (op == CLEAR) {
    mark(1);
    reamstork_tallies_clear(tallies);
    mark(2);
  }
}

/* The words of the store, or of an image, and how many are lent of those from its first on. */
static void fill(void) {
  len = next();
  size_t n = next();
  pattern(lent + STORE, 4 * (len > n ? len : n) + 4096);
  lend(STORE, n);
}

static void run(uint32_t op) {
  size_t n;
  if (op == FILL) fill();
  else if (op == GET) n = next(), give(words, n);
  else if (op <= DELETE) edit(op);
  else if (op <= CELLS || op == IMAGE_WORDS || op == IMAGE_CHECK || op == IMAGE_WORST) look(op);
  else if (op == LOOKUP || op == IMAGE_LOOKUP) lookup(op);
  else if (op <= LOOKUP_TALLY || op == IMAGE_PACKET || op == IMAGE_TALLY) lookup_packet(op);
  else if (op == FREEZE) freeze();
  else if (op == CARRY) carry();
  else if (op == CAPTURE_BEGIN || op == CAPTURE_ADD) capture(op);
  else if (op == EDIT_LIST) edit_list();
  else if (op == SCAN) scan();
  else if (op <= DIFFERENCE) small(op);
  else stop("no such command");
}

static void *room(uintptr_t where, size_t size) {
  int how = MAP_PRIVATE | MAP_ANONYMOUS | (where ? MAP_FIXED_NOREPLACE : 0);
  void *got = mmap((void *)where, size, PROT_READ | PROT_WRITE, how, -1, 0);
  if (got == MAP_FAILED || (where && got != (void *)where)) stop("no memory");
  return got;
}

static void whole(ssize_t (*move)(int, char *, size_t), int file, char *p, size_t size) {
  for (ssize_t n; size; p += n, size -= (size_t)n)
    if ((n = move(file, p, size)) <= 0) stop("input or output fails");
}

static ssize_t take(int file, char *p, size_t size) { return read(file, p, size); }
static ssize_t put(int file, char *p, size_t size) { return write(file, p, size); }

int main(void) {
  uint32_t sizes[2];
  uint64_t places[3] = {(uintptr_t)__builtin_dwarf_cfa(), (uintptr_t)&__executable_start,
                        (uintptr_t)&end};
  whole(take, 0, (char *)sizes, sizeof sizes);
  input_size = sizes[0];
  input = room(0, 4 * input_size + 4);
  results = room(0, 4 * (size_t)sizes[1] + 4);
  lent = room(BASE, SIZE);
  memset(lent, PATTERN, SIZE);
  patterned = memfd_create("pattern", 0);
  if (patterned < 0) stop("no memory");
  whole(put, patterned, lent, SIZE);
  words = (uint32_t *)(lent + STORE);
  whole(take, 0, (char *)input, 4 * input_size);
  while (at < input_size) run(next());
  whole(put, 1, (char *)places, sizeof places);
  whole(put, 1, (char *)results, 4 * given);
  return 0;
}
