/* Writes the files of this folder: stores of at most 64 rules and their images, as version 4.2 of
   the library leaves them, and the table of each as a text.

   It is compiled against the header and the archive of version 4.2, whose starts make such
   stores, and is not run by the tests: the files are what they take. In a checkout of that
   version, after `make lib`:

       cc -std=c11 -Iinclude PATH/write.c target/staticlib/libreamstork.a -o write && ./write FOLDER

   NAME.store and NAME.image are words of 32 bits, least byte first. NAME.table says c, the
   default action and the rules, from what was inserted here and not from what the library reads
   back: a line 'cells C action A', and a line for each rule: number, action, and LOW-HIGH for
   each field. README.md says what each table is. */

#include <inttypes.h>
#include <stdio.h>
#include <stdlib.h>
#include <string.h>

#include "reamstork.h"

_Static_assert(REAMSTORK_RULES_MAX == 64, "this is compiled against version 4.2");

enum { MOST = 2000, FIELDS = REAMSTORK_FIELDS };

struct rule { uint32_t number, action, low[FIELDS], high[FIELDS]; };

static const uint32_t tops[FIELDS] = { 4294967295u, 4294967295u, 255, 65535, 65535, 1 };
static uint32_t words[REAMSTORK_WORDS(MOST)], image[REAMSTORK_IMAGE_WORDS_MOST(MOST)];
static struct rule table[REAMSTORK_RULES_MAX];
static size_t rules, len;
static uint32_t cells, action;
static const char *folder;

static void sure(int truth, const char *what) {
  if (truth) return;
  fprintf(stderr, "write: %s\n", what);
  exit(1);
}

/* ---- a table, and its store ---- */

static uint32_t drawn = 20040229;

static uint32_t draw(uint32_t below) {
  drawn ^= drawn << 13, drawn ^= drawn >> 17, drawn ^= drawn << 5;
  return drawn % below;
}

static struct rule full(uint32_t number, uint32_t of) {
  struct rule r = { number, of, { 0 }, { 0 } };
  memcpy(r.high, tops, sizeof tops);
  return r;
}

static void span(struct rule *r, int field, uint32_t low, uint32_t high) {
  r->low[field] = low, r->high[field] = high;
  if (field == REAMSTORK_DESTINATION_PORT || field == REAMSTORK_SOURCE_PORT)
    r->low[REAMSTORK_PORTLESS] = r->high[REAMSTORK_PORTLESS] = 0;
}

static void start(uint32_t c, uint32_t of) {
  cells = c, action = of, rules = 0, len = REAMSTORK_WORDS(c);
  sure(reamstork_start_with(words, len, c, of) == REAMSTORK_DONE, "a start is refused");
}

static uint32_t insert(struct rule r) {
  uint32_t answer = reamstork_insert(words, len, r.number, r.action, r.low, r.high);
  if (answer == REAMSTORK_DONE) table[rules++] = r;
  return answer;
}

static void drop(size_t place) {
  sure(reamstork_delete(words, len, table[place].number) == REAMSTORK_DONE, "a delete is refused");
  memmove(table + place, table + place + 1, (--rules - place) * sizeof table[0]);
}

/* Starts anew with as many cells as the table takes and some more, and loads it again. */
static void fit(uint32_t more) {
  static struct rule kept[REAMSTORK_RULES_MAX];
  size_t n = rules;
  memcpy(kept, table, sizeof kept);
  start(reamstork_cells(words, len).cells + more, action);
  for (size_t i = 0; i < n; i++) sure(insert(kept[i]) == REAMSTORK_DONE, "an insert is refused");
}

/* ---- files ---- */

static FILE *file(const char *name, const char *ending, const char *how) {
  char path[1024];
  snprintf(path, sizeof path, "%s/%s.%s", folder, name, ending);
  FILE *f = fopen(path, how);
  sure(f != NULL, path);
  return f;
}

static void put(const char *name, const char *ending, const uint32_t *from, size_t n) {
  FILE *f = file(name, ending, "wb");
  for (size_t i = 0; i < n; i++)
    for (int part = 0; part < 4; part++) fputc((int)(from[i] >> 8 * part & 255), f);
  sure(fclose(f) == 0, name);
}

static void keep(const char *name) {
  reamstork_size size = reamstork_image_words(words, len);
  sure(reamstork_check(words, len) == REAMSTORK_DONE, "a store fails the check");
  sure(reamstork_freeze(words, len, image, sizeof image / 4) == REAMSTORK_DONE, "a freeze is refused");
  sure(reamstork_image_check(image, size.words) == REAMSTORK_DONE, "an image fails the check");
  put(name, "store", words, len);
  put(name, "image", image, size.words);
  FILE *f = file(name, "table", "w");
  fprintf(f, "cells %" PRIu32 " action %" PRIu32 "\n", cells, action);
  for (size_t i = 0; i < rules; i++) {
    fprintf(f, "%" PRIu32 " %" PRIu32, table[i].number, table[i].action);
    for (int k = 0; k < FIELDS; k++) fprintf(f, " %" PRIu32 "-%" PRIu32, table[i].low[k], table[i].high[k]);
    fprintf(f, "\n");
  }
  sure(fclose(f) == 0, name);
  printf("%-14s c %5" PRIu32 ", %2zu rules, %5" PRIu32 " cells in use, %5" PRIu32 " words of image\n",
         name, cells, rules, reamstork_cells(words, len).cells, size.words);
}

/* ---- the tables ---- */

static void bench(uint32_t c) {
  struct rule ten = full(10, 2), twenty = full(20, 3);
  start(c, 0);
  span(&ten, REAMSTORK_DESTINATION, 167772160, 167772415);
  span(&ten, REAMSTORK_PROTOCOL, 17, 17);
  span(&ten, REAMSTORK_DESTINATION_PORT, 5000, 5009);
  span(&twenty, REAMSTORK_DESTINATION, 167772160, 167772287);
  sure(insert(ten) == REAMSTORK_DONE && insert(twenty) == REAMSTORK_DONE, "the bench table is refused");
}

/* Ranges from a few values of each field to others, so that many overlap and few ends differ. */
static struct rule overlapping(uint32_t number) {
  static const uint32_t values[FIELDS][5] = {
    { 167772160, 167772416, 167773184, 167780352, 184549376 },
    { 3232235520u, 3232235776u, 3232301056u, 3232235777u, 0 },
    { 6, 7, 17, 18, 0 }, { 1024, 5000, 5010, 0, 0 }, { 40000, 0, 0, 0, 0 }, { 0 } };
  static const uint32_t some[FIELDS] = { 4, 3, 2, 2, 1, 0 };
  struct rule r = full(number, draw(5));
  for (int field = 0; field < REAMSTORK_PORTLESS; field++) {
    uint32_t a, b;
    if (draw(5) < 2u + (field > 1)) continue;
    a = draw(some[field] + 2), b = draw(some[field] + 2);
    if (a > b) { uint32_t c = a; a = b, b = c; }
    if (a == b) continue;
    span(&r, field, a ? values[field][a - 1] : 0, b <= some[field] ? values[field][b - 1] - 1 : tops[field]);
  }
  if (r.low[REAMSTORK_PORTLESS] != r.high[REAMSTORK_PORTLESS] && draw(3) == 0)
    r.low[REAMSTORK_PORTLESS] = r.high[REAMSTORK_PORTLESS] = draw(2);
  return r;
}

static struct rule narrow(uint32_t i) {
  struct rule r = full(1000 * i + 7, i);
  span(&r, REAMSTORK_DESTINATION, 167772161 + 3 * i, 167772161 + 3 * i);
  if (i % 4 == 1) span(&r, REAMSTORK_PROTOCOL, 17, 17), span(&r, REAMSTORK_DESTINATION_PORT, 5000 + i, 5000 + i);
  if (i % 4 == 2) span(&r, REAMSTORK_SOURCE, 3232235776u + i, 3232235776u + i);
  if (i % 4 == 3) r.low[REAMSTORK_PORTLESS] = 1;
  return r;
}

int main(int argc, char **argv) {
  sure(argc == 2, "name a folder");
  folder = argv[1];

  start(6, 0);
  keep("default-tight");
  start(60, 4294967295u);
  keep("default-roomy");

  bench(54);
  keep("bench-tight");
  bench(300);
  keep("bench-roomy");

  start(MOST, 1);
  for (uint32_t tries = 0; rules < 64 && tries < 100000; tries++) insert(overlapping(draw(65535)));
  sure(rules == 64, "no room for 64 rules that overlap");
  fit(0);
  keep("overlap");

  start(MOST, 9);
  for (uint32_t i = 0; i < 64; i++) sure(insert(narrow(i)) == REAMSTORK_DONE, "a narrow rule is refused");
  fit(40);
  keep("narrow");

  /* inserts up to the limit and past it, deletes, refused edits, the same number again */
  start(500, 3);
  for (uint32_t round = 0; round < 6; round++) {
    for (uint32_t tries = 0; tries < 60; tries++) insert(tries % 3 ? narrow(draw(65)) : overlapping(draw(400)));
    while (rules > 14 + round) drop(draw((uint32_t)rules));
  }
  sure(insert(full(65535, 1)) == REAMSTORK_BAD_NUMBER, "another answer than 1");
  sure(insert(full(table[0].number, 1)) == REAMSTORK_NUMBER_TAKEN, "another answer than 3");
  keep("edited");
  return 0;
}
