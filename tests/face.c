/* What the header has beside the calls: the names of the fields, the texts of the answers, a rule that was read handed to a scan and to an insert, and a table listed and loaded again; its examples of packets that are refused; rules that never win; the worst packet of a table, and of its image; the image; small stores, and a table carried from one; lists of edits; and captures written.

       face answers      a line for each answer, number and text
       face version      the version, and the same from its two numbers
       face rules        0 where all is well, otherwise the line that is not */
#include <stdio.h>
#include <string.h>

#include "reamstork.h"

#define SURE(truth) do { if (!(truth)) { printf("tests/face.c:%d: not so: %s\n", __LINE__, #truth); return 1; } } while (0)

static uint32_t one[REAMSTORK_WORDS(100)], two[REAMSTORK_WORDS(100)], moved[REAMSTORK_WORDS(100)];
static const size_t len = REAMSTORK_WORDS(100);

/* Where a large store's rows begin and its cells, or an image's blocks. */
enum { ROWS = 495, ROW = 15, CELLS = 8192 };

static int rules(void) {
  /* a range of its own in each field; since it is narrow in the ports, 0 to 0 in portless */
  const uint32_t low[REAMSTORK_FIELDS] = {
    [REAMSTORK_PORTLESS] = 0, [REAMSTORK_SOURCE_PORT] = 50, [REAMSTORK_DESTINATION_PORT] = 40, [REAMSTORK_PROTOCOL] = 30, [REAMSTORK_SOURCE] = 20, [REAMSTORK_DESTINATION] = 10 };
  const uint32_t high[REAMSTORK_FIELDS] = {
    [REAMSTORK_PORTLESS] = 0, [REAMSTORK_SOURCE_PORT] = 59, [REAMSTORK_DESTINATION_PORT] = 48, [REAMSTORK_PROTOCOL] = 37, [REAMSTORK_SOURCE] = 26, [REAMSTORK_DESTINATION] = 15 };

  SURE(reamstork_start(one, len, 100) == REAMSTORK_DONE);
  SURE(reamstork_read(one, len, REAMSTORK_DEFAULT).action == REAMSTORK_DEFAULT_ACTION);
  SURE(reamstork_start_with(one, len, 100, 8) == REAMSTORK_DONE);
  SURE(reamstork_start_with(two, len, 100, 8) == REAMSTORK_DONE);
  SURE(reamstork_insert(one, len, 7, 70, low, high) == REAMSTORK_DONE);

  /* each name of a field is that of the lookup's value */
  SURE(reamstork_lookup(one, len, 10, 20, 30, 40, 50, 0).rule == 7);
  SURE(reamstork_lookup(one, len, 15, 26, 37, 48, 59, 0).rule == 7);
  SURE(reamstork_lookup(one, len, 16, 26, 37, 48, 59, 0).rule == REAMSTORK_DEFAULT);
  SURE(reamstork_lookup(one, len, 15, 27, 37, 48, 59, 0).rule == REAMSTORK_DEFAULT);
  SURE(reamstork_lookup(one, len, 15, 26, 38, 48, 59, 0).rule == REAMSTORK_DEFAULT);
  SURE(reamstork_lookup(one, len, 15, 26, 37, 49, 59, 0).rule == REAMSTORK_DEFAULT);
  SURE(reamstork_lookup(one, len, 15, 26, 37, 48, 60, 0).rule == REAMSTORK_DEFAULT);
  SURE(reamstork_lookup(one, len, 15, 26, 37, 48, 59, 1).rule == REAMSTORK_DEFAULT);
  SURE(reamstork_lookup(one, len, 15, 26, 37, 48, 59, REAMSTORK_TOP_PORTLESS + 1).answer == REAMSTORK_BAD_VALUE);

  /* the port rule: ports are asked of packets with ports alone */
  uint32_t wide[REAMSTORK_FIELDS];
  memcpy(wide, high, sizeof wide);
  wide[REAMSTORK_PORTLESS] = REAMSTORK_TOP_PORTLESS;
  SURE(reamstork_insert(one, len, 8, 70, low, wide) == REAMSTORK_BAD_RANGE);
  /* and a rule with full ports has the choice, packets without ports alone among it */
  const uint32_t none[REAMSTORK_FIELDS] = { [REAMSTORK_PORTLESS] = 1 };
  const uint32_t tops[REAMSTORK_FIELDS] = {
    [REAMSTORK_DESTINATION] = REAMSTORK_TOP_ADDRESS, [REAMSTORK_SOURCE] = REAMSTORK_TOP_ADDRESS,
    [REAMSTORK_PROTOCOL] = REAMSTORK_TOP_PROTOCOL, [REAMSTORK_DESTINATION_PORT] = REAMSTORK_TOP_PORT,
    [REAMSTORK_SOURCE_PORT] = REAMSTORK_TOP_PORT, [REAMSTORK_PORTLESS] = REAMSTORK_TOP_PORTLESS };
  SURE(reamstork_insert(one, len, 8, 80, none, tops) == REAMSTORK_DONE);
  SURE(reamstork_lookup(one, len, 15, 26, 37, 48, 59, 0).rule == 7);
  SURE(reamstork_lookup(one, len, 15, 26, 37, 48, 59, 1).rule == 8);
  SURE(reamstork_lookup(one, len, 16, 26, 37, 48, 59, 0).rule == REAMSTORK_DEFAULT);
  SURE(reamstork_delete(one, len, 8) == REAMSTORK_DONE);

  /* read, and scanned */
  reamstork_rule r = reamstork_read(one, len, 7);
  SURE(r.answer == REAMSTORK_DONE);
  reamstork_record list[1] = { reamstork_record_of(r) };
  SURE(list[0].number == 7 && list[0].action == 70);
  SURE(memcmp(list[0].low, low, sizeof low) == 0 && memcmp(list[0].high, high, sizeof high) == 0);
  reamstork_winner w = reamstork_scan(list, 1, 8, 15, 26, 37, 48, 59, 0);
  SURE(w.answer == REAMSTORK_DONE && w.rule == 7 && w.action == 70);
  w = reamstork_scan(list, 1, 8, 15, 26, 37, 48, 60, 0);
  SURE(w.answer == REAMSTORK_DONE && w.rule == REAMSTORK_DEFAULT && w.action == 8);
  w = reamstork_scan(list, 1, 8, 15, 26, 37, 48, 59, 1);
  SURE(w.answer == REAMSTORK_DONE && w.rule == REAMSTORK_DEFAULT && w.action == 8);

  /* read, and inserted elsewhere: the same store, word for word */
  SURE(reamstork_insert(two, len, r.number, r.action, r.low, r.high) == REAMSTORK_DONE);
  SURE(memcmp(one, two, sizeof one) == 0);

  /* listed by rising number, as the header has it; loaded from the list backwards, the same store */
  static reamstork_record all[REAMSTORK_RULES_MAX];
  uint32_t n = 0;
  SURE(reamstork_insert(one, len, REAMSTORK_NUMBER_MAX, 5, low, high) == REAMSTORK_DONE);
  SURE(reamstork_insert(one, len, 0, 6, low, high) == REAMSTORK_DONE);
  while ((r = reamstork_rule_at(one, len, n + 1)).answer == REAMSTORK_DONE)
    all[n++] = reamstork_record_of(r);
  SURE(r.answer == REAMSTORK_NO_SUCH_NUMBER && n == 3);
  SURE(all[0].number == 0 && all[1].number == 7 && all[2].number == REAMSTORK_NUMBER_MAX);
  SURE(all[0].action == 6 && all[1].action == 70 && all[2].action == 5);
  SURE(reamstork_start_with(two, len, 100, reamstork_read(one, len, REAMSTORK_DEFAULT).action) == REAMSTORK_DONE);
  while (n--)
    SURE(reamstork_insert(two, len, all[n].number, all[n].action, all[n].low, all[n].high) == REAMSTORK_DONE);
  SURE(memcmp(one, two, sizeof one) == 0);
  SURE(reamstork_rule_at(one, len, 0).answer == REAMSTORK_NO_SUCH_NUMBER);
  SURE(reamstork_delete(one, len, 0) == REAMSTORK_DONE && reamstork_delete(one, len, REAMSTORK_NUMBER_MAX) == REAMSTORK_DONE);
  SURE(reamstork_rule_at(one, len, 1).number == 7);

  /* what the check cannot see, and what it sees: an action, a number that leaves the numbers rising, an end */
  memcpy(two, one, sizeof one);
  two[ROWS + ROW + 1] ^= 1;
  SURE(reamstork_check(two, len) == REAMSTORK_DONE);
  two[ROWS + ROW] ^= 1;
  SURE(reamstork_check(two, len) == REAMSTORK_DONE);
  two[ROWS + ROW + 2] ^= 1;
  SURE(reamstork_check(two, len) == REAMSTORK_BAD_STORE);
  SURE(reamstork_rule_at(two, len, 1).answer == REAMSTORK_BAD_STORE);

  /* copied: the same store, and one that can be edited */
  memcpy(moved, one, sizeof one);
  memset(one, 0, sizeof one);
  SURE(reamstork_check(moved, len) == REAMSTORK_DONE);
  SURE(reamstork_lookup(moved, len, 10, 20, 30, 40, 50, 0).rule == 7);
  SURE(reamstork_delete(moved, len, 7) == REAMSTORK_DONE);
  SURE(reamstork_cells(moved, len).cells == REAMSTORK_CELLS_MIN);
  return 0;
}

/* The header's examples of 7 and 14, and their order: 7, 14, 9, 13. */
static int packets(void) {
  static const uint8_t udp[28] = { 0x45,0,0,28, 0,0,0x40,0, 64,17,0,0, 192,168,1,9, 10,0,0,5, 0x9c,0x40,0x13,0x8c, 0,8,0,0 };
  uint8_t other[28];
  static reamstork_tallies full, before;

  SURE(reamstork_start(one, len, 100) == REAMSTORK_DONE);
  SURE(reamstork_lookup_packet(one, len, udp, 28).answer == REAMSTORK_DONE);
  SURE(reamstork_lookup_packet(one, len, udp, 27).answer == REAMSTORK_CUT);
  SURE(reamstork_lookup_packet(one, len, udp, 24).answer == REAMSTORK_CUT);
  SURE(reamstork_lookup_packet(one, len, udp, 20).answer == REAMSTORK_CUT);
  SURE(reamstork_lookup_packet(one, len, udp, 19).answer == REAMSTORK_UNREADABLE);
  memcpy(other, udp, sizeof udp);
  other[0] = 0x65;
  SURE(reamstork_lookup_packet(one, len, other, 24).answer == REAMSTORK_UNREADABLE);
  memcpy(other, udp, sizeof udp);
  other[3] = 22;
  SURE(reamstork_lookup_packet(one, len, other, 22).answer == REAMSTORK_UNREADABLE);
  SURE(reamstork_lookup_packet(one, len - 1, udp, 19).answer == REAMSTORK_UNREADABLE);
  SURE(reamstork_lookup_packet(one, len - 1, udp, 24).answer == REAMSTORK_CUT);
  SURE(reamstork_lookup_packet(one, len - 1, udp, 28).answer == REAMSTORK_BAD_STORE);

  /* a record of zeros has no unused slot, and none for the default */
  SURE(reamstork_lookup_packet_tally(one, len, udp, 28, &full).answer == REAMSTORK_NO_PLACE);
  reamstork_found f = reamstork_lookup_packet_tally(one, len, udp, 24, &full);
  SURE(f.answer == REAMSTORK_CUT && f.rule == 0 && f.action == 0 && f.reads == 0);
  SURE(reamstork_lookup_packet_tally(one, len - 1, udp, 24, &full).answer == REAMSTORK_CUT);
  SURE(memcmp(&full, &before, sizeof full) == 0);
  reamstork_tallies_clear(&full);
  reamstork_tallies_clear(&before);
  SURE(reamstork_lookup_packet_tally(one, len, udp, 24, &full).answer == REAMSTORK_CUT);
  SURE(memcmp(&full, &before, sizeof full) == 0);
  return 0;
}

static int same_life(reamstork_life f, uint32_t answer, uint32_t dead, const uint32_t *value) {
  return f.answer == answer && f.dead == dead && memcmp(f.value, value, sizeof f.value) == 0;
}

static uint32_t named(const uint32_t *v) {
  return reamstork_lookup(one, len, v[REAMSTORK_DESTINATION], v[REAMSTORK_SOURCE], v[REAMSTORK_PROTOCOL], v[REAMSTORK_DESTINATION_PORT], v[REAMSTORK_SOURCE_PORT], v[REAMSTORK_PORTLESS]).rule;
}

/* Rules that never win, as the header tells of them. */
static int lives(void) {
  const uint32_t zeros[REAMSTORK_FIELDS] = { 0 }, low[REAMSTORK_FIELDS] = { 10, 20, 30, 40, 50, 0 }, high[REAMSTORK_FIELDS] = { 15, 26, 37, 48, 59, 0 };
  const uint32_t tops[REAMSTORK_FIELDS] = { REAMSTORK_TOP_ADDRESS, REAMSTORK_TOP_ADDRESS, REAMSTORK_TOP_PROTOCOL, REAMSTORK_TOP_PORT, REAMSTORK_TOP_PORT, REAMSTORK_TOP_PORTLESS };
  const uint32_t behind[REAMSTORK_FIELDS] = { 10, 20, 30, 40, 60, 0 };
  uint32_t wide[REAMSTORK_FIELDS];

  SURE(sizeof(reamstork_life) == 32 && offsetof(reamstork_life, answer) == 0 && offsetof(reamstork_life, dead) == 4 && offsetof(reamstork_life, value) == 8);
  SURE(reamstork_start(one, len, 100) == REAMSTORK_DONE);
  SURE(same_life(reamstork_dead(one, len, REAMSTORK_DEFAULT), REAMSTORK_DONE, 0, zeros));

  /* 7 and 9 have equal ranges, 12 has one source port more */
  memcpy(wide, high, sizeof wide);
  wide[REAMSTORK_SOURCE_PORT]++;
  SURE(reamstork_insert(one, len, 9, 90, low, high) == REAMSTORK_DONE);
  SURE(same_life(reamstork_dead(one, len, 9), REAMSTORK_DONE, 0, low) && named(low) == 9);
  SURE(reamstork_insert(one, len, 7, 70, low, high) == REAMSTORK_DONE);
  SURE(reamstork_insert(one, len, 12, 12, low, wide) == REAMSTORK_DONE);
  SURE(same_life(reamstork_dead(one, len, 7), REAMSTORK_DONE, 0, low) && named(low) == 7);
  SURE(same_life(reamstork_dead(one, len, 9), REAMSTORK_DONE, 1, zeros));
  SURE(same_life(reamstork_dead(one, len, 12), REAMSTORK_DONE, 0, behind) && named(behind) == 12);
  SURE(same_life(reamstork_dead(one, len, REAMSTORK_DEFAULT), REAMSTORK_DONE, 0, zeros) && named(zeros) == REAMSTORK_DEFAULT);
  SURE(reamstork_insert(one, len, REAMSTORK_NUMBER_MAX, 1, zeros, tops) == REAMSTORK_DONE);
  SURE(same_life(reamstork_dead(one, len, REAMSTORK_NUMBER_MAX), REAMSTORK_DONE, 0, zeros));
  SURE(same_life(reamstork_dead(one, len, REAMSTORK_DEFAULT), REAMSTORK_DONE, 1, zeros));

  /* the dead one goes, and nothing else changes; where the live one goes instead, the other comes to life */
  memcpy(two, one, sizeof one);
  SURE(reamstork_delete(one, len, 9) == REAMSTORK_DONE);
  SURE(named(low) == 7 && named(behind) == 12 && named(zeros) == REAMSTORK_NUMBER_MAX);
  SURE(same_life(reamstork_dead(one, len, 12), REAMSTORK_DONE, 0, behind));
  memcpy(one, two, sizeof one);
  SURE(reamstork_delete(one, len, 7) == REAMSTORK_DONE);
  SURE(same_life(reamstork_dead(one, len, 9), REAMSTORK_DONE, 0, low) && named(low) == 9);

  /* refused as a read is, with zeros; no word is changed */
  memcpy(two, one, sizeof one);
  SURE(same_life(reamstork_dead(one, len, 7), REAMSTORK_NO_SUCH_NUMBER, 0, zeros));
  SURE(same_life(reamstork_dead(one, len, REAMSTORK_DEFAULT + 1), REAMSTORK_BAD_NUMBER, 0, zeros));
  SURE(same_life(reamstork_dead(one, len - 1, 9), REAMSTORK_BAD_STORE, 0, zeros));
  SURE(same_life(reamstork_dead(one, len - 1, REAMSTORK_DEFAULT + 1), REAMSTORK_BAD_STORE, 0, zeros));
  SURE(memcmp(one, two, sizeof one) == 0);
  return 0;
}

static int same_most(reamstork_most m, uint32_t answer, uint32_t reads, const uint32_t *value) {
  return m.answer == answer && m.reads == reads && memcmp(m.value, value, sizeof m.value) == 0;
}

static uint32_t taken(const uint32_t *v) {
  return reamstork_lookup(one, len, v[REAMSTORK_DESTINATION], v[REAMSTORK_SOURCE], v[REAMSTORK_PROTOCOL], v[REAMSTORK_DESTINATION_PORT], v[REAMSTORK_SOURCE_PORT], v[REAMSTORK_PORTLESS]).reads;
}

/* The worst packet of a table, as the header tells of it. */
static int worsts(void) {
  const uint32_t zeros[REAMSTORK_FIELDS] = { 0 }, low[REAMSTORK_FIELDS] = { 10, 20, 30, 40, 50, 0 }, high[REAMSTORK_FIELDS] = { 15, 26, 37, 48, 59, 0 };
  const uint32_t tops[REAMSTORK_FIELDS] = { REAMSTORK_TOP_ADDRESS, REAMSTORK_TOP_ADDRESS, REAMSTORK_TOP_PROTOCOL, REAMSTORK_TOP_PORT, REAMSTORK_TOP_PORT, REAMSTORK_TOP_PORTLESS };
  /* within the rule up to field 5, and in field 6 above its end 0: no header gives these values */
  const uint32_t inside[REAMSTORK_FIELDS] = { 10, 20, 30, 40, 50, 1 };
  uint32_t lesser[REAMSTORK_FIELDS];

  SURE(sizeof(reamstork_most) == 32 && offsetof(reamstork_most, answer) == 0 && offsetof(reamstork_most, reads) == 4 && offsetof(reamstork_most, value) == 8);
  SURE(reamstork_start(one, len, 100) == REAMSTORK_DONE);
  SURE(same_most(reamstork_worst(one, len), REAMSTORK_DONE, 6, zeros) && taken(zeros) == 6);

  /* a rule with full ranges has no end but the tops */
  SURE(reamstork_insert(one, len, 9, 90, zeros, tops) == REAMSTORK_DONE);
  SURE(same_most(reamstork_worst(one, len), REAMSTORK_DONE, 6, zeros));

  /* one that is narrow in every field: two reads in each, below 7 n + 6 for n = 2 */
  SURE(reamstork_insert(one, len, 7, 70, low, high) == REAMSTORK_DONE);
  SURE(same_most(reamstork_worst(one, len), REAMSTORK_DONE, 12, inside) && taken(inside) == 12 && 12 <= 7 * 2 + 6);
  for (int field = 0; field < REAMSTORK_FIELDS; field++) {
    memcpy(lesser, tops, sizeof lesser);
    memcpy(lesser, inside, (size_t)field * sizeof lesser[0]);
    lesser[field] = inside[field] - 1;
    SURE(taken(lesser) < 12);
  }
  SURE(taken(tops) <= 12 && taken(low) < 12 && taken(high) < 12);

  /* after an edit it is another one; numbers and actions play no part */
  SURE(reamstork_delete(one, len, 7) == REAMSTORK_DONE);
  SURE(same_most(reamstork_worst(one, len), REAMSTORK_DONE, 6, zeros));
  SURE(reamstork_insert(one, len, 0, 1, low, high) == REAMSTORK_DONE);
  SURE(same_most(reamstork_worst(one, len), REAMSTORK_DONE, 12, inside));

  /* up to one below the top: the worst packet stands at the top itself */
  const uint32_t most[REAMSTORK_FIELDS] = { REAMSTORK_TOP_ADDRESS - 1, REAMSTORK_TOP_ADDRESS, REAMSTORK_TOP_PROTOCOL, REAMSTORK_TOP_PORT, REAMSTORK_TOP_PORT, REAMSTORK_TOP_PORTLESS };
  const uint32_t top[REAMSTORK_FIELDS] = { REAMSTORK_TOP_ADDRESS };
  SURE(reamstork_start(one, len, 100) == REAMSTORK_DONE);
  SURE(reamstork_insert(one, len, 5, 1, zeros, most) == REAMSTORK_DONE);
  SURE(same_most(reamstork_worst(one, len), REAMSTORK_DONE, 7, top) && taken(top) == 7);

  /* refused with zeros; no word is changed */
  memcpy(two, one, sizeof one);
  SURE(same_most(reamstork_worst(one, len - 1), REAMSTORK_BAD_STORE, 0, zeros));
  one[CELLS] ^= 1;
  SURE(same_most(reamstork_worst(one, len), REAMSTORK_BAD_STORE, 0, zeros));
  one[CELLS] ^= 1;
  SURE(same_most(reamstork_worst(one, len), REAMSTORK_DONE, 7, top));
  SURE(memcmp(one, two, sizeof one) == 0);
  return 0;
}

static int same_found(reamstork_found f, uint32_t answer, uint32_t rule, uint32_t action, uint32_t reads) {
  return f.answer == answer && f.rule == rule && f.action == action && f.reads == reads;
}

/* The worst packet of an image: the ports of four rules for one destination and protocol have 9 ends, which take two levels of blocks. */
static int depths(void) {
  static uint32_t image[REAMSTORK_IMAGE_WORDS_MOST(100)];
  const uint32_t zeros[REAMSTORK_FIELDS] = { 0 }, first[REAMSTORK_FIELDS] = { 10, 0, 6, 0, 0, 0 };
  uint32_t low[REAMSTORK_FIELDS] = { 10, 0, 6, 0, 0, 0 }, high[REAMSTORK_FIELDS] = { 10, REAMSTORK_TOP_ADDRESS, 6, 0, REAMSTORK_TOP_PORT, 0 };
  size_t words;

  SURE(reamstork_start(one, len, 100) == REAMSTORK_DONE);
  SURE(reamstork_freeze(one, len, image, sizeof image / 4) == REAMSTORK_DONE);
  SURE(same_most(reamstork_image_worst(image, reamstork_image_words(one, len).words), REAMSTORK_DONE, 6, zeros));
  for (uint32_t n = 1; n <= 4; n++) {
    low[REAMSTORK_DESTINATION_PORT] = high[REAMSTORK_DESTINATION_PORT] = 100 * n;
    SURE(reamstork_insert(one, len, n, 1, low, high) == REAMSTORK_DONE);
  }
  words = reamstork_image_words(one, len).words;
  SURE(reamstork_freeze(one, len, image, sizeof image / 4) == REAMSTORK_DONE);
  SURE(same_most(reamstork_image_worst(image, words), REAMSTORK_DONE, 7, first));
  SURE(reamstork_image_lookup(image, words, 10, 0, 6, 0, 0, 0).reads == 7 && reamstork_image_lookup(image, words, 9, 0, 6, 0, 0, 0).reads == 6);

  /* refused with zeros: a word more or less, a block damaged, a store */
  SURE(same_most(reamstork_image_worst(image, words - 1), REAMSTORK_BAD_STORE, 0, zeros));
  SURE(same_most(reamstork_image_worst(image, words + 1), REAMSTORK_BAD_STORE, 0, zeros));
  image[CELLS] ^= 1;
  SURE(same_most(reamstork_image_worst(image, words), REAMSTORK_BAD_STORE, 0, zeros));
  image[CELLS] ^= 1;
  SURE(same_most(reamstork_image_worst(image, words), REAMSTORK_DONE, 7, first));
  SURE(same_most(reamstork_image_worst(one, len), REAMSTORK_BAD_STORE, 0, zeros));
  return 0;
}

/* A table frozen, as the header tells of it. */
static int images(void) {
  static _Alignas(64) uint32_t image[REAMSTORK_IMAGE_WORDS_MOST(100)], copy[REAMSTORK_IMAGE_WORDS_MOST(100)];
  static const uint8_t udp[28] = { 0x45,0,0,28, 0,0,0x40,0, 64,17,0,0, 0,0,0,20, 0,0,0,10, 0,50,0,40, 0,8,0,0 };
  const size_t room = REAMSTORK_IMAGE_WORDS_MOST(100);
  const uint32_t low[REAMSTORK_FIELDS] = { 10, 20, 17, 40, 50, 0 }, high[REAMSTORK_FIELDS] = { 15, 26, 37, 48, 59, 0 };
  static reamstork_tallies tallies, full;

  SURE(sizeof(reamstork_size) == 8 && offsetof(reamstork_size, answer) == 0 && offsetof(reamstork_size, words) == 4);
  SURE(room == 9792 && REAMSTORK_IMAGE_WORDS_MOST(REAMSTORK_CELLS_MAX) == 1056768);
  SURE(reamstork_start_with(one, len, 100, 8) == REAMSTORK_DONE);
  SURE(reamstork_image_words(one, len).answer == REAMSTORK_DONE && reamstork_image_words(one, len).words == 8192 + 16 * 6);
  SURE(reamstork_insert(one, len, 7, 70, low, high) == REAMSTORK_DONE);
  memcpy(two, one, sizeof one);

  /* 9, then 8; what is refused writes nothing, and neither does the store change */
  reamstork_size s = reamstork_image_words(one, len);
  SURE(s.answer == REAMSTORK_DONE && s.words > 8192 && s.words % 16 == 0 && s.words <= REAMSTORK_IMAGE_WORDS_MOST(reamstork_cells(one, len).cells));
  memset(image, 0x5a, sizeof image);
  memcpy(copy, image, sizeof image);
  SURE(reamstork_freeze(one, len - 1, image, 0) == REAMSTORK_BAD_STORE && reamstork_freeze(one, len - 1, image, room) == REAMSTORK_BAD_STORE);
  SURE(reamstork_freeze(one, len, image, 0) == REAMSTORK_BAD_SIZE && reamstork_freeze(one, len, image, s.words - 1) == REAMSTORK_BAD_SIZE);
  SURE(reamstork_image_words(one, len - 1).answer == REAMSTORK_BAD_STORE && reamstork_image_words(one, len - 1).words == 0);
  SURE(memcmp(image, copy, sizeof image) == 0 && memcmp(one, two, sizeof one) == 0);

  /* done: exactly so many words, and those behind them stay */
  SURE(reamstork_freeze(one, len, image, room) == REAMSTORK_DONE);
  SURE(memcmp(image + s.words, copy + s.words, sizeof image - 4 * s.words) == 0 && memcmp(one, two, sizeof one) == 0);
  SURE(reamstork_image_check(image, s.words) == REAMSTORK_DONE);
  SURE(reamstork_image_check(image, s.words - 1) == REAMSTORK_BAD_STORE && reamstork_image_check(image, s.words + 1) == REAMSTORK_BAD_STORE);
  SURE(reamstork_image_check(one, len) == REAMSTORK_BAD_STORE && reamstork_check(image, room) == REAMSTORK_BAD_STORE);

  /* the store's rule and action, and a block in each field; 11 before 9 */
  SURE(same_found(reamstork_image_lookup(image, s.words, 10, 20, 17, 40, 50, 0), REAMSTORK_DONE, 7, 70, 6));
  SURE(same_found(reamstork_image_lookup(image, room, 15, 26, 37, 48, 59, 0), REAMSTORK_DONE, 7, 70, 6));
  SURE(same_found(reamstork_image_lookup(image, s.words, 15, 26, 37, 48, 59, 1), REAMSTORK_DONE, REAMSTORK_DEFAULT, 8, 6));
  SURE(same_found(reamstork_image_lookup(image, s.words, 10, 20, 17, 49, 50, 0), REAMSTORK_DONE, REAMSTORK_DEFAULT, 8, 6));
  SURE(same_found(reamstork_image_lookup(image, 0, 10, 20, 17, 40, 50, 2), REAMSTORK_BAD_VALUE, 0, 0, 0));
  SURE(same_found(reamstork_image_lookup(image, 8191, 10, 20, 17, 40, 50, 0), REAMSTORK_BAD_STORE, 0, 0, 0));

  /* by packet, with its refusals first; and counted */
  SURE(same_found(reamstork_image_lookup_packet(image, s.words, udp, 28), REAMSTORK_DONE, 7, 70, 6));
  SURE(same_found(reamstork_image_lookup_packet(image, 0, udp, 19), REAMSTORK_UNREADABLE, 0, 0, 0));
  SURE(same_found(reamstork_image_lookup_packet(image, 0, udp, 24), REAMSTORK_CUT, 0, 0, 0));
  SURE(same_found(reamstork_image_lookup_packet(image, 0, udp, 28), REAMSTORK_BAD_STORE, 0, 0, 0));
  SURE(same_found(reamstork_image_lookup_packet_tally(image, s.words, udp, 28, &full), REAMSTORK_NO_PLACE, 0, 0, 0));
  SURE(same_found(reamstork_image_lookup_packet_tally(image, 0, udp, 28, &full), REAMSTORK_BAD_STORE, 0, 0, 0));
  reamstork_tallies_clear(&tallies);
  SURE(same_found(reamstork_image_lookup_packet_tally(image, s.words, udp, 28, &tallies), REAMSTORK_DONE, 7, 70, 6));
  SURE(tallies.key[0] == 7 && tallies.packets[0] == 1 && tallies.bytes[0] == 28 && tallies.key[1] == REAMSTORK_UNUSED);

  /* copied: the same image; the check cannot see an action, and sees an end */
  memcpy(copy, image, 4 * s.words);
  memset(image, 0, sizeof image);
  SURE(reamstork_image_check(copy, s.words) == REAMSTORK_DONE);
  SURE(same_found(reamstork_image_lookup(copy, s.words, 10, 20, 17, 40, 50, 0), REAMSTORK_DONE, 7, 70, 6));
  copy[ROWS + ROW + 1] ^= 1;
  SURE(reamstork_image_check(copy, s.words) == REAMSTORK_DONE);
  copy[CELLS] ^= 1;
  SURE(reamstork_image_check(copy, s.words) == REAMSTORK_BAD_STORE);

  /* after an edit there is another image, of the table as it is */
  SURE(reamstork_delete(one, len, 7) == REAMSTORK_DONE && reamstork_freeze(one, len, image, room) == REAMSTORK_DONE);
  SURE(same_found(reamstork_image_lookup(image, room, 10, 20, 17, 40, 50, 0), REAMSTORK_DONE, REAMSTORK_DEFAULT, 8, 6));
  return 0;
}

/* A small store of c cells with the default alone, as an earlier version's start left it. */
static void small(uint32_t *words, uint32_t c, uint32_t action) {
  const uint32_t tops[REAMSTORK_FIELDS] = { REAMSTORK_TOP_ADDRESS, REAMSTORK_TOP_ADDRESS, REAMSTORK_TOP_PROTOCOL, REAMSTORK_TOP_PORT, REAMSTORK_TOP_PORT, REAMSTORK_TOP_PORTLESS };
  memset(words, 0, 4 * REAMSTORK_SMALL_WORDS(c));
  words[0] = c, words[2] = REAMSTORK_SMALL;
  words[47] = REAMSTORK_DEFAULT, words[48] = action;
  words[1022] = REAMSTORK_FIELDS;
  for (uint32_t k = 0; k < c; k++) {
    uint32_t *cell = words + REAMSTORK_SMALL_WORDS(k);
    cell[1] = k < REAMSTORK_FIELDS ? c : k + 1;
    if (k < REAMSTORK_FIELDS) words[50 + 2 * k] = cell[0] = tops[k], cell[2] = k + 1 < REAMSTORK_FIELDS ? k + 1 : 0;
  }
}

/* Small stores are taken by every call, and their tables can be carried, as the header tells of it. */
static int kinds(void) {
  static uint32_t kept[REAMSTORK_SMALL_WORDS(100)], before[REAMSTORK_SMALL_WORDS(100)], image[REAMSTORK_IMAGE_WORDS_MOST(100)], other[REAMSTORK_IMAGE_WORDS_MOST(100)];
  const size_t kept_len = REAMSTORK_SMALL_WORDS(100);
  const uint32_t low[REAMSTORK_FIELDS] = { 10, 20, 30, 40, 50, 0 }, high[REAMSTORK_FIELDS] = { 15, 26, 37, 48, 59, 0 }, zeros[REAMSTORK_FIELDS] = { 0 };
  const uint32_t tops[REAMSTORK_FIELDS] = { REAMSTORK_TOP_ADDRESS, REAMSTORK_TOP_ADDRESS, REAMSTORK_TOP_PROTOCOL, REAMSTORK_TOP_PORT, REAMSTORK_TOP_PORT, REAMSTORK_TOP_PORTLESS };
  reamstork_size s, t;
  uint32_t cells, n;

  SURE(REAMSTORK_RULES_MAX == 512 && REAMSTORK_SMALL_RULES_MAX == 64 && REAMSTORK_PLACES == REAMSTORK_RULES_MAX + 1);
  SURE(REAMSTORK_WORDS(1024) == 16384 && REAMSTORK_SMALL_WORDS(1920) == 16384 && REAMSTORK_WORDS(REAMSTORK_CELLS_MAX) == 532480);
  SURE(sizeof(reamstork_tallies) == 12 * REAMSTORK_PLACES && offsetof(reamstork_tallies, packets) == 4 * REAMSTORK_PLACES && offsetof(reamstork_tallies, bytes) == 8 * REAMSTORK_PLACES);

  /* a start makes a large store, and takes no words that are enough for a small one alone */
  SURE(reamstork_start(one, len, 100) == REAMSTORK_DONE && one[2] == REAMSTORK_LARGE);
  SURE(reamstork_start(kept, kept_len, 6) == REAMSTORK_BAD_SIZE);

  /* 64 rules of a small store; the 65th gets 5 */
  small(kept, 100, 8);
  SURE(reamstork_check(kept, kept_len) == REAMSTORK_DONE && reamstork_cells(kept, kept_len).cells == REAMSTORK_CELLS_MIN);
  SURE(reamstork_insert(kept, kept_len, 7, 70, low, high) == REAMSTORK_DONE);
  for (n = 1; n < REAMSTORK_SMALL_RULES_MAX; n++)
    SURE(reamstork_insert(kept, kept_len, 100 + n, 1, zeros, tops) == REAMSTORK_DONE);
  SURE(reamstork_insert(kept, kept_len, 99, 1, zeros, tops) == REAMSTORK_TABLE_FULL);
  SURE(reamstork_rule_at(kept, kept_len, 1).number == 7 && reamstork_rule_at(kept, kept_len, 65).answer == REAMSTORK_NO_SUCH_NUMBER);
  cells = reamstork_cells(kept, kept_len).cells;

  /* 9, then 8, then 6; what is refused writes nothing */
  memcpy(before, kept, sizeof kept);
  memset(one, 0x5a, sizeof one);
  memcpy(two, one, sizeof one);
  SURE(reamstork_carry(kept, kept_len - 1, one, len, 100) == REAMSTORK_BAD_STORE && reamstork_carry(kept, kept_len - 1, one, 0, 5) == REAMSTORK_BAD_STORE);
  kept[2] = 1;
  SURE(reamstork_check(kept, kept_len) == REAMSTORK_BAD_STORE && reamstork_carry(kept, kept_len, one, len, 100) == REAMSTORK_BAD_STORE);
  kept[2] = REAMSTORK_LARGE;
  SURE(reamstork_check(kept, kept_len) == REAMSTORK_BAD_STORE && reamstork_lookup(kept, kept_len, 10, 20, 30, 40, 50, 0).answer == REAMSTORK_BAD_STORE);
  kept[2] = REAMSTORK_SMALL;
  SURE(reamstork_carry(kept, kept_len, one, len, 5) == REAMSTORK_BAD_SIZE && reamstork_carry(kept, kept_len, one, len, 101) == REAMSTORK_BAD_SIZE);
  SURE(reamstork_carry(kept, kept_len, one, len - 1, 100) == REAMSTORK_BAD_SIZE && reamstork_carry(kept, kept_len, one, REAMSTORK_SMALL_WORDS(6), 6) == REAMSTORK_BAD_SIZE);
  SURE(reamstork_carry(kept, kept_len, one, len, cells - 1) == REAMSTORK_NO_ROOM && reamstork_carry(kept, kept_len, one, len, 6) == REAMSTORK_NO_ROOM);
  SURE(memcmp(one, two, sizeof one) == 0 && memcmp(kept, before, sizeof kept) == 0);

  /* done: as started and filled, and the words behind stay */
  SURE(reamstork_carry(kept, kept_len, one, len, cells) == REAMSTORK_DONE && one[2] == REAMSTORK_LARGE);
  SURE(memcmp(one + REAMSTORK_WORDS(cells), two + REAMSTORK_WORDS(cells), sizeof one - 4 * REAMSTORK_WORDS(cells)) == 0);
  SURE(reamstork_start_with(moved, len, cells, 8) == REAMSTORK_DONE);
  for (n = REAMSTORK_SMALL_RULES_MAX - 1; n > 0; n--)
    SURE(reamstork_insert(moved, len, 100 + n, 1, zeros, tops) == REAMSTORK_DONE);
  SURE(reamstork_insert(moved, len, 7, 70, low, high) == REAMSTORK_DONE);
  SURE(memcmp(one, moved, 4 * REAMSTORK_WORDS(cells)) == 0 && memcmp(kept, before, sizeof kept) == 0);
  SURE(reamstork_check(one, len) == REAMSTORK_DONE && reamstork_cells(one, len).cells == cells);
  reamstork_found f = reamstork_lookup(kept, kept_len, 15, 26, 37, 48, 59, 0), g = reamstork_lookup(one, len, 15, 26, 37, 48, 59, 0);
  SURE(f.answer == REAMSTORK_DONE && f.rule == 7 && same_found(g, f.answer, f.rule, f.action, f.reads));
  f = reamstork_lookup(kept, kept_len, 16, 26, 37, 48, 59, 1), g = reamstork_lookup(one, len, 16, 26, 37, 48, 59, 1);
  SURE(f.answer == REAMSTORK_DONE && f.rule == 101 && same_found(g, f.answer, f.rule, f.action, f.reads));

  /* the same image but for the front */
  s = reamstork_image_words(kept, kept_len), t = reamstork_image_words(one, len);
  SURE(s.answer == REAMSTORK_DONE && t.answer == REAMSTORK_DONE && t.words - s.words == 8192 - 1024);
  SURE(reamstork_freeze(kept, kept_len, image, s.words) == REAMSTORK_DONE && reamstork_freeze(one, len, other, t.words) == REAMSTORK_DONE);
  SURE(image[2] == REAMSTORK_SMALL && other[2] == REAMSTORK_LARGE && memcmp(image + 1024, other + 8192, 4 * (s.words - 1024)) == 0);
  SURE(reamstork_image_check(image, s.words) == REAMSTORK_DONE && reamstork_image_check(other, t.words) == REAMSTORK_DONE);
  SURE(reamstork_image_lookup(image, s.words, 15, 26, 37, 48, 59, 0).rule == 7 && reamstork_image_lookup(other, t.words, 15, 26, 37, 48, 59, 0).rule == 7);

  /* in the large store rules go on to 512, and it can be carried too, into more cells and back into fewer */
  for (n = REAMSTORK_SMALL_RULES_MAX; n < REAMSTORK_RULES_MAX; n++)
    SURE(reamstork_insert(one, len, 100 + n, 1, zeros, tops) == REAMSTORK_DONE);
  SURE(reamstork_insert(one, len, 99, 1, zeros, tops) == REAMSTORK_TABLE_FULL && reamstork_rule_at(one, len, 512).number == 611);
  SURE(reamstork_carry(one, len, two, len, 100) == REAMSTORK_DONE && two[0] == 100 && reamstork_carry(two, len, moved, len, cells) == REAMSTORK_DONE);
  SURE(memcmp(one, moved, 4 * REAMSTORK_WORDS(cells)) == 0);
  SURE(reamstork_insert(two, len, 99, 1, zeros, tops) == REAMSTORK_TABLE_FULL && reamstork_delete(two, len, 7) == REAMSTORK_DONE);
  SURE(reamstork_cells(two, len).cells == REAMSTORK_CELLS_MIN && reamstork_cells(kept, kept_len).cells == cells);
  return 0;
}

static int same_listed(reamstork_listed l, uint32_t answer, uint32_t place) {
  return l.answer == answer && l.place == place;
}

/* A group of rules swapped as one, as the header tells of it, in a large store and in a small one. */
static int lists(uint32_t *words, size_t words_len) {
  static uint32_t before[REAMSTORK_WORDS(100)], singly[REAMSTORK_WORDS(100)];
  static reamstork_edit many[REAMSTORK_LIST_MAX + 1], kept[REAMSTORK_LIST_MAX + 1];
  const reamstork_edit ten = { .number = 10, .action = 2, .low = { 10, 20, 17, 40, 50, 0 }, .high = { 15, 26, 17, 48, 59, 0 } };
  const reamstork_edit host = { .number = 11, .action = 3, .low = { [REAMSTORK_DESTINATION] = 99 }, .high = {
    [REAMSTORK_DESTINATION] = 99, [REAMSTORK_SOURCE] = REAMSTORK_TOP_ADDRESS, [REAMSTORK_PROTOCOL] = REAMSTORK_TOP_PROTOCOL,
    [REAMSTORK_DESTINATION_PORT] = REAMSTORK_TOP_PORT, [REAMSTORK_SOURCE_PORT] = REAMSTORK_TOP_PORT, [REAMSTORK_PORTLESS] = REAMSTORK_TOP_PORTLESS } };
  reamstork_edit other = host, group[3] = { { .remove = 1, .number = 10 }, { .remove = 1, .number = 11 } };
  const size_t size = words_len * sizeof *words;

  SURE(sizeof(reamstork_edit) == 60 && offsetof(reamstork_edit, remove) == 0 && offsetof(reamstork_edit, number) == 4 && offsetof(reamstork_edit, action) == 8);
  SURE(offsetof(reamstork_edit, low) == 12 && offsetof(reamstork_edit, high) == 36);
  SURE(sizeof(reamstork_listed) == 8 && offsetof(reamstork_listed, answer) == 0 && offsetof(reamstork_listed, place) == 4);
  SURE(REAMSTORK_LIST_MAX == 32 && REAMSTORK_BAD_LIST == 15);

  /* two rules by one list: the words that two inserts leave */
  memcpy(singly, words, size);
  SURE(reamstork_insert(singly, words_len, 11, 3, host.low, host.high) == REAMSTORK_DONE && reamstork_insert(singly, words_len, 10, 2, ten.low, ten.high) == REAMSTORK_DONE);
  many[0] = host, many[1] = ten;
  SURE(same_listed(reamstork_edit_list(words, words_len, many, 2), REAMSTORK_DONE, 0) && memcmp(words, singly, size) == 0);

  /* the header's group: two rules go, another 10 comes */
  memcpy(before, words, size);
  other.number = 10;
  group[2] = other;
  SURE(same_listed(reamstork_edit_list(words, words_len, group, 3), REAMSTORK_DONE, 0));
  SURE(reamstork_check(words, words_len) == REAMSTORK_DONE && reamstork_cells(words, words_len).cells == 18);
  SURE(reamstork_lookup(words, words_len, 99, 0, 0, 0, 0, 0).rule == 10 && reamstork_lookup(words, words_len, 10, 20, 17, 40, 50, 0).rule == REAMSTORK_DEFAULT);
  SURE(same_listed(reamstork_edit_list(words, words_len, (reamstork_edit[]){ group[0], host, ten }, 3), REAMSTORK_DONE, 0) && memcmp(words, before, size) == 0);

  /* the place of the first that is refused, and its number; no word is written */
  SURE(same_listed(reamstork_edit_list(words, words_len, (reamstork_edit[]){ group[0], ten, group[1], group[1] }, 4), REAMSTORK_NO_SUCH_NUMBER, 4));
  SURE(same_listed(reamstork_edit_list(words, words_len, (reamstork_edit[]){ group[0], ten, host }, 3), REAMSTORK_NUMBER_TAKEN, 3));
  SURE(same_listed(reamstork_edit_list(words, words_len, (reamstork_edit[]){ group[0], { .remove = UINT32_MAX, .number = REAMSTORK_DEFAULT } }, 2), REAMSTORK_BAD_NUMBER, 2));
  SURE(same_listed(reamstork_edit_list(words, words_len, (reamstork_edit[]){ { .number = REAMSTORK_DEFAULT } }, 1), REAMSTORK_BAD_NUMBER, 1));
  other = ten, other.number = 12, other.high[REAMSTORK_PORTLESS] = REAMSTORK_TOP_PORTLESS;
  SURE(same_listed(reamstork_edit_list(words, words_len, (reamstork_edit[]){ group[0], group[1], other }, 3), REAMSTORK_BAD_RANGE, 3));

  /* what a list deletes makes room for what it inserts, and not the other way round */
  other = ten, other.number = 12, other.low[REAMSTORK_SOURCE] = 21, other.high[REAMSTORK_SOURCE] = 30;
  other.low[REAMSTORK_DESTINATION] = 12, other.high[REAMSTORK_DESTINATION] = 19;
  SURE(same_listed(reamstork_edit_list(words, words_len, (reamstork_edit[]){ group[1], other, group[0] }, 3), REAMSTORK_NO_ROOM, 2));
  SURE(memcmp(words, before, size) == 0);
  SURE(same_listed(reamstork_edit_list(words, words_len, (reamstork_edit[]){ group[1], group[0], other }, 3), REAMSTORK_DONE, 0));
  SURE(reamstork_delete(words, words_len, 12) == REAMSTORK_DONE && same_listed(reamstork_edit_list(words, words_len, many, 2), REAMSTORK_DONE, 0));
  SURE(memcmp(words, before, size) == 0);

  /* 15 for none and for 33, before 9; 32 are taken, each rule by the list's own delete gone again; no edit is written */
  for (uint32_t i = 0; i <= REAMSTORK_LIST_MAX; i++)
    many[i] = host, many[i].number = 20, many[i].remove = i % 2;
  memcpy(kept, many, sizeof many);
  SURE(same_listed(reamstork_edit_list(words, words_len, many, REAMSTORK_LIST_MAX + 1), REAMSTORK_BAD_LIST, 0));
  SURE(same_listed(reamstork_edit_list(words, words_len, many, 0), REAMSTORK_BAD_LIST, 0));
  SURE(same_listed(reamstork_edit_list(words, words_len - 1, many, 0), REAMSTORK_BAD_LIST, 0));
  SURE(same_listed(reamstork_edit_list(words, words_len - 1, many, 2), REAMSTORK_BAD_STORE, 1));
  SURE(same_listed(reamstork_edit_list(words, words_len - 1, group + 2, 1), REAMSTORK_BAD_STORE, 1));
  SURE(same_listed(reamstork_edit_list(words, words_len, many, REAMSTORK_LIST_MAX), REAMSTORK_DONE, 0));
  SURE(memcmp(words, before, size) == 0 && memcmp(many, kept, sizeof many) == 0);
  words[2] ^= 1;
  SURE(same_listed(reamstork_edit_list(words, words_len, many, 2), REAMSTORK_BAD_STORE, 1) && same_listed(reamstork_edit_list(words, words_len, many, 33), REAMSTORK_BAD_LIST, 0));
  words[2] ^= 1;
  SURE(memcmp(words, before, size) == 0);

  /* to the limit of the kind, and 5 behind it */
  uint32_t most = words[2] == REAMSTORK_SMALL ? REAMSTORK_SMALL_RULES_MAX : REAMSTORK_RULES_MAX, n = 2;
  while (n < most) {
    size_t count = 0;
    for (; count < REAMSTORK_LIST_MAX && n < most; n++, count++)
      many[count] = host, many[count].number = 1000 + n;
    SURE(same_listed(reamstork_edit_list(words, words_len, many, count), REAMSTORK_DONE, 0));
  }
  many[0] = group[0], many[1] = ten, many[2] = host, many[2].number = 7;
  SURE(same_listed(reamstork_edit_list(words, words_len, many, 3), REAMSTORK_TABLE_FULL, 3));
  many[1] = many[2];
  SURE(same_listed(reamstork_edit_list(words, words_len, many, 2), REAMSTORK_DONE, 0));
  SURE(reamstork_rule_at(words, words_len, 1).number == 7 && reamstork_rule_at(words, words_len, most).number == 1000 + most - 1 && reamstork_check(words, words_len) == REAMSTORK_DONE);
  return 0;
}

static int lists_of_both(void) {
  static uint32_t kept[REAMSTORK_SMALL_WORDS(100)];

  SURE(reamstork_start_with(one, len, 100, 8) == REAMSTORK_DONE);
  small(kept, 100, 8);
  return lists(one, len) || lists(kept, REAMSTORK_SMALL_WORDS(100));
}

/* Captures are written as the header tells of it, and its loop keeps the packets of one action. */
static int captures(void) {
  static uint8_t file[REAMSTORK_CAPTURE_HEADER + 4 * (REAMSTORK_RECORD_HEADER + 28)], before[sizeof file], longest[REAMSTORK_RECORD_MOST + 1], large[REAMSTORK_RECORD_HEADER + REAMSTORK_RECORD_MOST];
  const uint8_t head[REAMSTORK_CAPTURE_HEADER] = { 0xd4, 0xc3, 0xb2, 0xa1, 2, 0, 4, 0, 0, 0, 0, 0, 0, 0, 0, 0, 0x00, 0x40, 0, 0, 101, 0, 0, 0 };
  const uint8_t record[REAMSTORK_RECORD_HEADER + 3] = { 4, 3, 2, 1, 8, 7, 6, 5, 3, 0, 0, 0, 0xff, 0xff, 0xff, 0xff, 'a', 'b', 'c' };
  const uint8_t udp[28] = { 0x45, 0, 0, 28, 0, 0, 0, 0, 64, 17, 0, 0, 0, 0, 0, 20, 0, 0, 0, 10, 0, 50, 0, 40, 0, 8, 0, 0 };
  const uint32_t low[REAMSTORK_FIELDS] = { 10, 20, 17, 40, 50, 0 }, high[REAMSTORK_FIELDS] = { 15, 26, 37, 48, 59, 0 };
  reamstork_written w;
  size_t used, n;

  SURE(sizeof(reamstork_written) == 8 && offsetof(reamstork_written, answer) == 0 && offsetof(reamstork_written, bytes) == 4);
  SURE(REAMSTORK_CAPTURE_HEADER == 24 && REAMSTORK_RECORD_HEADER == 16 && REAMSTORK_RECORD_MOST == 16384 && REAMSTORK_TOO_LONG == 12);

  /* refused: 8, and for a record 12 before it; no byte is written */
  memset(file, 0x5a, sizeof file);
  memset(before, 0x5a, sizeof before);
  w = reamstork_capture_begin(file, REAMSTORK_CAPTURE_HEADER - 1);
  SURE(w.answer == REAMSTORK_BAD_SIZE && w.bytes == 0);
  w = reamstork_capture_begin(file, 0);
  SURE(w.answer == REAMSTORK_BAD_SIZE && w.bytes == 0);
  w = reamstork_capture_add(file, REAMSTORK_RECORD_HEADER + 2, 1, 2, 3, record, 3);
  SURE(w.answer == REAMSTORK_BAD_SIZE && w.bytes == 0);
  w = reamstork_capture_add(file, 0, 1, 2, 3, record, 0);
  SURE(w.answer == REAMSTORK_BAD_SIZE && w.bytes == 0);
  w = reamstork_capture_add(file, 0, 1, 2, 3, longest, sizeof longest);
  SURE(w.answer == REAMSTORK_TOO_LONG && w.bytes == 0);
  w = reamstork_capture_add(file, sizeof file, 1, 2, 3, longest, sizeof longest);
  SURE(w.answer == REAMSTORK_TOO_LONG && w.bytes == 0);
  w = reamstork_capture_add(file, sizeof file, 1, 2, 3, longest, REAMSTORK_RECORD_MOST);
  SURE(w.answer == REAMSTORK_BAD_SIZE && w.bytes == 0);
  SURE(memcmp(file, before, sizeof file) == 0);

  /* done: these bytes, and those behind stay */
  w = reamstork_capture_begin(file, REAMSTORK_CAPTURE_HEADER);
  SURE(w.answer == REAMSTORK_DONE && w.bytes == REAMSTORK_CAPTURE_HEADER && memcmp(file, head, sizeof head) == 0);
  SURE(memcmp(file + sizeof head, before, sizeof file - sizeof head) == 0);
  w = reamstork_capture_add(file + 1, sizeof record, 0x01020304, 0x05060708, UINT32_MAX, record + REAMSTORK_RECORD_HEADER, 3);
  SURE(w.answer == REAMSTORK_DONE && w.bytes == sizeof record && memcmp(file + 1, record, sizeof record) == 0 && file[0] == head[0] && memcmp(file + 1 + sizeof record, head + 1 + sizeof record, sizeof head - 1 - sizeof record) == 0);
  for (n = 0; n < sizeof longest; n++) longest[n] = (uint8_t)(n * 7 % 251);
  w = reamstork_capture_add(large, sizeof large, 0, 0, 0, longest, REAMSTORK_RECORD_MOST);
  SURE(w.answer == REAMSTORK_DONE && w.bytes == sizeof large && memcmp(large + REAMSTORK_RECORD_HEADER, longest, REAMSTORK_RECORD_MOST) == 0);
  SURE(large[8] == 0 && large[9] == 0x40 && large[10] == 0 && large[11] == 0);

  /* the header's loop: of frames with two actions and some that are refused, those of one, until the room is full */
  SURE(reamstork_start_with(one, len, 100, 8) == REAMSTORK_DONE && reamstork_insert(one, len, 7, 70, low, high) == REAMSTORK_DONE);
  memset(file, 0x5a, sizeof file);
  w = reamstork_capture_begin(file, sizeof file - 1);
  used = w.bytes;
  for (n = 0; w.answer == REAMSTORK_DONE && n < 30; n++) {
    uint8_t frame[28];
    memcpy(frame, udp, sizeof frame);
    frame[19] = n % 3 == 1 ? 99 : 10;
    reamstork_found f = reamstork_lookup_packet(one, len, frame, n % 3 == 2 ? 19 : 28);
    if (f.answer != REAMSTORK_DONE || f.action != 70)
      continue;
    w = reamstork_capture_add(file + used, sizeof file - 1 - used, (uint32_t)n, 0, 28, frame, 28);
    used += w.bytes;
  }
  SURE(w.answer == REAMSTORK_BAD_SIZE && n == 10 && used == REAMSTORK_CAPTURE_HEADER + 3 * (REAMSTORK_RECORD_HEADER + 28));
  SURE(memcmp(file, head, sizeof head) == 0 && memcmp(file + used, before, sizeof file - used) == 0);
  for (n = 0; n < 3; n++) {
    const uint8_t *at = file + REAMSTORK_CAPTURE_HEADER + n * (REAMSTORK_RECORD_HEADER + 28);
    SURE(at[0] == 3 * n && at[8] == 28 && at[12] == 28 && memcmp(at + REAMSTORK_RECORD_HEADER, udp, 28) == 0);
  }
  return 0;
}

int main(int argc, char **argv) {
  const char *what = argc > 1 ? argv[1] : "";

  if (strcmp(what, "answers") == 0) {
    for (uint32_t n = 0; n <= 16; n++) printf("%u %s\n", (unsigned)n, reamstork_answer(n));
    printf("4294967295 %s\n", reamstork_answer(UINT32_MAX));
    return 0;
  }
  if (strcmp(what, "version") == 0) {
    printf("%s\n%d.%d\n", REAMSTORK_VERSION, REAMSTORK_VERSION_MAJOR, REAMSTORK_VERSION_MINOR);
    return 0;
  }
  return rules() || packets() || lives() || worsts() || depths() || images() || kinds() || lists_of_both() || captures();
}
