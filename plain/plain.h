/*
 * plain.h - the calls of reamstork.h under names of their own
 *
 * Plain C of the same design, not proved: what the proved library is
 * measured against and compared with.  Each call answers and leaves, bit
 * for bit, what the one of the same name in reamstork.h does.
 *
 * With PLAIN_AS_REAMSTORK defined when plain.c is compiled it has the
 * library's own names, and can be linked in the library's place.
 */
#ifndef PLAIN_H
#define PLAIN_H

#include "reamstork.h"

uint32_t plain_start(uint32_t *words, size_t len, uint32_t c);
uint32_t plain_start_with(uint32_t *words, size_t len, uint32_t c, uint32_t action);
uint32_t plain_carry(const uint32_t *from, size_t from_len, uint32_t *words, size_t len, uint32_t c);
uint32_t plain_insert(uint32_t *words, size_t len, uint32_t number, uint32_t action, const uint32_t low[6], const uint32_t high[6]);
uint32_t plain_delete(uint32_t *words, size_t len, uint32_t number);
reamstork_listed plain_edit_list(uint32_t *words, size_t len, const reamstork_edit *edits, size_t count);
uint32_t plain_check(const uint32_t *words, size_t len);
reamstork_rule plain_read(const uint32_t *words, size_t len, uint32_t number);
reamstork_rule plain_rule_at(const uint32_t *words, size_t len, uint32_t place);
reamstork_count plain_cells(const uint32_t *words, size_t len);
reamstork_life plain_dead(const uint32_t *words, size_t len, uint32_t number);
reamstork_most plain_worst(const uint32_t *words, size_t len);
reamstork_found plain_lookup(const uint32_t *words, size_t len, uint32_t destination, uint32_t source, uint32_t protocol, uint32_t destination_port, uint32_t source_port, uint32_t portless);
reamstork_found plain_lookup_packet(const uint32_t *words, size_t len, const uint8_t *packet, size_t packet_len);
void plain_tallies_clear(reamstork_tallies *tallies);
reamstork_found plain_lookup_packet_tally(const uint32_t *words, size_t len, const uint8_t *packet, size_t packet_len, reamstork_tallies *tallies);
uint32_t plain_tally_difference(uint32_t earlier, uint32_t later);
reamstork_winner plain_scan(const reamstork_record *records, size_t count, uint32_t default_action, uint32_t destination, uint32_t source, uint32_t protocol, uint32_t destination_port, uint32_t source_port, uint32_t portless);
reamstork_range plain_prefix(uint32_t address, uint32_t length);
reamstork_written plain_capture_begin(uint8_t *out, size_t len);
reamstork_written plain_capture_add(uint8_t *out, size_t len, uint32_t seconds, uint32_t fraction, uint32_t original, const uint8_t *data, size_t data_len);
reamstork_size plain_image_words(const uint32_t *words, size_t len);
uint32_t plain_freeze(const uint32_t *words, size_t len, uint32_t *image, size_t image_len);
uint32_t plain_image_check(const uint32_t *image, size_t len);
reamstork_most plain_image_worst(const uint32_t *image, size_t len);
reamstork_found plain_image_lookup(const uint32_t *image, size_t len, uint32_t destination, uint32_t source, uint32_t protocol, uint32_t destination_port, uint32_t source_port, uint32_t portless);
reamstork_found plain_image_lookup_packet(const uint32_t *image, size_t len, const uint8_t *packet, size_t packet_len);
reamstork_found plain_image_lookup_packet_tally(const uint32_t *image, size_t len, const uint8_t *packet, size_t packet_len, reamstork_tallies *tallies);

#endif
