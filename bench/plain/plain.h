/* The calls of include/coyametzi.h in plain C, from the rules of document 01: what the proved code is measured against. Each takes, gives and
 * refuses what the call of its name does. */
#ifndef PLAIN_H
#define PLAIN_H

#include "coyametzi.h"

uint32_t plain_sheet(const uint8_t *text, size_t text_count, uint32_t *sheet, size_t sheet_count, uint8_t users[MCV_USERS], uint32_t *used, size_t used_count);

uint32_t plain_read(const uint32_t *sheet, size_t sheet_count, const uint8_t *packet, size_t packet_count, uint32_t *message, size_t message_count);

uint32_t plain_write(const uint32_t *sheet, size_t sheet_count, const uint32_t *message, size_t message_count, const uint8_t *names, size_t names_count,
                     uint8_t *out, size_t out_count, uint32_t *written, size_t written_count);

uint32_t plain_field(const uint8_t *packet, size_t packet_count, uint32_t place, uint32_t *field, size_t field_count);

uint32_t plain_event(const uint32_t *sheet, size_t sheet_count, const uint8_t users[MCV_USERS], const uint8_t *packet, size_t packet_count,
                     uint32_t *event, size_t event_count);

uint32_t plain_seen(const uint32_t *sheet, size_t sheet_count, const uint8_t *records, size_t records_count, uint32_t stream,
                    uint8_t *record, size_t record_count);

uint32_t plain_work_out(const uint32_t *sheet, size_t sheet_count, const uint8_t *record, size_t record_count, const uint32_t *event, size_t event_count,
                        uint32_t *attempt, size_t attempt_count);

uint32_t plain_store(const uint32_t *sheet, size_t sheet_count, const uint32_t *attempt, size_t attempt_count, uint8_t *records, size_t records_count,
                     uint32_t *answer, size_t answer_count);

uint32_t plain_count(const uint32_t *sheet, size_t sheet_count, const uint8_t *records, size_t records_count, uint32_t stream,
                     uint32_t *count, size_t count_count);

uint32_t plain_packet(const uint32_t *sheet, size_t sheet_count, const uint8_t users[MCV_USERS], uint32_t stream, const uint32_t *answer, size_t answer_count,
                      uint8_t *out, size_t out_count, uint32_t *written, size_t written_count);

#endif
