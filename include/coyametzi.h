/* Coyametzi: the reception control of a vehicle's MCVideo controller (3GPP TS 24.581), for a host written in C.
 *
 * Every call answers every input. It returns 0, or a refusal's number plus 256 times its line; MCV_REFUSAL and MCV_LINE take the two apart.
 * A refusal changes no lent octet or number. No call keeps a pointer or any state.
 *
 * Every slice is a pointer and then its count of elements, compared whole and never cut: a row handed in has exactly the count that stands
 * below, so that a host compiled with an older header is refused and not overrun. A slice that only comes back may be longer; what is behind
 * the answer stays as it was. `users` alone is one pointer, to MCV_USERS octets. Numbers are in the host's byte order.
 *
 * The host sees to this:
 * - a count is that of the memory lent, and NULL goes with count 0;
 * - a slice that a call changes overlaps no other slice of that call (`out` is not `names`, `answer` is not the end of `attempt`);
 * - no two of mcv_seen, mcv_store and mcv_count run inside one another on the same records: put a lock around each of these calls, and none
 *   around the working-out between them;
 * - only attempts that mcv_work_out gave under that sheet are stored; timers are stopped and started, and a packet is sent, once its store took,
 *   a stream's timers in the order of its stores;
 * - the records are all zero to begin with.
 *
 * Every call but mcv_sheet takes less than 256 octets of stack. Seats count from 0, and a stream's number is its transmitter's seat. */
#ifndef COYAMETZI_H
#define COYAMETZI_H

#include <stddef.h>
#include <stdint.h>

#ifdef __cplusplus
extern "C" {
#endif

/* Where a row has no such number. */
#define MCV_NONE UINT32_C(4294967295)

/* ---- Counts of the rows. One number comes back in a slice of at least one. */

#define MCV_SHEET 19   /* server, limit, request, response, endrequest, endresponse, txend, txendresponse, ack, resultid, seats, eight SSRCs */
#define MCV_USERS 480  /* octets: eight User IDs of 60, unused octets zero */
#define MCV_MESSAGE 12 /* kind, SSRC, Ack asked, User ID's place and length, named transmitter's place and length (0 and 0 where none),
                          Result, cause, Indicator, Source, Message Type (MCV_NONE where none) */
#define MCV_FIELD 4    /* ID, value's place, length, next place; at the end MCV_NONE, the place, 0, the place */
#define MCV_EVENT 4    /* what, stream, by (0 for MCV_OPEN to MCV_RELEASE), Ack asked (0 or 1 for MCV_END_RESPONSE, else 0) */
#define MCV_RECORD 2   /* octets: phase, receivers (bit r for seat r) */
#define MCV_RECORDS 16 /* octets: eight records, stream 0 first; all zero to begin with: eight streams that are Free */
#define MCV_ATTEMPT 11 /* stream, seen phase and receivers, wanted phase and receivers, then the answer */
#define MCV_ANSWER 6   /* its number, kind of the message to send or 0, Result and cause (MCV_NONE where none), timers to stop, timers to start */
#define MCV_PACKET 256 /* octets: no packet is longer */

/* ---- Kinds of messages, and what each has behind kind, SSRC and Ack asked; brackets: may be MCV_NONE. A row with anything else in a place
 * that its kind has not is refused. */

#define MCV_RECEIVE_REQUEST 1           /* User ID, named transmitter (the Source ID), [Indicator] */
#define MCV_RECEIVE_RESPONSE 2          /* Result: 1 granted, 0 rejected; cause exactly if it is 0; [Indicator] */
#define MCV_RECEPTION_END_REQUEST 3     /* named transmitter, [Indicator] */
#define MCV_RECEPTION_END_RESPONSE 4    /* named transmitter */
#define MCV_TRANSMISSION_END_REQUEST 5  /* cause, [Indicator] */
#define MCV_TRANSMISSION_END_RESPONSE 6 /* nothing */
#define MCV_ACK 7                       /* Source, Message Type */

/* ---- What happens to a stream. A packet makes a request, an end or an end response; the host itself makes the other three. */

#define MCV_REQUEST 1      /* a seat asks to watch (kind 1) */
#define MCV_END 2          /* a seat watches no longer (kind 3) */
#define MCV_OPEN 3         /* the transmission begins (Media Transmission Notify) */
#define MCV_T11 4          /* T11, the idle timer, expired */
#define MCV_END_RESPONSE 5 /* the transmitter's answer to a Transmission end request (kind 6) */
#define MCV_RELEASE 6      /* the transmission is over (Transmission End Notify) */

/* ---- Phases of a stream */

#define MCV_FREE 0
#define MCV_IDLE 1
#define MCV_WATCHED 2
#define MCV_ENDING 3

/* ---- Answers */

#define MCV_GRANTED 1
#define MCV_REJECTED 2      /* cause 0: the limit is reached; 1: own, free or ending stream */
#define MCV_ENDED 3         /* sends a Media reception end response, kind 4 */
#define MCV_END_REQUESTED 4 /* sends a Transmission end request, kind 5, with cause 8 */
#define MCV_FREED 5         /* by an end response; sends an Ack where one was asked */
#define MCV_OPENED 6
#define MCV_RELEASED 7
#define MCV_DISCARDED 8

/* ---- Timers, summed in an answer */

#define MCV_TIMER_T3 1
#define MCV_TIMER_T5 2
#define MCV_TIMER_T6 4
#define MCV_TIMER_T11 8

/* ---- Refusals, checked in this order: 12 line 0, 1 to 5, 8, 6, 7, 9, 10, and 11 last of all */

#define MCV_REFUSAL(returned) ((returned) % 256)
#define MCV_LINE(returned) ((returned) / 256)

#define MCV_BAD_SIZE 1    /* packet size wrong: 12 to 256 octets, a multiple of 4 */
#define MCV_BAD_HEADER 2  /* version, padding bit, type 204 or length wrong */
#define MCV_NOT_KNOWN 3   /* letters and number not on the sheet */
#define MCV_BAD_FIELD 4   /* ID of 192 or more, field past the end, padding not zero; mcv_field's place wrong */
#define MCV_BAD_MESSAGE 5 /* a field missing, repeated, or of wrong length or value; a Reject Cause beside Result 1; a message, or its row, that no packet reads to */
#define MCV_NO_SENDER 6   /* the sender's SSRC has no seat, or the User ID of a request is not that seat's */
#define MCV_NO_STREAM 7   /* the user whose stream it would be has no seat */
#define MCV_NO_EVENT 8    /* kind 2, 4, 5 or 7, which makes no event */
#define MCV_NOT_LEGAL 9   /* a stream, record, event, attempt or answer that is none, or is not legal under the sheet */
#define MCV_STALE 10      /* the record is no longer the one seen: read and work out again */
#define MCV_NO_ROOM 11    /* a slice to come back is too short */
#define MCV_BAD_SHEET 12  /* with its first bad or missing line, from 1; line 0 for numbers or User IDs that no sheet reads to */

/* ---- The sheet */

/* Reads a call sheet from the front of a text: its numbers, its User IDs, and how many octets it took. It lays out tables on its own stack, some
 * 1,500 octets in all. */
uint32_t mcv_sheet(const uint8_t *text, size_t text_count, uint32_t *sheet, size_t sheet_count, uint8_t users[MCV_USERS], uint32_t *used, size_t used_count);

/* ---- Packets */

/* Reads a packet. A name's place is in the packet. */
uint32_t mcv_read(const uint32_t *sheet, size_t sheet_count, const uint8_t *packet, size_t packet_count, uint32_t *message, size_t message_count);

/* Writes a message, whose names lie in `names`, and how many octets the packet has. A message that was read is written again with its packet for names. */
uint32_t mcv_write(const uint32_t *sheet, size_t sheet_count, const uint32_t *message, size_t message_count, const uint8_t *names, size_t names_count,
                   uint8_t *out, size_t out_count, uint32_t *written, size_t written_count);

/* The field at a place. To walk a packet begin at 12 and go on with field[3] until field[0] is MCV_NONE. Nothing else of the packet is checked. A field
 * whose next place is no 32-bit number is refused as one past the end. */
uint32_t mcv_field(const uint8_t *packet, size_t packet_count, uint32_t place, uint32_t *field, size_t field_count);

/* ---- Streams: a packet makes an event; see, work out and store it; then send what the answer says */

/* The event that a packet makes. */
uint32_t mcv_event(const uint32_t *sheet, size_t sheet_count, const uint8_t users[MCV_USERS], const uint8_t *packet, size_t packet_count,
                   uint32_t *event, size_t event_count);

/* Reads a stream's record. Of the records a phase above 3 is refused in any of the eight, here and in mcv_store and mcv_count; of the others nothing
 * else is looked at. */
uint32_t mcv_seen(const uint32_t *sheet, size_t sheet_count, const uint8_t *records, size_t records_count, uint32_t stream,
                  uint8_t *record, size_t record_count);

/* Works out what an event makes of the record that was seen: an attempt to store. It looks at no records and needs no lock. */
uint32_t mcv_work_out(const uint32_t *sheet, size_t sheet_count, const uint8_t *record, size_t record_count, const uint32_t *event, size_t event_count,
                      uint32_t *attempt, size_t attempt_count);

/* Stores an attempt if the stream's record is still the one seen, and gives its answer, the last six numbers of the attempt; else MCV_STALE. Of the records,
 * which are handed in and so are exactly MCV_RECORDS octets, the stream's own two octets are all that changes. */
uint32_t mcv_store(const uint32_t *sheet, size_t sheet_count, const uint32_t *attempt, size_t attempt_count, uint8_t *records, size_t records_count,
                   uint32_t *answer, size_t answer_count);

/* C11: how many seats watch a stream. */
uint32_t mcv_count(const uint32_t *sheet, size_t sheet_count, const uint8_t *records, size_t records_count, uint32_t stream,
                   uint32_t *count, size_t count_count);

/* The packet that an answer on a stream sends, and how many octets it has; 0 where it sends none, and `out` is then left alone and may have any count.
 * A grant, a rejection and a Media reception end response go to the seat that asked, the event's `by`; a Transmission end request and an Ack to the stream's own
 * seat. */
uint32_t mcv_packet(const uint32_t *sheet, size_t sheet_count, const uint8_t users[MCV_USERS], uint32_t stream, const uint32_t *answer, size_t answer_count,
                    uint8_t *out, size_t out_count, uint32_t *written, size_t written_count);

#ifdef __cplusplus
}
#endif

#endif
