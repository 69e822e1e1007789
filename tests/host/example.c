/* From a call sheet to an answered packet: seat 0 transmits, seat 1 asks to watch it and is granted. Status 0 where all went so. */
#include "coyametzi.h"

static const uint8_t text[] = "server=1000\nlimit=1\nrequest=1\nresponse=2\nendrequest=3\nendresponse=4\ntxend=5\ntxendresponse=6\nack=7\n"
                              "resultid=20\nseats=3\nseat=1,sip:a\nseat=2,sip:b\nseat=3,sip:c\n";
static const uint8_t request[] = { 0x81, 0xCC, 0, 6, 0, 0, 0, 2, 'M', 'C', 'V', '0', /* a Receive media request of SSRC 2 */
                                   6, 5, 's', 'i', 'p', ':', 'b', 0, 6, 5, 's', 'i', 'p', ':', 'a', 0 };
static const uint8_t grant[] = { 0x82, 0xCC, 0, 3, 0, 0, 3, 0xE8, 'M', 'C', 'V', '1', 20, 2, 0, 1 };

static uint32_t sheet[MCV_SHEET];
static uint8_t users[MCV_USERS];
static uint8_t records[MCV_RECORDS]; /* all zero: eight streams that are Free */

/* Both routines, that of packets and that of timers, handle their events so. Where the other one stored in between, it goes round again. */
static uint32_t handle(const uint32_t event[MCV_EVENT], uint32_t answer[MCV_ANSWER])
{
    uint8_t record[MCV_RECORD];
    uint32_t attempt[MCV_ATTEMPT], refused;
    do {
        /* lock the records */
        refused = mcv_seen(sheet, MCV_SHEET, records, MCV_RECORDS, event[1], record, MCV_RECORD);
        /* unlock them */
        if (refused == 0)
            refused = mcv_work_out(sheet, MCV_SHEET, record, MCV_RECORD, event, MCV_EVENT, attempt, MCV_ATTEMPT);
        if (refused != 0)
            return refused;
        /* lock the records */
        refused = mcv_store(sheet, MCV_SHEET, attempt, MCV_ATTEMPT, records, MCV_RECORDS, answer, MCV_ANSWER);
        /* unlock them */
    } while (refused == MCV_STALE);
    return refused; /* 0: the store took. Stop the timers in answer[4], start those in answer[5], and send the answer's packet */
}

int main(void)
{
    const uint32_t open[MCV_EVENT] = { MCV_OPEN, 0, 0, 0 };
    uint32_t used, event[MCV_EVENT], answer[MCV_ANSWER], written;
    uint8_t out[MCV_PACKET];

    if (mcv_sheet(text, sizeof text - 1, sheet, MCV_SHEET, users, &used, 1) != 0 || handle(open, answer) != 0)
        return 1;
    /* a packet comes in */
    if (mcv_event(sheet, MCV_SHEET, users, request, sizeof request, event, MCV_EVENT) != 0 || handle(event, answer) != 0)
        return 1;
    if (mcv_packet(sheet, MCV_SHEET, users, event[1], answer, MCV_ANSWER, out, MCV_PACKET, &written, 1) != 0 || written != sizeof grant)
        return 1;
    for (uint32_t i = 0; i < written; i++)
        if (out[i] != grant[i])
            return 1;
    return 0; /* the first `written` octets of `out` go to the seat that asked, event[2] */
}
