/* Streams: the record of each, the event table and the three steps (document 01, "Stream record" and "Three steps"). */

struct record {
    uint8_t phase, receivers;
};

/* An answer's row: its number, kind, Result, cause, timers to stop, timers to start. */
struct answer {
    uint32_t number, kind, result, cause, stops, starts;
};

static uint32_t ones(uint32_t receivers)
{
    return (uint32_t)__builtin_popcount(receivers);
}

/* Whether a record of a stream on the sheet is legal. */
static bool is_legal(const uint32_t *sheet, uint32_t stream, uint32_t phase, uint32_t receivers)
{
    if (phase != MCV_WATCHED)
        return phase <= MCV_ENDING && receivers == 0;
    uint32_t others = ((UINT32_C(1) << sheet[SEATS]) - 1) & ~(UINT32_C(1) << stream);
    return receivers != 0 && (receivers & ~others) == 0 && ones(receivers) <= sheet[LIMIT];
}

/* Whether these are eight records, and the stream's own is legal. */
static bool are_records(const uint32_t *sheet, const uint8_t *records, size_t count, uint32_t stream)
{
    if (count != MCV_RECORDS || stream >= sheet[SEATS])
        return false;
    for (size_t i = 0; i < MCV_RECORDS; i += MCV_RECORD)
        if (records[i] > MCV_ENDING)
            return false;
    return is_legal(sheet, stream, records[2 * stream], records[2 * stream + 1]);
}

uint32_t plain_seen(const uint32_t *sheet, size_t sheet_count, const uint8_t *records, size_t records_count, uint32_t stream,
                    uint8_t *record, size_t record_count)
{
    if (!is_sheet(sheet, sheet_count))
        return MCV_BAD_SHEET;
    if (!are_records(sheet, records, records_count, stream))
        return MCV_NOT_LEGAL;
    if (record_count < MCV_RECORD)
        return MCV_NO_ROOM;
    record[0] = records[2 * stream];
    record[1] = records[2 * stream + 1];
    return 0;
}

uint32_t plain_count(const uint32_t *sheet, size_t sheet_count, const uint8_t *records, size_t records_count, uint32_t stream,
                     uint32_t *count, size_t count_count)
{
    if (!is_sheet(sheet, sheet_count))
        return MCV_BAD_SHEET;
    if (!are_records(sheet, records, records_count, stream))
        return MCV_NOT_LEGAL;
    if (count_count < 1)
        return MCV_NO_ROOM;
    *count = ones(records[2 * stream + 1]);
    return 0;
}

/* ---- The event table */

static const struct answer granted = { MCV_GRANTED, MCV_RECEIVE_RESPONSE, 1, MCV_NONE, 0, 0 };
static const struct answer discarded = { MCV_DISCARDED, 0, MCV_NONE, MCV_NONE, 0, 0 };

static struct answer rejected(uint32_t cause)
{
    return (struct answer){ MCV_REJECTED, MCV_RECEIVE_RESPONSE, 0, cause, 0, 0 };
}

static struct answer request(struct record *record, uint32_t limit, uint32_t stream, uint32_t by)
{
    uint32_t bit = UINT32_C(1) << by;
    if (by == stream || record->phase == MCV_FREE || record->phase == MCV_ENDING)
        return rejected(1);
    if (record->receivers & bit)
        return granted;
    if (ones(record->receivers) >= limit)
        return rejected(0);
    struct answer answer = granted;
    answer.stops = record->phase == MCV_IDLE ? MCV_TIMER_T5 + MCV_TIMER_T11 : MCV_TIMER_T5;
    answer.starts = MCV_TIMER_T6;
    record->phase = MCV_WATCHED;
    record->receivers = (uint8_t)(record->receivers | bit);
    return answer;
}

static struct answer end(struct record *record, uint32_t by)
{
    struct answer answer = { MCV_ENDED, MCV_RECEPTION_END_RESPONSE, MCV_NONE, MCV_NONE, 0, 0 };
    uint32_t bit = UINT32_C(1) << by;
    if (record->receivers & bit) {
        record->receivers = (uint8_t)(record->receivers & ~bit);
        if (record->receivers == 0) {
            record->phase = MCV_IDLE;
            answer.starts = MCV_TIMER_T11;
        }
    }
    return answer;
}

static struct answer release(struct record *record)
{
    uint32_t stops = record->phase == MCV_IDLE ? MCV_TIMER_T11 : record->phase == MCV_ENDING ? MCV_TIMER_T3 : 0;
    if (record->phase == MCV_FREE)
        return discarded;
    *record = (struct record){ MCV_FREE, 0 };
    return (struct answer){ MCV_RELEASED, 0, MCV_NONE, MCV_NONE, stops, 0 };
}

/* What an event makes of a record, which becomes the one wanted. */
static struct answer table(struct record *record, uint32_t limit, const uint32_t *event)
{
    switch (event[0]) {
    case MCV_REQUEST:
        return request(record, limit, event[1], event[2]);
    case MCV_END:
        return end(record, event[2]);
    case MCV_OPEN:
        if (record->phase != MCV_FREE)
            return discarded;
        record->phase = MCV_IDLE;
        return (struct answer){ MCV_OPENED, 0, MCV_NONE, MCV_NONE, 0, MCV_TIMER_T11 };
    case MCV_T11:
        if (record->phase != MCV_IDLE)
            return discarded;
        record->phase = MCV_ENDING;
        return (struct answer){ MCV_END_REQUESTED, MCV_TRANSMISSION_END_REQUEST, MCV_NONE, 8, 0, MCV_TIMER_T3 };
    case MCV_END_RESPONSE:
        if (record->phase != MCV_ENDING)
            return discarded;
        record->phase = MCV_FREE;
        return (struct answer){ MCV_FREED, event[3] ? MCV_ACK : 0, MCV_NONE, MCV_NONE, MCV_TIMER_T3, 0 };
    default:
        return release(record);
    }
}

/* Whether a row is an event of seats on the sheet. */
static bool is_event(const uint32_t *sheet, const uint32_t *event, size_t count)
{
    if (count != MCV_EVENT || event[0] < MCV_REQUEST || event[0] > MCV_RELEASE || event[1] >= sheet[SEATS])
        return false;
    if (event[0] <= MCV_END ? event[2] >= sheet[SEATS] : event[2] != 0)
        return false;
    return event[3] <= (event[0] == MCV_END_RESPONSE);
}

uint32_t plain_work_out(const uint32_t *sheet, size_t sheet_count, const uint8_t *record, size_t record_count, const uint32_t *event, size_t event_count,
                        uint32_t *attempt, size_t attempt_count)
{
    if (!is_sheet(sheet, sheet_count))
        return MCV_BAD_SHEET;
    if (record_count != MCV_RECORD || !is_event(sheet, event, event_count) || !is_legal(sheet, event[1], record[0], record[1]))
        return MCV_NOT_LEGAL;
    if (attempt_count < MCV_ATTEMPT)
        return MCV_NO_ROOM;
    struct record wanted = { record[0], record[1] };
    struct answer answer = table(&wanted, sheet[LIMIT], event);
    attempt[0] = event[1];
    attempt[1] = record[0];
    attempt[2] = record[1];
    attempt[3] = wanted.phase;
    attempt[4] = wanted.receivers;
    memcpy(attempt + 5, &answer, sizeof answer);
    return 0;
}

/* ---- Answers */

/* Whether a row is an answer that the table gives; a rejection and an end request have any cause. */
static bool is_answer(const uint32_t *row, size_t count)
{
    struct answer a;
    if (count != MCV_ANSWER)
        return false;
    memcpy(&a, row, sizeof a);
    if (a.number == MCV_GRANTED)
        return a.kind == MCV_RECEIVE_RESPONSE && a.result == 1 && a.cause == MCV_NONE &&
               (a.starts == MCV_TIMER_T6 ? a.stops == MCV_TIMER_T5 || a.stops == MCV_TIMER_T5 + MCV_TIMER_T11 : a.starts == 0 && a.stops == 0);
    if (a.number == MCV_REJECTED)
        return a.kind == MCV_RECEIVE_RESPONSE && a.result == 0 && a.cause <= UINT16_MAX && a.stops == 0 && a.starts == 0;
    if (a.result != MCV_NONE)
        return false;
    if (a.number == MCV_END_REQUESTED)
        return a.kind == MCV_TRANSMISSION_END_REQUEST && a.cause <= UINT16_MAX && a.stops == 0 && a.starts == MCV_TIMER_T3;
    if (a.cause != MCV_NONE)
        return false;
    switch (a.number) {
    case MCV_ENDED:
        return a.kind == MCV_RECEPTION_END_RESPONSE && a.stops == 0 && (a.starts == 0 || a.starts == MCV_TIMER_T11);
    case MCV_FREED:
        return (a.kind == 0 || a.kind == MCV_ACK) && a.stops == MCV_TIMER_T3 && a.starts == 0;
    case MCV_OPENED:
        return a.kind == 0 && a.stops == 0 && a.starts == MCV_TIMER_T11;
    case MCV_RELEASED:
        return a.kind == 0 && (a.stops == 0 || a.stops == MCV_TIMER_T3 || a.stops == MCV_TIMER_T11) && a.starts == 0;
    case MCV_DISCARDED:
        return a.kind == 0 && a.stops == 0 && a.starts == 0;
    default:
        return false;
    }
}

uint32_t plain_store(const uint32_t *sheet, size_t sheet_count, const uint32_t *attempt, size_t attempt_count, uint8_t *records, size_t records_count,
                     uint32_t *answer, size_t answer_count)
{
    if (!is_sheet(sheet, sheet_count))
        return MCV_BAD_SHEET;
    if (attempt_count != MCV_ATTEMPT || !is_answer(attempt + 5, MCV_ANSWER) || !are_records(sheet, records, records_count, attempt[0]) ||
        !is_legal(sheet, attempt[0], attempt[1], attempt[2]) || !is_legal(sheet, attempt[0], attempt[3], attempt[4]))
        return MCV_NOT_LEGAL;
    uint8_t *own = records + 2 * attempt[0];
    if (own[0] != attempt[1] || own[1] != attempt[2])
        return MCV_STALE;
    if (answer_count < MCV_ANSWER)
        return MCV_NO_ROOM;
    own[0] = (uint8_t)attempt[3];
    own[1] = (uint8_t)attempt[4];
    memcpy(answer, attempt + 5, MCV_ANSWER * sizeof *answer);
    return 0;
}

uint32_t plain_packet(const uint32_t *sheet, size_t sheet_count, const uint8_t users[MCV_USERS], uint32_t stream, const uint32_t *answer, size_t answer_count,
                      uint8_t *out, size_t out_count, uint32_t *written, size_t written_count)
{
    if (!is_sheet_with(sheet, sheet_count, users))
        return MCV_BAD_SHEET;
    if (stream >= sheet[SEATS] || !is_answer(answer, answer_count))
        return MCV_NOT_LEGAL;
    if (answer[1] == 0) {
        if (written_count < 1)
            return MCV_NO_ROOM;
        *written = 0;
        return 0;
    }
    const uint8_t *transmitter = user_of(users, stream);
    struct draft draft = {
        .kind = answer[1],
        .ssrc = sheet[SERVER],
        .named = transmitter,
        .named_length = answer[1] == MCV_RECEPTION_END_RESPONSE ? (uint32_t)user_length(transmitter) : 0,
        .result = answer[2],
        .cause = answer[3],
        .indicator = MCV_NONE,
        .source = 2,
        .type = 1,
    };
    return write_draft(sheet, &draft, out, out_count, written, written_count);
}
