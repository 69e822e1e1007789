/* Packets read (document 01, "Packet"). */

#define HEAD 12

enum { CAUSE_ID = 2, USER_ID = 6, SOURCE_ID = 10, MESSAGE_TYPE_ID = 12, INDICATOR_ID = 13, NO_ID = 192 };

/* "MCV" and a digit, as a number. */
#define LETTERS(digit) (UINT32_C(0x4D435600) | (digit))

static uint32_t two_octets(const uint8_t *at)
{
    return (uint32_t)at[0] << 8 | at[1];
}

static uint32_t four_octets(const uint8_t *at)
{
    return two_octets(at) << 16 | two_octets(at + 2);
}

/* Where the field at a place ends, padding and all, or 0 where it is bad. */
static size_t field_end(const uint8_t *packet, size_t count, size_t at)
{
    if (count - at < 4 || packet[at] >= NO_ID)
        return 0;
    size_t end = at + 2 + packet[at + 1], next = (end + 3) & ~(size_t)3;
    if (next > count)
        return 0;
    for (; end < next; end++)
        if (packet[end] != 0)
            return 0;
    return next;
}

uint32_t plain_field(const uint8_t *packet, size_t packet_count, uint32_t place, uint32_t *field, size_t field_count)
{
    if (place < HEAD || place % 4 != 0 || place > packet_count)
        return MCV_BAD_FIELD;
    if (place == packet_count) {
        if (field_count < MCV_FIELD)
            return MCV_NO_ROOM;
        field[0] = MCV_NONE;
        field[1] = place;
        field[2] = 0;
        field[3] = place;
        return 0;
    }
    size_t next = field_end(packet, packet_count, place);
    if (next == 0 || next > UINT32_MAX)
        return MCV_BAD_FIELD;
    if (field_count < MCV_FIELD)
        return MCV_NO_ROOM;
    field[0] = packet[place];
    field[1] = place + 2;
    field[2] = packet[place + 1];
    field[3] = (uint32_t)next;
    return 0;
}

/* ---- Messages */

/* Of each sort of field that some message uses: how many there are, and where the first one is; of names the second, too. */
struct found {
    uint32_t names, causes, results, indicators, sources, types;
    size_t name, second_name, cause, result, indicator, source, type;
};

static void note(uint32_t *count, size_t *first, size_t at)
{
    if ((*count)++ == 0)
        *first = at;
}

/* Walks over the fields; false at a bad one. */
static bool walk(const uint8_t *packet, size_t count, uint32_t result_id, struct found *found)
{
    for (size_t at = HEAD, next; at < count; at = next) {
        next = field_end(packet, count, at);
        if (next == 0)
            return false;
        switch (packet[at]) {
        case USER_ID:
            if (found->names == 1)
                found->second_name = at;
            note(&found->names, &found->name, at);
            break;
        case CAUSE_ID:
            note(&found->causes, &found->cause, at);
            break;
        case SOURCE_ID:
            note(&found->sources, &found->source, at);
            break;
        case MESSAGE_TYPE_ID:
            note(&found->types, &found->type, at);
            break;
        case INDICATOR_ID:
            note(&found->indicators, &found->indicator, at);
            break;
        default:
            if (packet[at] == result_id)
                note(&found->results, &found->result, at);
        }
    }
    return true;
}

/* What a message says: its row, behind kind, SSRC and Ack asked. */
struct content {
    uint32_t user, user_length, named, named_length, result, cause, indicator, source, type;
};

static bool take_name(const uint8_t *packet, size_t at, uint32_t *place, uint32_t *length)
{
    *place = (uint32_t)at + 2;
    *length = packet[at + 1];
    return is_user_id(packet + at + 2, *length);
}

/* A number of exactly two octets. */
static bool take_pair(const uint8_t *packet, size_t at, uint32_t *number)
{
    *number = two_octets(packet + at + 2);
    return packet[at + 1] == 2;
}

static bool take_cause(const uint8_t *packet, const struct found *found, uint32_t *cause)
{
    if (found->causes != 1 || packet[found->cause + 1] < 2)
        return false;
    *cause = two_octets(packet + found->cause + 2);
    return true;
}

static bool take_indicator(const uint8_t *packet, const struct found *found, uint32_t *indicator)
{
    return found->indicators == 0 || (found->indicators == 1 && take_pair(packet, found->indicator, indicator));
}

static bool take_named(const uint8_t *packet, const struct found *found, struct content *is)
{
    return found->names == 1 && take_name(packet, found->name, &is->named, &is->named_length);
}

static bool take_request(const uint8_t *packet, const struct found *found, struct content *is)
{
    return found->names == 2 && take_name(packet, found->name, &is->user, &is->user_length) &&
           take_name(packet, found->second_name, &is->named, &is->named_length) && take_indicator(packet, found, &is->indicator);
}

static bool take_response(const uint8_t *packet, const struct found *found, struct content *is)
{
    if (found->results != 1 || !take_pair(packet, found->result, &is->result) || is->result > 1)
        return false;
    if (is->result == 1 ? found->causes != 0 : !take_cause(packet, found, &is->cause))
        return false;
    return take_indicator(packet, found, &is->indicator);
}

static bool take_ack(const uint8_t *packet, const struct found *found, struct content *is)
{
    if (found->sources != 1 || found->types != 1 || packet[found->type + 1] != 2 || packet[found->type + 3] != 0)
        return false;
    is->type = packet[found->type + 2];
    return take_pair(packet, found->source, &is->source);
}

static bool take_content(uint32_t kind, const uint8_t *packet, const struct found *found, struct content *is)
{
    switch (kind) {
    case MCV_RECEIVE_REQUEST:
        return take_request(packet, found, is);
    case MCV_RECEIVE_RESPONSE:
        return take_response(packet, found, is);
    case MCV_RECEPTION_END_REQUEST:
        return take_named(packet, found, is) && take_indicator(packet, found, &is->indicator);
    case MCV_RECEPTION_END_RESPONSE:
        return take_named(packet, found, is);
    case MCV_TRANSMISSION_END_REQUEST:
        return take_cause(packet, found, &is->cause) && take_indicator(packet, found, &is->indicator);
    case MCV_ACK:
        return take_ack(packet, found, is);
    default:
        return true;
    }
}

/* The kind with these letters and this number, or 0. */
static uint32_t kind_of(const uint32_t *sheet, uint32_t letters, uint32_t number)
{
    switch (letters) {
    case LETTERS('0'):
        return number == sheet[REQUEST] ? MCV_RECEIVE_REQUEST : 0;
    case LETTERS('1'):
        return number == sheet[RESPONSE] ? MCV_RECEIVE_RESPONSE : 0;
    case LETTERS('2'):
        for (uint32_t i = END_REQUEST; i <= ACK; i++)
            if (number == sheet[i])
                return MCV_RECEPTION_END_REQUEST + i - END_REQUEST;
        return 0;
    default:
        return 0;
    }
}

/* Reads a packet under a good sheet: 0, or 1 to 5. */
static uint32_t read_packet(const uint32_t *sheet, const uint8_t *packet, size_t count, uint32_t *kind, struct content *is)
{
    struct found found = { 0 };
    if (count < HEAD || count > MCV_PACKET || count % 4 != 0)
        return MCV_BAD_SIZE;
    if (packet[0] >> 5 != 4 || packet[1] != 204 || two_octets(packet + 2) != count / 4 - 1)
        return MCV_BAD_HEADER;
    *kind = kind_of(sheet, four_octets(packet + 8), packet[0] & 15);
    if (*kind == 0)
        return MCV_NOT_KNOWN;
    if (!walk(packet, count, sheet[RESULT_ID], &found))
        return MCV_BAD_FIELD;
    *is = (struct content){ 0, 0, 0, 0, MCV_NONE, MCV_NONE, MCV_NONE, MCV_NONE, MCV_NONE };
    return take_content(*kind, packet, &found, is) ? 0 : MCV_BAD_MESSAGE;
}

uint32_t plain_read(const uint32_t *sheet, size_t sheet_count, const uint8_t *packet, size_t packet_count, uint32_t *message, size_t message_count)
{
    uint32_t kind, refusal;
    struct content is;
    if (!is_sheet(sheet, sheet_count))
        return MCV_BAD_SHEET;
    refusal = read_packet(sheet, packet, packet_count, &kind, &is);
    if (refusal != 0)
        return refusal;
    if (message_count < MCV_MESSAGE)
        return MCV_NO_ROOM;
    message[0] = kind;
    message[1] = four_octets(packet + 4);
    message[2] = packet[0] >> 4 & 1;
    message[3] = is.user;
    message[4] = is.user_length;
    message[5] = is.named;
    message[6] = is.named_length;
    message[7] = is.result;
    message[8] = is.cause;
    message[9] = is.indicator;
    message[10] = is.source;
    message[11] = is.type;
    return 0;
}

/* ---- A packet's event */

uint32_t plain_event(const uint32_t *sheet, size_t sheet_count, const uint8_t users[MCV_USERS], const uint8_t *packet, size_t packet_count,
                     uint32_t *event, size_t event_count)
{
    uint32_t kind, refusal, seats, by, stream;
    struct content is;
    if (!is_sheet_with(sheet, sheet_count, users))
        return MCV_BAD_SHEET;
    refusal = read_packet(sheet, packet, packet_count, &kind, &is);
    if (refusal != 0)
        return refusal;
    if (kind != MCV_RECEIVE_REQUEST && kind != MCV_RECEPTION_END_REQUEST && kind != MCV_TRANSMISSION_END_RESPONSE)
        return MCV_NO_EVENT;
    seats = sheet[SEATS];
    by = seat_by_ssrc(sheet, seats, four_octets(packet + 4));
    if (by == seats || (kind == MCV_RECEIVE_REQUEST && !is_user(user_of(users, by), packet + is.user, is.user_length)))
        return MCV_NO_SENDER;
    stream = kind == MCV_TRANSMISSION_END_RESPONSE ? by : seat_by_user(users, seats, packet + is.named, is.named_length);
    if (stream == seats)
        return MCV_NO_STREAM;
    if (event_count < MCV_EVENT)
        return MCV_NO_ROOM;
    event[0] = kind == MCV_RECEIVE_REQUEST ? MCV_REQUEST : kind == MCV_RECEPTION_END_REQUEST ? MCV_END : MCV_END_RESPONSE;
    event[1] = stream;
    event[2] = kind == MCV_TRANSMISSION_END_RESPONSE ? 0 : by;
    event[3] = kind == MCV_TRANSMISSION_END_RESPONSE ? packet[0] >> 4 & 1 : 0;
    return 0;
}
