/* Packets written (document 01, "Packet"). */

static void put_two(uint8_t *at, uint32_t number)
{
    at[0] = (uint8_t)(number >> 8);
    at[1] = (uint8_t)number;
}

static void put_four(uint8_t *at, uint32_t number)
{
    put_two(at, number >> 16);
    put_two(at + 2, number);
}

/* Writes a field of a number, and gives where it ends. */
static uint8_t *put_number(uint8_t *at, uint32_t id, uint32_t number)
{
    at[0] = (uint8_t)id;
    at[1] = 2;
    put_two(at + 2, number);
    return at + 4;
}

/* How many octets a field of a name takes. */
static size_t name_size(uint32_t length)
{
    return (2 + (size_t)length + 3) & ~(size_t)3;
}

static uint8_t *put_name(uint8_t *at, const uint8_t *name, uint32_t length)
{
    size_t size = name_size(length);
    at[0] = USER_ID;
    at[1] = (uint8_t)length;
    memcpy(at + 2, name, length);
    for (size_t i = 2 + length; i < size; i++)
        at[i] = 0;
    return at + size;
}

/* What a message to write says, its names as pointers. */
struct draft {
    uint32_t kind, ssrc, ack;
    const uint8_t *user, *named;
    uint32_t user_length, named_length, result, cause, indicator, source, type;
};

/* How many octets the packet of a draft has. */
static size_t draft_size(const struct draft *draft)
{
    size_t size = HEAD;
    switch (draft->kind) {
    case MCV_RECEIVE_REQUEST:
        size += name_size(draft->user_length) + name_size(draft->named_length);
        break;
    case MCV_RECEIVE_RESPONSE:
        size += draft->result == 0 ? 8 : 4;
        break;
    case MCV_RECEPTION_END_REQUEST:
    case MCV_RECEPTION_END_RESPONSE:
        size += name_size(draft->named_length);
        break;
    case MCV_TRANSMISSION_END_REQUEST:
        size += 4;
        break;
    case MCV_ACK:
        size += 8;
        break;
    }
    return draft->indicator == MCV_NONE ? size : size + 4;
}

static void put_draft(const uint32_t *sheet, const struct draft *draft, uint8_t *out, size_t size)
{
    uint8_t *at = out + HEAD;
    out[0] = (uint8_t)(0x80 | draft->ack << 4 | sheet[REQUEST + draft->kind - 1]);
    out[1] = 204;
    put_two(out + 2, (uint32_t)size / 4 - 1);
    put_four(out + 4, draft->ssrc);
    put_four(out + 8, LETTERS(draft->kind == MCV_RECEIVE_REQUEST ? '0' : draft->kind == MCV_RECEIVE_RESPONSE ? '1' : '2'));
    switch (draft->kind) {
    case MCV_RECEIVE_REQUEST:
        at = put_name(at, draft->user, draft->user_length);
        at = put_name(at, draft->named, draft->named_length);
        break;
    case MCV_RECEIVE_RESPONSE:
        at = put_number(at, sheet[RESULT_ID], draft->result);
        if (draft->result == 0)
            at = put_number(at, CAUSE_ID, draft->cause);
        break;
    case MCV_RECEPTION_END_REQUEST:
    case MCV_RECEPTION_END_RESPONSE:
        at = put_name(at, draft->named, draft->named_length);
        break;
    case MCV_TRANSMISSION_END_REQUEST:
        at = put_number(at, CAUSE_ID, draft->cause);
        break;
    case MCV_ACK:
        at = put_number(at, SOURCE_ID, draft->source);
        at = put_number(at, MESSAGE_TYPE_ID, draft->type << 8);
        break;
    }
    if (draft->indicator != MCV_NONE)
        put_number(at, INDICATOR_ID, draft->indicator);
}

/* Writes the packet of a draft and how many octets it has, or 11. */
static uint32_t write_draft(const uint32_t *sheet, const struct draft *draft, uint8_t *out, size_t out_count, uint32_t *written, size_t written_count)
{
    size_t size = draft_size(draft);
    if (out_count < size || written_count < 1)
        return MCV_NO_ROOM;
    put_draft(sheet, draft, out, size);
    *written = (uint32_t)size;
    return 0;
}

/* ---- A message's row */

/* Whether a number is there exactly if the message has one, and then not above the greatest. */
static bool is_exact(uint32_t number, bool has, uint32_t greatest)
{
    return has ? number <= greatest : number == MCV_NONE;
}

/* Whether a name is there exactly if the message has one, and then is a User ID in `names`. */
static bool is_name(uint32_t place, uint32_t length, bool has, const uint8_t *names, size_t names_count)
{
    if (!has)
        return place == 0 && length == 0;
    return place <= names_count && length <= names_count - place && is_user_id(names + place, length);
}

/* Whether a row is that of a message that some packet reads to. */
static bool is_message(const uint32_t *m, size_t count, const uint8_t *names, size_t names_count)
{
    if (count != MCV_MESSAGE || m[0] < 1 || m[0] > MCV_ACK || m[2] > 1)
        return false;
    uint32_t kind = m[0];
    bool has_named = kind == MCV_RECEIVE_REQUEST || kind == MCV_RECEPTION_END_REQUEST || kind == MCV_RECEPTION_END_RESPONSE;
    bool may_indicate = kind <= MCV_RECEPTION_END_REQUEST || kind == MCV_TRANSMISSION_END_REQUEST;
    return is_exact(m[7], kind == MCV_RECEIVE_RESPONSE, 1) && is_exact(m[8], m[7] == 0 || kind == MCV_TRANSMISSION_END_REQUEST, UINT16_MAX) &&
           is_exact(m[9], may_indicate && m[9] != MCV_NONE, UINT16_MAX) && is_exact(m[10], kind == MCV_ACK, UINT16_MAX) &&
           is_exact(m[11], kind == MCV_ACK, UINT8_MAX) && is_name(m[3], m[4], kind == MCV_RECEIVE_REQUEST, names, names_count) &&
           is_name(m[5], m[6], has_named, names, names_count);
}

uint32_t plain_write(const uint32_t *sheet, size_t sheet_count, const uint32_t *message, size_t message_count, const uint8_t *names, size_t names_count,
                     uint8_t *out, size_t out_count, uint32_t *written, size_t written_count)
{
    if (!is_sheet(sheet, sheet_count))
        return MCV_BAD_SHEET;
    if (!is_message(message, message_count, names, names_count))
        return MCV_BAD_MESSAGE;
    struct draft draft = {
        .kind = message[0],
        .ssrc = message[1],
        .ack = message[2],
        .user = names + message[3],
        .user_length = message[4],
        .named = names + message[5],
        .named_length = message[6],
        .result = message[7],
        .cause = message[8],
        .indicator = message[9],
        .source = message[10],
        .type = message[11],
    };
    return write_draft(sheet, &draft, out, out_count, written, written_count);
}
