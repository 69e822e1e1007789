/* The call sheet (document 01, "Call sheet"). */

/* Places of the sheet's numbers in its row. */
enum { SERVER, LIMIT, REQUEST, RESPONSE, END_REQUEST, END_RESPONSE, TX_END, TX_END_RESPONSE, ACK, RESULT_ID, SEATS, SSRCS };

#define MOST_SEATS 8
#define WIDTH 60

static bool is_visible(uint8_t octet)
{
    return octet >= 0x21 && octet <= 0x7E;
}

static bool is_user_id(const uint8_t *name, size_t length)
{
    if (length < 1 || length > WIDTH)
        return false;
    for (size_t i = 0; i < length; i++)
        if (!is_visible(name[i]))
            return false;
    return true;
}

static const uint8_t *user_of(const uint8_t *users, size_t seat)
{
    return users + seat * WIDTH;
}

static const uint8_t no_users[MCV_USERS];

/* How many octets the User ID in a row has; 0 where the row is not a User ID and then zeros. */
static size_t user_length(const uint8_t *row)
{
    size_t length = 0;
    while (length < WIDTH && is_visible(row[length]))
        length++;
    return memcmp(row + length, no_users, WIDTH - length) == 0 ? length : 0;
}

static bool is_user(const uint8_t *row, const uint8_t *name, size_t length)
{
    return memcmp(row, name, length) == 0 && (length == WIDTH || row[length] == 0);
}

/* The seat with this SSRC or with this User ID, or `seats`. */
static uint32_t seat_by_ssrc(const uint32_t *sheet, uint32_t seats, uint32_t ssrc)
{
    uint32_t seat = 0;
    while (seat < seats && sheet[SSRCS + seat] != ssrc)
        seat++;
    return seat;
}

static uint32_t seat_by_user(const uint8_t *users, uint32_t seats, const uint8_t *name, size_t length)
{
    uint32_t seat = 0;
    while (seat < seats && !is_user(user_of(users, seat), name, length))
        seat++;
    return seat;
}

/* Whether a number is none of those from one place on up to another. */
static bool is_new(const uint32_t *sheet, size_t from, size_t to)
{
    for (size_t i = from; i < to; i++)
        if (sheet[i] == sheet[to])
            return false;
    return true;
}

/* Whether some sheet reads to these numbers. */
static bool is_sheet(const uint32_t *sheet, size_t count)
{
    if (count != MCV_SHEET || sheet[LIMIT] < 1 || sheet[LIMIT] > MOST_SEATS || sheet[SEATS] < 1 || sheet[SEATS] > MOST_SEATS)
        return false;
    for (size_t i = REQUEST; i <= ACK; i++)
        if (sheet[i] > 15)
            return false;
    if (sheet[RESULT_ID] < 15 || sheet[RESULT_ID] > 191)
        return false;
    uint32_t taken = 0;
    for (size_t i = END_REQUEST; i <= ACK; i++) {
        uint32_t bit = UINT32_C(1) << sheet[i];
        if (taken & bit)
            return false;
        taken |= bit;
    }
    for (size_t i = 1; i < sheet[SEATS]; i++)
        if (!is_new(sheet, SSRCS, SSRCS + i))
            return false;
    for (size_t i = sheet[SEATS]; i < MOST_SEATS; i++)
        if (sheet[SSRCS + i] != 0)
            return false;
    return true;
}

/* Whether some sheet reads to these numbers and User IDs. */
static bool is_sheet_with(const uint32_t *sheet, size_t count, const uint8_t *users)
{
    if (!is_sheet(sheet, count))
        return false;
    for (size_t s = 0; s < sheet[SEATS]; s++) {
        const uint8_t *row = user_of(users, s);
        if (user_length(row) == 0)
            return false;
        for (size_t i = 0; i < s; i++)
            if (memcmp(user_of(users, i), row, WIDTH) == 0)
                return false;
    }
    size_t used = sheet[SEATS] * WIDTH;
    return memcmp(users + used, no_users, MCV_USERS - used) == 0;
}

/* ---- A sheet's text */

struct text {
    const uint8_t *at, *end;
};

static bool take_octet(struct text *text, uint8_t octet)
{
    if (text->at == text->end || *text->at != octet)
        return false;
    text->at++;
    return true;
}

static bool take_key(struct text *text, const char *key)
{
    size_t length = strlen(key);
    if ((size_t)(text->end - text->at) < length || memcmp(text->at, key, length) != 0)
        return false;
    text->at += length;
    return true;
}

/* A decimal without leading zeros. */
static bool take_number(struct text *text, uint32_t least, uint32_t greatest, uint32_t *number)
{
    const uint8_t *begin = text->at;
    uint64_t value = 0;
    while (text->at < text->end && *text->at >= '0' && *text->at <= '9') {
        value = value * 10 + (*text->at - '0');
        if (value > greatest)
            return false;
        text->at++;
    }
    size_t digits = (size_t)(text->at - begin);
    if (digits == 0 || (digits > 1 && *begin == '0') || value < least)
        return false;
    *number = (uint32_t)value;
    return true;
}

static const struct {
    const char *key;
    uint32_t least, greatest;
} lines[] = {
    { "server=", 0, UINT32_MAX }, { "limit=", 1, MOST_SEATS },  { "request=", 0, 15 },        { "response=", 0, 15 },
    { "endrequest=", 0, 15 },     { "endresponse=", 0, 15 },    { "txend=", 0, 15 },          { "txendresponse=", 0, 15 },
    { "ack=", 0, 15 },            { "resultid=", 15, 191 },     { "seats=", 1, MOST_SEATS },
};

static bool take_number_line(struct text *text, uint32_t *sheet, size_t at)
{
    return take_key(text, lines[at].key) && take_number(text, lines[at].least, lines[at].greatest, &sheet[at]) && take_octet(text, '\n') &&
           (at < END_REQUEST || at > ACK || is_new(sheet, END_REQUEST, at));
}

static bool take_seat_line(struct text *text, uint32_t *sheet, uint8_t *users, uint32_t seat)
{
    if (!take_key(text, "seat=") || !take_number(text, 0, UINT32_MAX, &sheet[SSRCS + seat]) || !take_octet(text, ','))
        return false;
    const uint8_t *name = text->at;
    while (text->at < text->end && is_visible(*text->at))
        text->at++;
    size_t length = (size_t)(text->at - name);
    if (length < 1 || length > WIDTH || !take_octet(text, '\n'))
        return false;
    if (!is_new(sheet, SSRCS, SSRCS + seat) || seat_by_user(users, seat, name, length) < seat)
        return false;
    memcpy(users + seat * WIDTH, name, length);
    return true;
}

uint32_t plain_sheet(const uint8_t *text, size_t text_count, uint32_t *sheet, size_t sheet_count, uint8_t users[MCV_USERS], uint32_t *used, size_t used_count)
{
    struct text rest = { text, text + text_count };
    uint32_t row[MCV_SHEET] = { 0 };
    uint8_t names[MCV_USERS] = { 0 };
    for (uint32_t i = 0; i < SSRCS; i++)
        if (!take_number_line(&rest, row, i))
            return MCV_BAD_SHEET + 256 * (i + 1);
    for (uint32_t s = 0; s < row[SEATS]; s++)
        if (!take_seat_line(&rest, row, names, s))
            return MCV_BAD_SHEET + 256 * (SSRCS + s + 1);
    if (sheet_count < MCV_SHEET || used_count < 1)
        return MCV_NO_ROOM;
    memcpy(sheet, row, sizeof row);
    memcpy(users, names, sizeof names);
    *used = (uint32_t)(rest.at - text);
    return 0;
}
