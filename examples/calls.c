/* Each call of the header once, from C99 and from C++: that it links, and that it answers what the header says; where a message is wrong; and a
 * table moved to a larger one. */
#include <stdio.h>
#include <string.h>

#include "plavdrosa.h"

#define A16 "aaaaaaaaaaaaaaaa"
#define A64 A16 A16 A16 A16
#define ZEROS "00000000000000000000000000000000"
#define ID "afb4d2ec38e45c400ca1b20a5691096d08c2f75986c44f89567e1c4bc5091f3a"

static const char event[] = "[\"EVENT\",{\"id\":\"" ID "\",\"pubkey\":\"" A64 "\",\"created_at\":-7200,\"kind\":30078,"
    "\"tags\":[[\"d\",\"floor-3/tile-17\"]],\"content\":\"corridor\",\"sig\":\"" ZEROS ZEROS ZEROS ZEROS "\"}]";
static const char text[] = "[0,\"" A64 "\",-7200,30078,[[\"d\",\"floor-3/tile-17\"]],\"corridor\"]";
static const char other[] = "[\"REQ\",\"s\",{\"kinds\":[1]}]";
static const char req[] = "[\"REQ\",\"s\",{\"kinds\":[30078],\"limit\":1}]";

static uint8_t table[PLAVDROSA_TABLE_SIZE(2)];
static uint8_t out[PLAVDROSA_OUTPUT_SIZE(2)];
static uint8_t line[PLAVDROSA_LINE_SIZE];
static uint8_t larger[PLAVDROSA_TABLE_SIZE(PLAVDROSA_MAX_CAPACITY)];
static uint64_t e[PLAVDROSA_EVENT_NUMBERS];
static uint64_t r[PLAVDROSA_MESSAGE_NUMBERS];
static uint64_t o[PLAVDROSA_MESSAGE_NUMBERS];
static size_t at;
static int wrong;

/* A string as a slice, without its final zero. */
#define BYTES(s) (const uint8_t *)(s), strlen(s)

static void expect(int answer, int number, const char *call) {
    if (answer != number) {
        printf("%s answered %d, not %d\n", call, answer, number);
        wrong = 1;
    }
}

#define EXPECT(call, number) expect((int)(call), (number), #call)

/* Whether the first bytes of the output are a string's. */
static int is(size_t written, const char *s) {
    return written == strlen(s) && memcmp(out, s, written) == 0;
}

static void texts(void) {
    size_t n = 0;
    uint64_t t[PLAVDROSA_TEXT_NUMBERS];
    EXPECT(plavdrosa_text_row(BYTES("[1")), PLAVDROSA_NOT_JSON);
    EXPECT(plavdrosa_text_row(BYTES("\"\\ud800\"")), PLAVDROSA_BAD_STRING);
    EXPECT(plavdrosa_text_row(BYTES("\"\\u0001\"")), PLAVDROSA_DONE);
    EXPECT(plavdrosa_text_row(BYTES("\"\001\"")), PLAVDROSA_NOT_JSON);
    EXPECT(plavdrosa_message_row(BYTES("[1]"), &at), PLAVDROSA_WRONG_SHAPE);
    EXPECT(plavdrosa_message_row(BYTES("[\"REQ\",\"s\",{\"#E\":[\"5c83\"]}]"), &at), PLAVDROSA_DONE);
    EXPECT(plavdrosa_read(BYTES(event), e, PLAVDROSA_EVENT_NUMBERS, &at), PLAVDROSA_DONE);
    EXPECT(e[0] == PLAVDROSA_EVENT && (int64_t)e[PLAVDROSA_EVENT_CREATED_AT] == -7200, 1);
    EXPECT(plavdrosa_read(BYTES(req), r, PLAVDROSA_MESSAGE_NUMBERS, &at), PLAVDROSA_DONE);
    EXPECT(plavdrosa_read(BYTES(other), o, PLAVDROSA_MESSAGE_NUMBERS, &at), PLAVDROSA_DONE);
    EXPECT(r[0] == PLAVDROSA_REQ && r[PLAVDROSA_REQ_FILTERS] == 1 && r[PLAVDROSA_FILTER(0) + PLAVDROSA_FILTER_LIMIT] == 1, 1);
    EXPECT(plavdrosa_serialise(BYTES(event), e, PLAVDROSA_EVENT_NUMBERS, out, sizeof out, &n), PLAVDROSA_DONE);
    EXPECT(is(n, text), 1);
    EXPECT(plavdrosa_read_text(BYTES(text), t, PLAVDROSA_TEXT_NUMBERS), PLAVDROSA_DONE);
    EXPECT(t[PLAVDROSA_TEXT_KIND], 30078);
    EXPECT(plavdrosa_id(BYTES(event), e, PLAVDROSA_EVENT_NUMBERS, out, PLAVDROSA_ID_SIZE), PLAVDROSA_DONE);
    EXPECT(out[0] == 0xaf && out[31] == 0x3a, 1);
    EXPECT(plavdrosa_digest(BYTES(text), out, PLAVDROSA_ID_SIZE), PLAVDROSA_DONE);
    EXPECT(out[0] == 0xaf && out[31] == 0x3a, 1);
    EXPECT(plavdrosa_class(30078), PLAVDROSA_CLASS_ADDRESSABLE);
}

/* Where a message is wrong: on 6 and 7 the offset points at the number or at the string's opening quote, and on any other answer it stays. */
static void places(void) {
    static const char hex[] = "[\"REQ\",\"s\",{\"#e\":[\"5c83\"]}]", number[] = "[\"REQ\",\"\303\251\",{\"ids\":[\"5c83\"],\"limit\":-1}]";
    static char timed[sizeof event];
    char *time;
    size_t offset = 7, n = 0;
    EXPECT(plavdrosa_message_row(BYTES(event), &offset), PLAVDROSA_DONE);
    EXPECT(plavdrosa_message_row(BYTES("[\"REQ\",\"\",{}]"), &offset), PLAVDROSA_BAD_COUNT);
    EXPECT(plavdrosa_read(BYTES(event), o, 1, &offset), PLAVDROSA_SHORT_OUTPUT);
    EXPECT(offset, 7);
    EXPECT(plavdrosa_message_row(BYTES(hex), &offset), PLAVDROSA_BAD_HEX);
    EXPECT(memcmp(hex + offset, "\"5c83\"", 6), 0);
    EXPECT(plavdrosa_read(BYTES(number), o, PLAVDROSA_MESSAGE_NUMBERS, &offset), PLAVDROSA_BAD_NUMBER);
    EXPECT(strcmp(number + offset, "-1}]"), 0);
    EXPECT(plavdrosa_refused(BYTES(hex), PLAVDROSA_BAD_HEX, out, sizeof out, &n), PLAVDROSA_DONE);
    EXPECT(is(n, "[\"CLOSED\",\"s\",\"invalid: hex at 18\"]"), 1);
    EXPECT(plavdrosa_refused(BYTES(hex), PLAVDROSA_BAD_NUMBER, out, sizeof out, &n), PLAVDROSA_DONE);
    EXPECT(is(n, "[\"CLOSED\",\"s\",\"invalid: number\"]"), 1);
    /* an offer: the event with a fraction for its time; a REQ is no EVENT, and 5 has no offset */
    strcpy(timed, event);
    time = strstr(timed, "-7200");
    memcpy(time, "-7.20", 5);
    EXPECT(plavdrosa_format(table, sizeof table, 2), PLAVDROSA_DONE);
    EXPECT(plavdrosa_offer(table, sizeof table, BYTES(timed), &offset), PLAVDROSA_BAD_NUMBER);
    EXPECT(offset == (size_t)(time - timed), 1);
    offset = 7;
    EXPECT(plavdrosa_judge(table, sizeof table, BYTES(timed), &offset), PLAVDROSA_BAD_NUMBER);
    EXPECT(offset == (size_t)(time - timed), 1);
    offset = 7;
    EXPECT(plavdrosa_offer(table, sizeof table, BYTES(hex), &offset), PLAVDROSA_WRONG_SHAPE);
    EXPECT(offset, 7);
    memset(table, 0, sizeof table);
}

/* The digest of the text, cut anywhere. */
static void pieces(void) {
    uint8_t state[PLAVDROSA_DIGEST_STATE_SIZE + 1];
    size_t cut;
    state[PLAVDROSA_DIGEST_STATE_SIZE] = 7;
    EXPECT(plavdrosa_digest_start(state, PLAVDROSA_DIGEST_STATE_SIZE - 1), PLAVDROSA_SHORT_OUTPUT);
    for (cut = 0; cut <= strlen(text); cut++) {
        EXPECT(plavdrosa_digest_start(state, sizeof state), PLAVDROSA_DONE);
        EXPECT(plavdrosa_digest_update(state, sizeof state, (const uint8_t *)text, cut), PLAVDROSA_DONE);
        EXPECT(plavdrosa_digest_update(state, sizeof state, (const uint8_t *)text + cut, strlen(text) - cut), PLAVDROSA_DONE);
        EXPECT(plavdrosa_digest_finish(state, sizeof state, out, PLAVDROSA_ID_SIZE), PLAVDROSA_DONE);
        EXPECT(out[0] == 0xaf && out[31] == 0x3a && state[PLAVDROSA_DIGEST_STATE_SIZE] == 7, 1);
    }
    EXPECT(plavdrosa_digest_finish(state, sizeof state, out, PLAVDROSA_ID_SIZE - 1), PLAVDROSA_SHORT_OUTPUT);
    EXPECT(plavdrosa_digest_update(state, PLAVDROSA_DIGEST_STATE_SIZE - 1, BYTES("a")), PLAVDROSA_SHORT_OUTPUT);
    EXPECT(plavdrosa_digest_finish(state, sizeof state, out, PLAVDROSA_ID_SIZE), PLAVDROSA_DONE);
    EXPECT(out[0] == 0xaf && out[31] == 0x3a, 1);
    memset(state + 96, 0xff, 8);
    EXPECT(plavdrosa_digest_update(state, sizeof state, BYTES("")), PLAVDROSA_BAD_COUNT);
    EXPECT(plavdrosa_digest_finish(state, sizeof state, out, PLAVDROSA_ID_SIZE), PLAVDROSA_BAD_COUNT);
}

static void tables(void) {
    size_t place = 0, n = 0;
    uint16_t slots[PLAVDROSA_MAX_CAPACITY];
    EXPECT(plavdrosa_sound(table, sizeof table), PLAVDROSA_BAD_TABLE);
    EXPECT(plavdrosa_format(table, sizeof table, PLAVDROSA_MAX_CAPACITY + 1), PLAVDROSA_NO_SLOT);
    EXPECT(plavdrosa_format(table, sizeof table, 3), PLAVDROSA_SHORT_OUTPUT);
    EXPECT(plavdrosa_format(table, sizeof table, 2), PLAVDROSA_DONE);
    EXPECT(plavdrosa_sound(table, sizeof table), PLAVDROSA_DONE);
    EXPECT(plavdrosa_judge(table, sizeof table, BYTES(event), &at), PLAVDROSA_STORED);
    EXPECT(plavdrosa_offer(table, sizeof table, BYTES(event), &at), PLAVDROSA_STORED);
    EXPECT(plavdrosa_offer_parts(table, sizeof table, BYTES(event), e, PLAVDROSA_EVENT_NUMBERS), PLAVDROSA_DUPLICATE);
    EXPECT(plavdrosa_show(table, sizeof table, 1, &place, &n), PLAVDROSA_NO_SLOT);
    EXPECT(plavdrosa_show(table, sizeof table, 0, &place, &n), PLAVDROSA_DONE);
    EXPECT(n == strlen(text) && memcmp(table + place, text, n) == 0, 1);
    EXPECT(plavdrosa_match(BYTES(event), e, PLAVDROSA_EVENT_NUMBERS, BYTES(req), r, PLAVDROSA_MESSAGE_NUMBERS), PLAVDROSA_MATCHES);
    EXPECT(plavdrosa_match(BYTES(event), e, PLAVDROSA_EVENT_NUMBERS, BYTES(other), o, PLAVDROSA_MESSAGE_NUMBERS), PLAVDROSA_DIFFERS);
    EXPECT(plavdrosa_match(BYTES(event), e, PLAVDROSA_EVENT_NUMBERS, BYTES(req), r, 0), PLAVDROSA_BAD_COUNT);
    EXPECT(plavdrosa_list(table, sizeof table, BYTES(req), r, PLAVDROSA_MESSAGE_NUMBERS, slots, PLAVDROSA_MAX_CAPACITY, &n), PLAVDROSA_DONE);
    EXPECT(n == 1 && slots[0] == 0, 1);
}

static void replies(void) {
    size_t n = 0, sent = 0, kept = 0, used = 0;
    const uint16_t slots[1] = {0};
    const uint64_t eose[3] = {PLAVDROSA_REPLY_EOSE, 0, 1}, controls[3] = {PLAVDROSA_REPLY_EOSE, 0, 7};
    EXPECT(plavdrosa_reply(BYTES("s"), eose, 3, out, sizeof out, &n), PLAVDROSA_DONE);
    EXPECT(is(n, "[\"EOSE\",\"s\"]"), 1);
    EXPECT(plavdrosa_reply(BYTES("\037\\u001F"), controls, 3, out, sizeof out, &n), PLAVDROSA_DONE);
    EXPECT(is(n, "[\"EOSE\",\"\\u001f\\u001f\"]"), 1);
    EXPECT(plavdrosa_refused(BYTES("[\"CLOSE\",\"\"]"), PLAVDROSA_BAD_COUNT, out, sizeof out, &n), PLAVDROSA_DONE);
    EXPECT(is(n, "[\"NOTICE\",\"invalid: count or length\"]"), 1);
    EXPECT(plavdrosa_slot_event(table, sizeof table, 0, BYTES("s"), 0, 1, out, sizeof out, &n), PLAVDROSA_DONE);
    EXPECT(memcmp(out, "[\"EVENT\",\"s\",{\"id\":\"" ID, 84), 0);
    EXPECT(plavdrosa_events(table, sizeof table, slots, 1, BYTES("s"), 0, 1, out, sizeof out, &n, &sent), PLAVDROSA_DONE);
    EXPECT(sent == 1 && out[n - 1] == '\n', 1);
    EXPECT(plavdrosa_respond(table, sizeof table, BYTES(event), out, sizeof out, &n), PLAVDROSA_DONE);
    EXPECT(is(n, "[\"OK\",\"" ID "\",true,\"duplicate: already have this event\"]\n"), 1);
    EXPECT(plavdrosa_turn(table, sizeof table, line, sizeof line, &kept, BYTES("{}\n["), out, sizeof out, &used, &n), PLAVDROSA_DONE);
    EXPECT(used == 3 && kept == 0 && is(n, "[\"NOTICE\",\"invalid: wrong shape\"]\n"), 1);
    EXPECT(plavdrosa_turn(table, sizeof table, line, sizeof line, &kept, BYTES("["), out, sizeof out, &used, &n), PLAVDROSA_DONE);
    EXPECT(used == 1 && kept == 1 && n == 0, 1);
    EXPECT(plavdrosa_finish(table, sizeof table, line, sizeof line, kept, out, sizeof out, &n), PLAVDROSA_DONE);
    EXPECT(is(n, "[\"NOTICE\",\"invalid: not JSON\"]\n"), 1);
}

/* The longest message and one of a byte more, filled with spaces: tested, and as lines. */
static void lengths(void) {
    static uint8_t message[PLAVDROSA_MAX_MESSAGE + 1];
    size_t kept = 0, used = 0, n = 0;
    memset(message, ' ', sizeof message);
    memcpy(message, "[\"CLOSE\",\"s\"]", 13);
    EXPECT(plavdrosa_message_row(message, sizeof message - 1, &at), PLAVDROSA_DONE);
    EXPECT(plavdrosa_message_row(message, sizeof message, &at), PLAVDROSA_TOO_LONG);
    EXPECT(plavdrosa_turn(table, sizeof table, line, sizeof line - 1, &kept, message, 1, out, sizeof out, &used, &n), PLAVDROSA_SHORT_OUTPUT);
    EXPECT(plavdrosa_turn(table, sizeof table, line, sizeof line, &kept, message, sizeof message - 1, out, sizeof out, &used, &n), PLAVDROSA_DONE);
    EXPECT(plavdrosa_finish(table, sizeof table, line, sizeof line, kept, out, sizeof out, &n), PLAVDROSA_DONE);
    EXPECT(kept == PLAVDROSA_MAX_MESSAGE && n == 0, 1);
    EXPECT(plavdrosa_turn(table, sizeof table, line, sizeof line, &kept, BYTES(" "), out, sizeof out, &used, &n), PLAVDROSA_DONE);
    EXPECT(plavdrosa_finish(table, sizeof table, line, sizeof line, kept, out, sizeof out, &n), PLAVDROSA_DONE);
    EXPECT(is(n, "[\"NOTICE\",\"invalid: message too long\"]\n"), 1);
}

/* Offers the event of a slot to the larger table, as parts: its text, and behind it its EVENT, which has id and signature in hex. */
static uint8_t moved(size_t slot) {
    static uint8_t bytes[PLAVDROSA_MAX_TEXT + PLAVDROSA_OUTPUT_SIZE(1)];
    uint64_t t[PLAVDROSA_TEXT_NUMBERS], p[PLAVDROSA_EVENT_NUMBERS];
    size_t place = 0, len = 0, n = 0;
    uint8_t row = plavdrosa_show(table, sizeof table, slot, &place, &len);
    if (row != PLAVDROSA_DONE)
        return row;
    memcpy(bytes, table + place, len);
    EXPECT(plavdrosa_read_text(bytes, len, t, PLAVDROSA_TEXT_NUMBERS), PLAVDROSA_DONE);
    EXPECT(plavdrosa_slot_event(table, sizeof table, slot, BYTES("s"), 0, 1, bytes + len, sizeof bytes - len, &n), PLAVDROSA_DONE);
    p[0] = PLAVDROSA_EVENT;
    p[PLAVDROSA_EVENT_ID] = len + strlen("[\"EVENT\",\"s\",{\"id\":\"");
    p[PLAVDROSA_EVENT_ID_LEN] = 64;
    p[PLAVDROSA_EVENT_PUBKEY] = 4;
    p[PLAVDROSA_EVENT_PUBKEY_LEN] = 64;
    p[PLAVDROSA_EVENT_CREATED_AT] = t[PLAVDROSA_TEXT_CREATED_AT];
    p[PLAVDROSA_EVENT_KIND] = t[PLAVDROSA_TEXT_KIND];
    p[PLAVDROSA_EVENT_TAGS] = t[PLAVDROSA_TEXT_TAGS];
    p[PLAVDROSA_EVENT_CONTENT] = t[PLAVDROSA_TEXT_CONTENT];
    p[PLAVDROSA_EVENT_CONTENT_LEN] = t[PLAVDROSA_TEXT_CONTENT_LEN];
    p[PLAVDROSA_EVENT_SIG] = len + n - strlen("\"}]") - 128;
    p[PLAVDROSA_EVENT_SIG_LEN] = 128;
    return plavdrosa_offer_parts(larger, sizeof larger, bytes, len + n, p, PLAVDROSA_EVENT_NUMBERS);
}

/* The table moves to one of the most slots: each held slot from the first on, and ends there as it was. */
static void move(void) {
    size_t slot = 0;
    uint8_t row;
    EXPECT(plavdrosa_format(larger, sizeof larger, PLAVDROSA_MAX_CAPACITY + 1), PLAVDROSA_NO_SLOT);
    EXPECT(plavdrosa_format(larger, sizeof larger - 1, PLAVDROSA_MAX_CAPACITY), PLAVDROSA_SHORT_OUTPUT);
    EXPECT(plavdrosa_format(larger, sizeof larger, PLAVDROSA_MAX_CAPACITY), PLAVDROSA_DONE);
    while ((row = moved(slot)) == PLAVDROSA_STORED)
        slot++;
    EXPECT(row, PLAVDROSA_NO_SLOT);
    EXPECT(slot, 1);
    EXPECT(memcmp(larger + 16, table + 16, sizeof table - 16), 0);
    EXPECT(plavdrosa_sound(larger, sizeof larger), PLAVDROSA_DONE);
}

int main(void) {
    texts();
    places();
    pieces();
    tables();
    replies();
    lengths();
    move();
    return wrong;
}
