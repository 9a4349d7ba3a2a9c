/* Plavdrosa: the core of a Nostr relay, each call proved to do what is said of it.
 *
 * The calls stand in two static libraries, libcapi_relay.a and libcapi.a (made by `rt lib` in crates/capi_relay_c and crates/capi_c, and copied under
 * these names), which link beside each other and need memcpy and memset only.
 *
 * Every buffer is the caller's: no call allocates, keeps a pointer, or has a state of its own. A slice is a pointer and a length, in this order;
 * the length counts members, not bytes. A pointer is never NULL, also where its length is 0, and lies as its type wants.
 *
 * A call answers 0, or the number of what refuses it (enum plavdrosa_row). A count or a length is written to a lent number and never shares the
 * answer. On a refusal every lent buffer and every lent number stays as found, but for the number that is lent as offset. Output is written from
 * its start, and its rest stays.
 *
 * A call that is lent a message says where it is wrong if 6 or 7 refuses it: the offset is that of the earliest number (6) or string (7) in the
 * message that breaks the row, in bytes from its start, counted from 0. Of a number it is the first byte, the minus if it has one, of a string the
 * opening quote. Any other answer leaves the number that is lent for it as found, so a caller looks at it on 6 and 7 alone. Calls that are lent parts
 * give no offset.
 *
 * What is not checked: that a buffer which is written overlaps no other argument of the same call, that it has the length said, and that nobody
 * else uses it during the call.
 *
 * Strings are parts: a place in a buffer and a length, of what stands between the quotes, as spelled there. Lists are the place of their opening
 * bracket. Parts go in and out as rows of 64-bit numbers; signed numbers are their 64 bits, in two's complement.
 *
 * Every string may have control characters, those below U+0020. Five of them, 08 09 0A 0C 0D, have a short escape; the other 27 have none.
 *   In a message:        escaped, in the short form or as \u00XX with digits of either case. A raw one makes it no JSON (3).
 *   In an event's text:  the five in their short form, the 27 raw, one byte each. 00 is one of them, so a text is no C string.
 *   In what is lent:     as in a message, and the 27 also raw, in a part and in the strings of a list or an object. One of the five raw is
 *                        refused by 5.
 *   In a reply:          the five in their short form, the 27 as \u00 and two lower-case hex digits, so that it is JSON.
 * 7F is a character like any other.
 */
#ifndef PLAVDROSA_H
#define PLAVDROSA_H

#include <stddef.h>
#include <stdint.h>

#ifdef __cplusplus
extern "C" {
#endif

/* ---- Sizes. */

/* The most bytes of a message, without what ends its line. */
#define PLAVDROSA_MAX_MESSAGE 16384

/* The most bytes of an event's serialised text. */
#define PLAVDROSA_MAX_TEXT 4096

/* The most slots of a table. */
#define PLAVDROSA_MAX_CAPACITY 1024

/* The bytes of a table of n slots, 1 to PLAVDROSA_MAX_CAPACITY. The largest has 4.3 MB, for static memory or the heap. */
#define PLAVDROSA_TABLE_SIZE(n) ((size_t)16 + (size_t)(n) * 4208)

/* An output of so many bytes is never too short for plavdrosa_respond, plavdrosa_turn and plavdrosa_finish over a table of n slots: an EVENT with
 * its 0A has at most 24,827 bytes, where each byte of a text's strings is a control character that takes six, and any other reply 428. For
 * the largest table these are 25 MB: a caller that has less lends less, and answers a REQ by pieces (plavdrosa_list, plavdrosa_events). */
#define PLAVDROSA_OUTPUT_SIZE(n) ((size_t)(n) * 24827 + 428)

/* The least bytes of the line buffer of plavdrosa_turn: one more than a message has tells that a line is too long. */
#define PLAVDROSA_LINE_SIZE (PLAVDROSA_MAX_MESSAGE + 1)

/* The bytes of an id and of a digest. */
#define PLAVDROSA_ID_SIZE 32

/* The bytes of the state of a digest that is fed by pieces. */
#define PLAVDROSA_DIGEST_STATE_SIZE 104

/* ---- Answers. */

/* What refuses a call, beside the text of the reply that a client gets. Where several hold, the lowest is given; but
 * plavdrosa_format tests 14 before 13. */
enum plavdrosa_row {
    PLAVDROSA_DONE = 0,
    PLAVDROSA_TOO_LONG = 1,         /* message over PLAVDROSA_MAX_MESSAGE bytes; "invalid: message too long" */
    PLAVDROSA_NOT_UTF8 = 2,         /* "invalid: not UTF-8" */
    PLAVDROSA_NOT_JSON = 3,         /* no JSON, or more than 8 brackets and braces open at once; "invalid: not JSON" */
    PLAVDROSA_BAD_STRING = 4,       /* an unpaired surrogate; "invalid: string not allowed" */
    PLAVDROSA_WRONG_SHAPE = 5,      /* also a part outside its buffer, or no spelling of a string; "invalid: wrong shape" */
    PLAVDROSA_BAD_NUMBER = 6,       /* "invalid: number", and of a message " at " and the offset, as "invalid: number at 57" */
    PLAVDROSA_BAD_HEX = 7,          /* an id, pubkey, sig or member of ids, authors, #e or #p; "invalid: hex", " at " and the offset */
    PLAVDROSA_BAD_COUNT = 8,        /* a count out of bounds; "invalid: count or length" */
    PLAVDROSA_EVENT_TOO_LARGE = 9,  /* serialised text over PLAVDROSA_MAX_TEXT bytes; "invalid: event too large" */
    PLAVDROSA_WRONG_ID = 10,        /* id is not the SHA-256 of the text; "invalid: id does not match" */
    PLAVDROSA_BAD_TABLE = 11,       /* table not sound; "error: bad table" */
    PLAVDROSA_NO_ROOM = 12,         /* new slot needed, all in use; "error: no room" */
    PLAVDROSA_SHORT_OUTPUT = 13,    /* lent output, or a buffer to be formatted, too short; no reply */
    PLAVDROSA_NO_SLOT = 14          /* capacity outside 1 to PLAVDROSA_MAX_CAPACITY, or slot not held; no reply */
};

/* What an offer is answered where nothing refuses it. */
enum plavdrosa_verdict {
    PLAVDROSA_STORED = 0,           /* true, "" */
    PLAVDROSA_EPHEMERAL = 100,      /* not kept; true, "" */
    PLAVDROSA_DUPLICATE = 101,      /* its id is held; true, "duplicate: already have this event" */
    PLAVDROSA_OLDER = 102           /* a newer event with its key is held; true, "duplicate: have a newer version" */
};

/* What plavdrosa_match answers where nothing refuses it. */
enum plavdrosa_matched {
    PLAVDROSA_MATCHES = 0,
    PLAVDROSA_DIFFERS = 103
};

/* What a kind makes of an event. */
enum plavdrosa_kind_class {
    PLAVDROSA_CLASS_REGULAR = 0,
    PLAVDROSA_CLASS_REPLACEABLE = 1,
    PLAVDROSA_CLASS_EPHEMERAL = 2,
    PLAVDROSA_CLASS_ADDRESSABLE = 3
};

/* ---- Rows of numbers. */

/* The first number of a row that plavdrosa_read writes. */
enum plavdrosa_message {
    PLAVDROSA_EVENT = 1,
    PLAVDROSA_REQ = 2,
    PLAVDROSA_CLOSE = 3
};

/* A row of so many numbers has room for every message. */
#define PLAVDROSA_MESSAGE_NUMBERS 44

/* An EVENT. */
enum plavdrosa_event_index {
    PLAVDROSA_EVENT_ID = 1,
    PLAVDROSA_EVENT_ID_LEN = 2,
    PLAVDROSA_EVENT_PUBKEY = 3,
    PLAVDROSA_EVENT_PUBKEY_LEN = 4,
    PLAVDROSA_EVENT_CREATED_AT = 5, /* signed */
    PLAVDROSA_EVENT_KIND = 6,       /* signed */
    PLAVDROSA_EVENT_TAGS = 7,
    PLAVDROSA_EVENT_CONTENT = 8,
    PLAVDROSA_EVENT_CONTENT_LEN = 9,
    PLAVDROSA_EVENT_SIG = 10,
    PLAVDROSA_EVENT_SIG_LEN = 11,
    PLAVDROSA_EVENT_NUMBERS = 12
};

/* A REQ. Its filters follow, 1 to 4 of them: PLAVDROSA_FILTER(i) is where filter i begins, from 0 on. */
enum plavdrosa_req_index {
    PLAVDROSA_REQ_SUBSCRIPTION = 1,
    PLAVDROSA_REQ_SUBSCRIPTION_LEN = 2,
    PLAVDROSA_REQ_FILTERS = 3,      /* how many filters follow */
    PLAVDROSA_REQ_NUMBERS = 4
};

/* A filter, from where it begins. A list that is absent is 0. */
enum plavdrosa_filter_index {
    PLAVDROSA_FILTER_IDS = 0,
    PLAVDROSA_FILTER_AUTHORS = 1,
    PLAVDROSA_FILTER_KINDS = 2,
    PLAVDROSA_FILTER_HAS_SINCE = 3, /* 1, or 0 if there is none */
    PLAVDROSA_FILTER_SINCE = 4,     /* signed */
    PLAVDROSA_FILTER_HAS_UNTIL = 5,
    PLAVDROSA_FILTER_UNTIL = 6,     /* signed */
    PLAVDROSA_FILTER_HAS_LIMIT = 7,
    PLAVDROSA_FILTER_LIMIT = 8,     /* signed */
    PLAVDROSA_FILTER_CONDITIONS = 9, /* the place of the object whose # members are the conditions, or 0; of #e and #p all hex */
    PLAVDROSA_FILTER_NUMBERS = 10
};

#define PLAVDROSA_FILTER(i) (4 + (size_t)(i) * 10)

/* A CLOSE. */
enum plavdrosa_close_index {
    PLAVDROSA_CLOSE_SUBSCRIPTION = 1,
    PLAVDROSA_CLOSE_SUBSCRIPTION_LEN = 2,
    PLAVDROSA_CLOSE_NUMBERS = 3
};

/* A text that was read back. */
enum plavdrosa_text_index {
    PLAVDROSA_TEXT_CREATED_AT = 0,  /* signed */
    PLAVDROSA_TEXT_KIND = 1,
    PLAVDROSA_TEXT_TAGS = 2,
    PLAVDROSA_TEXT_CONTENT = 3,
    PLAVDROSA_TEXT_CONTENT_LEN = 4,
    PLAVDROSA_TEXT_D = 5,           /* d, whatever the kind; 0 if it is empty, as is its length */
    PLAVDROSA_TEXT_D_LEN = 6,
    PLAVDROSA_TEXT_NUMBERS = 7
};

/* The first number of the row that plavdrosa_reply takes. */
enum plavdrosa_reply_form {
    PLAVDROSA_REPLY_OK = 1,         /* an id, a reason, and whether the event is accepted */
    PLAVDROSA_REPLY_EVENT = 2,      /* a subscription id, then the twelve numbers of an EVENT as plavdrosa_read writes them */
    PLAVDROSA_REPLY_EOSE = 3,       /* a subscription id */
    PLAVDROSA_REPLY_CLOSED = 4,     /* a subscription id and a reason */
    PLAVDROSA_REPLY_NOTICE = 5      /* a reason, which stands where the others have their id */
};

enum plavdrosa_reply_index {
    PLAVDROSA_REPLY_FORM = 0,
    PLAVDROSA_REPLY_NAME = 1,       /* the id, the subscription id, or the reason of a NOTICE */
    PLAVDROSA_REPLY_NAME_LEN = 2,
    PLAVDROSA_REPLY_REASON = 3,     /* of an OK and a CLOSED */
    PLAVDROSA_REPLY_REASON_LEN = 4,
    PLAVDROSA_REPLY_ACCEPTED = 5,   /* of an OK: 0 for false, any other number for true */
    PLAVDROSA_REPLY_PARTS = 3,      /* where an EVENT's twelve numbers begin */
    PLAVDROSA_REPLY_NUMBERS = 15    /* an EVENT has so many, every other fewer */
};

/* ---- A relay in one call. */

/** Answer one message, and update the table.
 *
 *  Each reply is ended with 0A. A message that is refused is answered with the reply that it gets (NOTICE, OK with false, or CLOSED): the call
 *  itself is refused only by 13.
 *
 *  Returns: 0, or 13 if the output has no room for all that is to be written.
 *  In/Out:  table:   the table; as found on 13.
 *  In:      message: the message, without what ends its line.
 *  Out:     out:     the replies, from its start. PLAVDROSA_OUTPUT_SIZE(n) bytes are always enough; as found on 13.
 *           written: how many bytes they have; as found on 13.
 */
uint8_t plavdrosa_respond(uint8_t *table, size_t table_len, const uint8_t *message, size_t message_len, uint8_t *out, size_t out_len,
    size_t *written);

/** Feed a piece of the input up to its first line's end, and with it; answer the line that ends there.
 *
 *  Where the line so far has bytes and the piece has more of the line, only these are used up: they come behind it, and the next call, with the
 *  piece's rest, begins at the line's end and answers it. A caller begins with 0 in kept, and calls again with the piece's rest until it is used
 *  up; each call uses at least a byte. An overlong line gives one reply.
 *
 *  Returns: 0, or 13 if the line buffer has fewer than PLAVDROSA_LINE_SIZE bytes or the output has no room for the replies.
 *  In/Out:  table:   the table; as found on 13.
 *           line:    the line so far, in its first bytes; as found on 13.
 *           kept:    how many bytes it has; as found on 13.
 *  In:      piece:   some bytes of the input.
 *  Out:     out:     the replies, each ended with 0A; as found on 13.
 *           used:    how many bytes of the piece were used up; as found on 13.
 *           written: how many bytes the replies have; as found on 13.
 */
uint8_t plavdrosa_turn(uint8_t *table, size_t table_len, uint8_t *line, size_t line_len, size_t *kept, const uint8_t *piece, size_t piece_len,
    uint8_t *out, size_t out_len, size_t *used, size_t *written);

/** End the input: a last line without 0A is answered if it is not empty.
 *
 *  Returns: 0, or 13 if the output has no room for the replies.
 *  In/Out:  table:   the table; as found on 13.
 *  In:      line:    the line so far, in its first bytes.
 *           kept:    how many bytes it has.
 *  Out:     out:     the replies, each ended with 0A; as found on 13.
 *           written: how many bytes they have; as found on 13.
 */
uint8_t plavdrosa_finish(uint8_t *table, size_t table_len, const uint8_t *line, size_t line_len, size_t kept, uint8_t *out, size_t out_len,
    size_t *written);

/* ---- Messages. */

/** Test a text by rows 1 to 4.
 *
 *  Returns: the lowest of 1 to 4 that holds, or 0.
 *  In:      bytes: the text.
 */
uint8_t plavdrosa_text_row(const uint8_t *bytes, size_t bytes_len);

/** Test a client message by rows 1 to 8.
 *
 *  Returns: the lowest of 1 to 8 that holds, or 0.
 *  In:      bytes:  the message.
 *  Out:     offset: on 6 and 7 where the earliest number or string that breaks the row begins in the message; else as found.
 */
uint8_t plavdrosa_message_row(const uint8_t *bytes, size_t bytes_len, size_t *offset);

/** Read a client message.
 *
 *  Returns: the lowest of 1 to 8 that holds, 13 if the row has no room for the parts, or 0.
 *  In:      bytes:  the message.
 *  Out:     out:    its parts, as places in the message: 12 numbers of an EVENT, 4 and 10 a filter of a REQ, or 3 of a CLOSE; as found on a
 *                   refusal. PLAVDROSA_MESSAGE_NUMBERS are always enough.
 *           offset: as of plavdrosa_message_row.
 */
uint8_t plavdrosa_read(const uint8_t *bytes, size_t bytes_len, uint64_t *out, size_t out_len, size_t *offset);

/* ---- An event's text and id. */

/** Serialise an event: the text that is hashed. It may have zero bytes, so it is no C string.
 *
 *  Returns: the lowest of 2 and 4 to 9 that refuses the parts, 13 if the output has no room, or 0.
 *  In:      bytes: what the parts are places of.
 *           event: the numbers of an EVENT, as plavdrosa_read writes them; those of its id and signature are not looked at, and a number past
 *                  the row's end is 0.
 *  Out:     out:   the text, from its start; as found on a refusal. PLAVDROSA_MAX_TEXT bytes are always enough.
 *           len:   how many bytes it has; as found on a refusal.
 */
uint8_t plavdrosa_serialise(const uint8_t *bytes, size_t bytes_len, const uint64_t *event, size_t event_len, uint8_t *out, size_t out_len,
    size_t *len);

/** Read a serialised text back.
 *
 *  Returns: 9 if it has more than PLAVDROSA_MAX_TEXT bytes, 5 if it is no event's text byte for byte, 13 if the row has fewer than
 *           PLAVDROSA_TEXT_NUMBERS numbers, or 0.
 *  In:      bytes: the text.
 *  Out:     out:   its parts, as places in the text (the public key is always at 4, with 64 bytes); as found on a refusal.
 */
uint8_t plavdrosa_read_text(const uint8_t *bytes, size_t bytes_len, uint64_t *out, size_t out_len);

/** Compute an event's id.
 *
 *  Returns: the lowest of 2 and 4 to 9 that refuses the parts, 13 if the output has fewer than 32 bytes, or 0.
 *  In:      bytes, event: as of plavdrosa_serialise.
 *  Out:     out:          the id, in its first 32 bytes; as found on a refusal.
 */
uint8_t plavdrosa_id(const uint8_t *bytes, size_t bytes_len, const uint64_t *event, size_t event_len, uint8_t *out, size_t out_len);

/** Compute a SHA-256.
 *
 *  Returns: 8 if there are more than 2^61 - 1 bytes, 13 if the output has fewer than 32, or 0.
 *  In:      bytes: what is hashed.
 *  Out:     out:   the digest, in its first 32 bytes; as found on a refusal.
 */
uint8_t plavdrosa_digest(const uint8_t *bytes, size_t bytes_len, uint8_t *out, size_t out_len);

/** Start a SHA-256 that is fed by pieces.
 *
 *  A state is PLAVDROSA_DIGEST_STATE_SIZE bytes: the hash value, the block that is being filled, and how many bytes were fed, the most significant
 *  byte first. Any bytes are some state. It may be copied, kept in a file, and gone on with from any copy; bytes behind it are not looked at, and stay.
 *
 *  Returns: 13 if the state has fewer bytes, or 0.
 *  Out:     state: the state of nothing fed; as found on a refusal.
 */
uint8_t plavdrosa_digest_start(uint8_t *state, size_t state_len);

/** Feed a piece.
 *
 *  Returns: 13 if the state has fewer bytes than PLAVDROSA_DIGEST_STATE_SIZE, 8 if more than 2^61 - 1 bytes would be fed in all, or 0.
 *  In/Out:  state: the state; as found on a refusal.
 *  In:      bytes: the piece.
 */
uint8_t plavdrosa_digest_update(uint8_t *state, size_t state_len, const uint8_t *bytes, size_t bytes_len);

/** Compute the SHA-256 of all pieces. The state stays, and may be fed on.
 *
 *  Returns: 13 if the state has fewer bytes than PLAVDROSA_DIGEST_STATE_SIZE, 8 if it counts more than 2^61 - 1 bytes, 13 if the output has fewer
 *           than 32, or 0.
 *  In:      state: the state.
 *  Out:     out:   the digest, in its first 32 bytes; as found on a refusal.
 */
uint8_t plavdrosa_digest_finish(const uint8_t *state, size_t state_len, uint8_t *out, size_t out_len);

/** Tell the class of a kind. It refuses none.
 *
 *  Returns: an enum plavdrosa_kind_class.
 *  In:      kind: the kind.
 */
uint8_t plavdrosa_class(uint16_t kind);

/* ---- A table. */

/** Format a buffer as a table without events.
 *
 *  Returns: 14 if the capacity is not 1 to PLAVDROSA_MAX_CAPACITY, 13 if the buffer has fewer than PLAVDROSA_TABLE_SIZE(capacity) bytes, or 0.
 *  Out:     table:    the table; bytes behind its last slot stay. As found on a refusal.
 *  In:      capacity: how many slots it gets.
 */
uint8_t plavdrosa_format(uint8_t *table, size_t table_len, size_t capacity);

/** Test whether a table is sound. The calls that use its events do so themselves.
 *
 *  Returns: 11 if it is not, or 0.
 *  In:      table: the table.
 */
uint8_t plavdrosa_sound(const uint8_t *table, size_t table_len);

/** Offer an event to a table, as a message.
 *
 *  Returns: an enum plavdrosa_verdict, or the lowest of 1 to 12 that refuses it (5 also if the message is no EVENT).
 *  In/Out:  table:   the table; as found unless the answer is PLAVDROSA_STORED.
 *  In:      message: the message.
 *  Out:     offset:  as of plavdrosa_message_row.
 */
uint8_t plavdrosa_offer(uint8_t *table, size_t table_len, const uint8_t *message, size_t message_len, size_t *offset);

/** Offer an event to a table, as parts. No refusal of parts has an offset.
 *
 *  Returns: an enum plavdrosa_verdict, or the lowest of 2 and 4 to 12 that refuses it.
 *  In/Out:  table: the table; as found unless the answer is PLAVDROSA_STORED.
 *  In:      bytes: what the parts are places of.
 *           event: the numbers of an EVENT, as plavdrosa_read writes them; a number past the row's end is 0.
 */
uint8_t plavdrosa_offer_parts(uint8_t *table, size_t table_len, const uint8_t *bytes, size_t bytes_len, const uint64_t *event, size_t event_len);

/** Tell what plavdrosa_offer would answer, without storing.
 *
 *  Returns: as plavdrosa_offer.
 *  In:      table:   the table.
 *           message: the message.
 *  Out:     offset:  as of plavdrosa_message_row.
 */
uint8_t plavdrosa_judge(const uint8_t *table, size_t table_len, const uint8_t *message, size_t message_len, size_t *offset);

/** Show the text of a slot: where it stands in the table. It may have zero bytes.
 *
 *  Returns: 11, 14 if the slot is not held, or 0.
 *  In:      table: the table.
 *           slot:  the slot's number, from 0 on.
 *  Out:     place: where in the table the text begins; as found on a refusal.
 *           len:   how many bytes it has; as found on a refusal.
 */
uint8_t plavdrosa_show(const uint8_t *table, size_t table_len, size_t slot, size_t *place, size_t *len);

/* ---- Filters. */

/** Tell whether an event matches some of a REQ's filters.
 *
 *  Returns: an enum plavdrosa_matched, or the lowest of 2 and 4 to 9 that refuses the parts of the event or of the filters.
 *  In:      bytes:   what the event's parts are places of.
 *           event:   the numbers of an EVENT, as plavdrosa_read writes them; a number past the row's end is 0.
 *           message: what the filters' parts are places of.
 *           request: the numbers of a REQ, as plavdrosa_read writes them; a number past the row's end is 0.
 */
uint8_t plavdrosa_match(const uint8_t *bytes, size_t bytes_len, const uint64_t *event, size_t event_len, const uint8_t *message, size_t message_len,
    const uint64_t *request, size_t request_len);

/** List the slots that a REQ is answered with, newest first.
 *
 *  Returns: the lowest of 2 and 4 to 8 that refuses the filters, 11, 13 if the row has no room for them, or 0.
 *  In:      table:   the table.
 *           message: what the filters' parts are places of.
 *           request: the numbers of a REQ, as plavdrosa_read writes them; a number past the row's end is 0.
 *  Out:     row:     the slots' numbers, each once; as found on a refusal. As many as the table has slots are always enough, so
 *                    PLAVDROSA_MAX_CAPACITY for any table.
 *           count:   how many they are; as found on a refusal.
 */
uint8_t plavdrosa_list(const uint8_t *table, size_t table_len, const uint8_t *message, size_t message_len, const uint64_t *request,
    size_t request_len, uint16_t *row, size_t row_len, size_t *count);

/* ---- Replies, without the 0A that ends a line unless said. */

/** Write the reply that a refused message gets: NOTICE for rows 1 to 5; for later ones OK with false if the message is an EVENT whose id is 64
 *  lower-case hex characters, CLOSED if it is a REQ whose subscription id is within bounds, or else NOTICE.
 *
 *  Returns: 13 if the output has no room, or 0.
 *  In:      message: the message.
 *           row:     what refused it. A row without a text, as 0 and 13 and later, gives an empty reason. 6 and 7 give the offset too if the
 *                    row is the one that plavdrosa_message_row answers for the message, and else their text alone.
 *  Out:     out:     the reply, from its start; as found on 13.
 *           written: how many bytes it has; as found on 13.
 */
uint8_t plavdrosa_refused(const uint8_t *message, size_t message_len, uint8_t row, uint8_t *out, size_t out_len, size_t *written);

/** Write the EVENT of a slot.
 *
 *  Returns: the lowest of 2, 4, 5 and 8 that refuses the subscription id, 11, 14 if the slot is not held, 13 if the output has no room, or 0.
 *  In:      table:                          the table.
 *           slot:                           the slot's number, from 0 on.
 *           message:                        what the subscription id is a part of.
 *           subscription, subscription_len: that part.
 *  Out:     out:                            the reply, from its start; as found on a refusal. PLAVDROSA_OUTPUT_SIZE(1) bytes are always enough.
 *           written:                        how many bytes it has; as found on a refusal.
 */
uint8_t plavdrosa_slot_event(const uint8_t *table, size_t table_len, size_t slot, const uint8_t *message, size_t message_len, size_t subscription,
    size_t subscription_len, uint8_t *out, size_t out_len, size_t *written);

/** Write the EVENTs of some slots, each ended with 0A: as many as fit whole, from the first on.
 *
 *  Returns: the lowest of 2, 4, 5 and 8 that refuses the subscription id, 11, 13 if there is no room for even the first, 14 if some slot is not
 *           held, or 0.
 *  In:      table:                          the table.
 *           slots:                          the slots' numbers, as plavdrosa_list writes them.
 *           message:                        what the subscription id is a part of.
 *           subscription, subscription_len: that part.
 *  Out:     out:                            the replies, from its start; as found on a refusal.
 *           written:                        how many bytes they have; as found on a refusal.
 *           sent:                           of how many slots they are; as found on a refusal.
 */
uint8_t plavdrosa_events(const uint8_t *table, size_t table_len, const uint16_t *slots, size_t slots_len, const uint8_t *message, size_t message_len,
    size_t subscription, size_t subscription_len, uint8_t *out, size_t out_len, size_t *written, size_t *sent);

/** Write a reply of parts.
 *
 *  Returns: 5 if the first number is no enum plavdrosa_reply_form, else the lowest of 2 and 4 to 9 that refuses the parts, 13 if the output has no
 *           room, or 0.
 *  In:      bytes:   what the parts are places of.
 *           reply:   the numbers of the reply (enum plavdrosa_reply_index); a number past the row's end is 0.
 *  Out:     out:     the reply, from its start; as found on a refusal.
 *           written: how many bytes it has; as found on a refusal.
 */
uint8_t plavdrosa_reply(const uint8_t *bytes, size_t bytes_len, const uint64_t *reply, size_t reply_len, uint8_t *out, size_t out_len,
    size_t *written);

#ifdef __cplusplus
}
#endif

#endif
