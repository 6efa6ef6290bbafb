/* chp_exports.h - what chp.h rests on: the functions of the archive, and the bodies of the functions in chp.h. Hosts
 * include chp.h, and need not read this.
 *
 * The archive takes and gives numbers, pointers to bytes with their length, and pointers to arrays of numbers of a
 * fixed length. No struct is passed by value, so that the same declarations serve every platform. The arrays of a state
 * are lent, and so is its header, as an array of numbers; a call that changes the state writes them. Each call writes
 * its answer as four numbers. Arrays of 64-bit numbers are aligned to 8 bytes.
 */
#ifndef CHP_EXPORTS_H
#define CHP_EXPORTS_H

#include "chp.h"

#ifdef __cplusplus
extern "C" {
#endif

/* ---- What the archive exports ---- */

void chp_lent_server_start(uint8_t *rows, uint64_t *lengths, uint64_t *stamps, uint64_t *header,
    uint64_t number, uint64_t tick, uint64_t *answer);
void chp_lent_server_kvset(uint8_t *rows, uint64_t *lengths, uint64_t *stamps, uint64_t *header,
    const uint8_t *msg, size_t msg_len, uint64_t tick, uint8_t *out, size_t out_len, uint64_t *answer);
void chp_lent_server_tick(uint8_t *rows, uint64_t *lengths, uint64_t *stamps, uint64_t *header,
    uint64_t tick, uint8_t *out, size_t out_len, uint64_t *answer);
void chp_lent_server_icanhaz(const uint8_t *rows, const uint64_t *lengths, const uint64_t *stamps,
    const uint64_t *header, const uint8_t *msg, size_t msg_len, uint8_t *out, size_t out_len, uint64_t *answer);

void chp_lent_client_start(uint8_t *rows, uint64_t *lengths, uint8_t *subtree, uint64_t *header,
    const uint8_t *wanted, size_t wanted_len, uint64_t tick, uint64_t *answer);
void chp_lent_client_snapshot(uint8_t *rows, uint64_t *lengths, const uint8_t *subtree, uint64_t *header,
    const uint8_t *msg, size_t msg_len, uint64_t *answer);
void chp_lent_client_subscriber(uint8_t *rows, uint64_t *lengths, const uint8_t *subtree, uint64_t *header,
    const uint8_t *msg, size_t msg_len, uint64_t tick, uint64_t *answer);
void chp_lent_client_write_icanhaz(const uint8_t *rows, const uint64_t *lengths, const uint8_t *subtree,
    const uint64_t *header, uint8_t *out, size_t out_len, uint64_t *answer);
void chp_lent_client_write_kvset(const uint8_t *rows, const uint64_t *lengths, const uint8_t *subtree,
    const uint64_t *header, const uint8_t *key, size_t key_len, const uint8_t *uuid, size_t uuid_len,
    const uint8_t *properties, size_t properties_len, const uint8_t *value, size_t value_len,
    uint8_t *out, size_t out_len, uint64_t *answer);
void chp_lent_client_ask(const uint8_t *rows, const uint64_t *lengths, const uint8_t *subtree,
    const uint64_t *header, uint64_t tick, uint64_t *answer);
void chp_lent_client_lookup(const uint8_t *rows, const uint64_t *lengths, const uint8_t *subtree,
    const uint64_t *header, const uint8_t *key, size_t key_len, uint8_t *out, size_t out_len, uint64_t *answer);

/* built: length and stage of a message. frame: start, length and more of a frame. */
void chp_bytes_put_part(uint8_t *buffer, size_t room, uint64_t *built, uint64_t more,
    const uint8_t *part, size_t part_len);
uint64_t chp_bytes_next_frame(const uint8_t *bytes, size_t len, uint64_t *frame);
size_t chp_bytes_message_length(const uint8_t *bytes, size_t len);
size_t chp_bytes_value_length(const uint8_t *msg, size_t msg_len);
uint64_t chp_bytes_value_refusal(const uint8_t *msg, size_t msg_len);

uint64_t chp_bytes_is_key(const uint8_t *bytes, size_t len);
uint64_t chp_bytes_is_subtree(const uint8_t *bytes, size_t len);
uint64_t chp_bytes_is_under(const uint8_t *subtree, size_t subtree_len, const uint8_t *key, size_t key_len);

/* The version that the archive was built as. */
uint64_t chp_archive_version(void);

/* Marks, a number for each field: every byte of a row's key 1, of its value 2, its lengths 3 and 4, its stamps 5 and 6,
 * a server's header 7 to 10, every byte of a subtree 11, a client's header 12 to 16, an answer 17 to 20. Returns how
 * many rows a state has. */
uint64_t chp_layout_marks(uint8_t *row, uint64_t *lengths, uint64_t *stamps, uint8_t *subtree, uint64_t *server,
    uint64_t *client, uint64_t *answer);

/* ---- What a call is lent ---- */

/* Bytes of length 0 may come with a null pointer; the archive needs one that is not null. */
static inline const uint8_t *chp_in(const uint8_t *p)
{
    static const uint8_t none = 0;
    return p ? p : &none;
}

static inline uint8_t *chp_out(uint8_t *p)
{
    static uint8_t none;
    return p ? p : &none;
}

/* The arrays and the header of a state, as arrays of numbers; C is const if the call does not change them. */
#define CHP_SERVER_ARRAYS(s, C) \
    (C uint8_t *)(s)->rows, (C uint64_t *)(s)->lengths, (C uint64_t *)(s)->stamps, (C uint64_t *)&(s)->header
#define CHP_CLIENT_ARRAYS(c, C) \
    (C uint8_t *)(c)->rows, (C uint64_t *)(c)->lengths, (c)->subtree, (C uint64_t *)&(c)->header

/* ---- The server ---- */

static inline chp_answer chp_server_start(chp_server *s, uint64_t number, uint64_t tick)
{
    chp_answer a;
    chp_lent_server_start(CHP_SERVER_ARRAYS(s, ), number, tick, (uint64_t *)&a);
    return a;
}

static inline chp_answer chp_server_kvset(chp_server *s, const uint8_t *msg, size_t msg_len, uint64_t tick,
    uint8_t *out, size_t out_len)
{
    chp_answer a;
    chp_lent_server_kvset(CHP_SERVER_ARRAYS(s, ), chp_in(msg), msg_len, tick, chp_out(out), out_len, (uint64_t *)&a);
    return a;
}

static inline chp_answer chp_server_tick(chp_server *s, uint64_t tick, uint8_t *out, size_t out_len)
{
    chp_answer a;
    chp_lent_server_tick(CHP_SERVER_ARRAYS(s, ), tick, chp_out(out), out_len, (uint64_t *)&a);
    return a;
}

static inline chp_answer chp_server_icanhaz(const chp_server *s, const uint8_t *msg, size_t msg_len,
    uint8_t *out, size_t out_len)
{
    chp_answer a;
    chp_lent_server_icanhaz(CHP_SERVER_ARRAYS(s, const), chp_in(msg), msg_len, chp_out(out), out_len, (uint64_t *)&a);
    return a;
}

/* ---- The client ---- */

static inline chp_answer chp_client_start(chp_client *c, const uint8_t *subtree, size_t subtree_len, uint64_t tick)
{
    chp_answer a;
    chp_lent_client_start(CHP_CLIENT_ARRAYS(c, ), chp_in(subtree), subtree_len, tick, (uint64_t *)&a);
    return a;
}

static inline chp_answer chp_client_snapshot(chp_client *c, const uint8_t *msg, size_t msg_len)
{
    chp_answer a;
    chp_lent_client_snapshot(CHP_CLIENT_ARRAYS(c, ), chp_in(msg), msg_len, (uint64_t *)&a);
    return a;
}

static inline chp_answer chp_client_subscriber(chp_client *c, const uint8_t *msg, size_t msg_len, uint64_t tick)
{
    chp_answer a;
    chp_lent_client_subscriber(CHP_CLIENT_ARRAYS(c, ), chp_in(msg), msg_len, tick, (uint64_t *)&a);
    return a;
}

static inline chp_answer chp_client_write_icanhaz(const chp_client *c, uint8_t *out, size_t out_len)
{
    chp_answer a;
    chp_lent_client_write_icanhaz(CHP_CLIENT_ARRAYS(c, const), chp_out(out), out_len, (uint64_t *)&a);
    return a;
}

static inline chp_answer chp_client_write_kvset(const chp_client *c, const uint8_t *key, size_t key_len,
    const uint8_t *uuid, size_t uuid_len, const uint8_t *properties, size_t properties_len,
    const uint8_t *value, size_t value_len, uint8_t *out, size_t out_len)
{
    chp_answer a;
    chp_lent_client_write_kvset(CHP_CLIENT_ARRAYS(c, const), chp_in(key), key_len, chp_in(uuid), uuid_len,
        chp_in(properties), properties_len, chp_in(value), value_len, chp_out(out), out_len, (uint64_t *)&a);
    return a;
}

static inline chp_answer chp_client_ask(const chp_client *c, uint64_t tick)
{
    chp_answer a;
    chp_lent_client_ask(CHP_CLIENT_ARRAYS(c, const), tick, (uint64_t *)&a);
    return a;
}

static inline chp_answer chp_client_lookup(const chp_client *c, const uint8_t *key, size_t key_len,
    uint8_t *out, size_t out_len)
{
    chp_answer a;
    chp_lent_client_lookup(CHP_CLIENT_ARRAYS(c, const), chp_in(key), key_len, chp_out(out), out_len, (uint64_t *)&a);
    return a;
}

#undef CHP_SERVER_ARRAYS
#undef CHP_CLIENT_ARRAYS

/* ---- Rows ---- */

static inline int chp_row_of(const chp_row_bytes *rows, const chp_row_lengths *lengths, uint64_t count, size_t i,
    chp_row *row)
{
    if (i >= count || i >= CHP_ROWS || lengths[i].key > CHP_KEY_MOST || lengths[i].value > CHP_VALUE_MOST) return 0;
    row->key = rows[i].key;
    row->key_length = (size_t)lengths[i].key;
    row->value = rows[i].value;
    row->value_length = (size_t)lengths[i].value;
    row->number = 0;
    row->expiry = CHP_NEVER;
    return 1;
}

static inline int chp_server_row(const chp_server *s, size_t i, chp_row *row)
{
    if (!chp_row_of(s->rows, s->lengths, s->header.count, i, row)) return 0;
    row->number = s->stamps[i].number;
    row->expiry = s->stamps[i].expiry;
    return 1;
}

static inline int chp_client_row(const chp_client *c, size_t i, chp_row *row)
{
    return chp_row_of(c->rows, c->lengths, c->header.count, i, row);
}

/* ---- Messages from and to sockets ---- */

static inline chp_message chp_message_in(uint8_t *buffer, size_t room)
{
    chp_message m;
    m.bytes = buffer;
    m.room = room;
    m.length = 0;
    m.stage = CHP_OPEN;
    return m;
}

static inline void chp_message_add(chp_message *m, const void *part, int64_t length, int more)
{
    uint64_t built[2];
    if (length < 0 || (uint64_t)length > m->room) {
        m->length = 0;
        m->stage = CHP_VOID;
        return;
    }
    built[0] = m->length;
    built[1] = m->stage;
    chp_bytes_put_part(chp_out(m->bytes), m->room, built, more ? 1 : 0, chp_in((const uint8_t *)part), (size_t)length);
    m->length = built[0];
    m->stage = built[1];
}

static inline int chp_next_frame(const uint8_t *bytes, size_t len, chp_frame *frame)
{
    uint64_t next[3];
    next[0] = frame->start;
    next[1] = frame->length;
    next[2] = frame->more;
    if (!chp_bytes_next_frame(chp_in(bytes), len, next)) return 0;
    frame->start = next[0];
    frame->length = next[1];
    frame->more = next[2];
    return 1;
}

static inline size_t chp_message_length(const uint8_t *bytes, size_t len)
{
    return chp_bytes_message_length(chp_in(bytes), len);
}

static inline chp_part chp_value(const uint8_t *msg, size_t msg_len)
{
    chp_part p;
    p.length = chp_bytes_value_length(chp_in(msg), msg_len);
    p.start = msg_len - p.length;
    return p;
}

static inline uint64_t chp_value_refusal(const uint8_t *msg, size_t msg_len)
{
    return chp_bytes_value_refusal(chp_in(msg), msg_len);
}

/* ---- Names ---- */

static inline int chp_is_key(const uint8_t *bytes, size_t len)
{
    return chp_bytes_is_key(chp_in(bytes), len) != 0;
}

static inline int chp_is_subtree(const uint8_t *bytes, size_t len)
{
    return chp_bytes_is_subtree(chp_in(bytes), len) != 0;
}

static inline int chp_is_under(const uint8_t *subtree, size_t subtree_len, const uint8_t *key, size_t key_len)
{
    return chp_bytes_is_under(chp_in(subtree), subtree_len, chp_in(key), key_len) != 0;
}

/* ---- Texts ---- */

static inline const char *chp_refusal_text(uint64_t refusal)
{
    switch (refusal) {
    case CHP_ACCEPTED: return "accepted";
    case CHP_FRAMING: return "the framing is broken";
    case CHP_FRAME_COUNT: return "wrong number of frames";
    case CHP_WORD: return "not an ICANHAZ? request";
    case CHP_BAD_KEY: return "malformed key";
    case CHP_BAD_SUBTREE: return "malformed subtree, or not the client's";
    case CHP_BAD_SEQUENCE: return "sequence is not 8 bytes, or out of range";
    case CHP_BAD_UUID: return "UUID of a wrong length";
    case CHP_BAD_PROPERTIES: return "malformed properties";
    case CHP_BAD_VALUE: return "value too long, missing, or not allowed here";
    case CHP_BAD_TICK: return "tick out of range, or before the last one";
    case CHP_FULL: return "the table is full";
    case CHP_EXHAUSTED: return "no number is left for another update";
    case CHP_PHASE: return "wrong phase: the client still waits, or is already live";
    case CHP_SHORT_OUTPUT: return "the output is too short for the answer";
    case CHP_BAD_IDENTITY: return "identity of a wrong length";
    case CHP_ILL_FORMED: return "the state is ill-formed";
    default: return "unknown";
    }
}

static inline const char *chp_kind_text(uint64_t kind)
{
    switch (kind) {
    case CHP_REFUSED: return "refused";
    case CHP_STARTED: return "started";
    case CHP_APPLIED: return "applied";
    case CHP_STALE: return "stale";
    case CHP_OUTSIDE: return "outside";
    case CHP_SYNCED: return "synced";
    case CHP_LIVE: return "live";
    case CHP_HEARD: return "heard";
    case CHP_WROTE: return "wrote";
    case CHP_NOTHING: return "nothing";
    case CHP_FOUND: return "found";
    case CHP_ABSENT: return "absent";
    case CHP_PRESENT: return "present";
    case CHP_GONE: return "gone";
    default: return "unknown";
    }
}

/* ---- A check of this header ---- */

static inline int chp_all_are(const uint8_t *bytes, size_t len, uint8_t mark)
{
    size_t i;
    int good = 1;
    for (i = 0; i < len; i++) good &= bytes[i] == mark;
    return good;
}

/* The version comes first: an archive of another one may mark more than these structs have. */
static inline int chp_layout_agrees(void)
{
    chp_row_bytes row;
    chp_row_lengths lengths;
    chp_row_stamps stamps;
    chp_server_header server;
    chp_client_header client;
    chp_answer answer;
    uint8_t subtree[CHP_KEY_MOST];
    int good;
    if (chp_archive_version() != CHP_VERSION) return 0;
    good = sizeof row == CHP_KEY_MOST + CHP_VALUE_MOST && sizeof lengths == 16 && sizeof stamps == 16;
    good &= sizeof server == 32 && sizeof client == 40 && sizeof answer == 32;
    if (!good) return 0;
    good &= CHP_ROWS == chp_layout_marks((uint8_t *)&row, (uint64_t *)&lengths, (uint64_t *)&stamps, subtree,
        (uint64_t *)&server, (uint64_t *)&client, (uint64_t *)&answer);
    good &= chp_all_are(row.key, sizeof row.key, 1) && chp_all_are(row.value, sizeof row.value, 2);
    good &= lengths.key == 3 && lengths.value == 4 && stamps.number == 5 && stamps.expiry == 6;
    good &= server.number == 7 && server.last_tick == 8 && server.last_published == 9 && server.count == 10;
    good &= chp_all_are(subtree, sizeof subtree, 11);
    good &= client.phase == 12 && client.number == 13 && client.clock == 14;
    good &= client.subtree_length == 15 && client.count == 16;
    good &= answer.kind == 17 && answer.refusal == 18 && answer.number == 19 && answer.written == 20;
    return good;
}

#ifdef __cplusplus
}
#endif

#endif
