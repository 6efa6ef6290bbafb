/* The functions of chp.h are static inline, so another language cannot link to them. Here each of them gets an external
 * name. A table has the compiler's view of the structs, and the header's constants. All calls of the first comparison
 * and of the column Library go through here, so the header is tested along with the archive. */

#include <stddef.h>
#include <stdint.h>

#include "chp.h"

chp_answer shim_server_start(chp_server *s, uint64_t number, uint64_t tick)
{
    return chp_server_start(s, number, tick);
}

chp_answer shim_server_kvset(chp_server *s, const uint8_t *msg, size_t msg_len, uint64_t tick, uint8_t *out,
                             size_t out_len)
{
    return chp_server_kvset(s, msg, msg_len, tick, out, out_len);
}

chp_answer shim_server_tick(chp_server *s, uint64_t tick, uint8_t *out, size_t out_len)
{
    return chp_server_tick(s, tick, out, out_len);
}

chp_answer shim_server_icanhaz(const chp_server *s, const uint8_t *msg, size_t msg_len, uint8_t *out, size_t out_len)
{
    return chp_server_icanhaz(s, msg, msg_len, out, out_len);
}

chp_answer shim_client_start(chp_client *c, const uint8_t *subtree, size_t subtree_len, uint64_t tick)
{
    return chp_client_start(c, subtree, subtree_len, tick);
}

chp_answer shim_client_snapshot(chp_client *c, const uint8_t *msg, size_t msg_len)
{
    return chp_client_snapshot(c, msg, msg_len);
}

chp_answer shim_client_subscriber(chp_client *c, const uint8_t *msg, size_t msg_len, uint64_t tick)
{
    return chp_client_subscriber(c, msg, msg_len, tick);
}

chp_answer shim_client_write_icanhaz(const chp_client *c, uint8_t *out, size_t out_len)
{
    return chp_client_write_icanhaz(c, out, out_len);
}

chp_answer shim_client_write_kvset(const chp_client *c, const uint8_t *key, size_t key_len, const uint8_t *uuid,
                                   size_t uuid_len, const uint8_t *properties, size_t properties_len,
                                   const uint8_t *value, size_t value_len, uint8_t *out, size_t out_len)
{
    return chp_client_write_kvset(c, key, key_len, uuid, uuid_len, properties, properties_len, value, value_len, out,
                                  out_len);
}

chp_answer shim_client_ask(const chp_client *c, uint64_t tick)
{
    return chp_client_ask(c, tick);
}

chp_answer shim_client_lookup(const chp_client *c, const uint8_t *key, size_t key_len, uint8_t *out, size_t out_len)
{
    return chp_client_lookup(c, key, key_len, out, out_len);
}

/* The rows of a state. */

int shim_server_row(const chp_server *s, size_t i, chp_row *row)
{
    return chp_server_row(s, i, row);
}

int shim_client_row(const chp_client *c, size_t i, chp_row *row)
{
    return chp_client_row(c, i, row);
}

/* The functions on bytes. */

chp_message shim_message_in(uint8_t *buffer, size_t room)
{
    return chp_message_in(buffer, room);
}

void shim_message_add(chp_message *m, const void *part, int64_t length, int more)
{
    chp_message_add(m, part, length, more);
}

int shim_next_frame(const uint8_t *bytes, size_t len, chp_frame *frame)
{
    return chp_next_frame(bytes, len, frame);
}

size_t shim_message_length(const uint8_t *bytes, size_t len)
{
    return chp_message_length(bytes, len);
}

chp_part shim_value(const uint8_t *msg, size_t msg_len)
{
    return chp_value(msg, msg_len);
}

uint64_t shim_value_refusal(const uint8_t *msg, size_t msg_len)
{
    return chp_value_refusal(msg, msg_len);
}

int shim_is_key(const uint8_t *bytes, size_t len)
{
    return chp_is_key(bytes, len);
}

int shim_is_subtree(const uint8_t *bytes, size_t len)
{
    return chp_is_subtree(bytes, len);
}

int shim_is_under(const uint8_t *subtree, size_t subtree_len, const uint8_t *key, size_t key_len)
{
    return chp_is_under(subtree, subtree_len, key, key_len);
}

/* Texts. */

const char *shim_kind_text(uint64_t kind)
{
    return chp_kind_text(kind);
}

const char *shim_refusal_text(uint64_t refusal)
{
    return chp_refusal_text(refusal);
}

/* The header's version: its three numbers and the number made of them; the archive's version; and the archive's own
 * marks in a field of each kind. */

const uint64_t shim_version[4] = { CHP_VERSION_MAJOR, CHP_VERSION_MINOR, CHP_VERSION_PATCH, CHP_VERSION };

uint64_t shim_archive_version(void)
{
    return chp_archive_version();
}

int shim_layout_agrees(void)
{
    return chp_layout_agrees();
}

uint64_t shim_layout_marks(chp_row_bytes *row, chp_row_lengths *lengths, chp_row_stamps *stamps, uint8_t *subtree,
                           chp_server_header *server, chp_client_header *client, chp_answer *answer)
{
    return chp_layout_marks((uint8_t *)row, (uint64_t *)lengths, (uint64_t *)stamps, subtree, (uint64_t *)server,
                            (uint64_t *)client, (uint64_t *)answer);
}

typedef struct shim_place {
    const char *name;
    uint64_t number;
} shim_place;

#define SIZE(type) { #type, sizeof(type) }
#define FIELD(type, field) { #type "." #field, offsetof(type, field) }
#define NUMBER(name) { #name, name }

/* Each struct's size, then the offset of each of its fields; then the constants. */
const shim_place shim_layout[] = {
    SIZE(chp_answer),
    FIELD(chp_answer, kind),
    FIELD(chp_answer, refusal),
    FIELD(chp_answer, number),
    FIELD(chp_answer, written),
    SIZE(chp_row_bytes),
    FIELD(chp_row_bytes, key),
    FIELD(chp_row_bytes, value),
    SIZE(chp_row_lengths),
    FIELD(chp_row_lengths, key),
    FIELD(chp_row_lengths, value),
    SIZE(chp_row_stamps),
    FIELD(chp_row_stamps, number),
    FIELD(chp_row_stamps, expiry),
    SIZE(chp_server_header),
    FIELD(chp_server_header, number),
    FIELD(chp_server_header, last_tick),
    FIELD(chp_server_header, last_published),
    FIELD(chp_server_header, count),
    SIZE(chp_server),
    FIELD(chp_server, rows),
    FIELD(chp_server, lengths),
    FIELD(chp_server, stamps),
    FIELD(chp_server, header),
    SIZE(chp_client_header),
    FIELD(chp_client_header, phase),
    FIELD(chp_client_header, number),
    FIELD(chp_client_header, clock),
    FIELD(chp_client_header, subtree_length),
    FIELD(chp_client_header, count),
    SIZE(chp_client),
    FIELD(chp_client, rows),
    FIELD(chp_client, lengths),
    FIELD(chp_client, subtree),
    FIELD(chp_client, header),
    SIZE(chp_message),
    FIELD(chp_message, bytes),
    FIELD(chp_message, room),
    FIELD(chp_message, length),
    FIELD(chp_message, stage),
    SIZE(chp_frame),
    FIELD(chp_frame, start),
    FIELD(chp_frame, length),
    FIELD(chp_frame, more),
    SIZE(chp_part),
    FIELD(chp_part, start),
    FIELD(chp_part, length),
    SIZE(chp_row),
    FIELD(chp_row, key),
    FIELD(chp_row, key_length),
    FIELD(chp_row, value),
    FIELD(chp_row, value_length),
    FIELD(chp_row, number),
    FIELD(chp_row, expiry),
    NUMBER(CHP_ROWS),
    NUMBER(CHP_KEY_MOST),
    NUMBER(CHP_VALUE_MOST),
    NUMBER(CHP_PROPERTIES_MOST),
    NUMBER(CHP_UUID_LENGTH),
    NUMBER(CHP_IDENTITY_MOST),
    NUMBER(CHP_NUMBER_MOST),
    NUMBER(CHP_TICK_MOST),
    NUMBER(CHP_NEVER),
    NUMBER(CHP_KVPUB_MOST),
    NUMBER(CHP_HUGZ_LENGTH),
    NUMBER(CHP_ICANHAZ_MOST),
    NUMBER(CHP_SNAPSHOT_MOST),
    NUMBER(CHP_KVSET_ROOM),
    NUMBER(CHP_ICANHAZ_ROOM),
    NUMBER(CHP_SNAPSHOT_ROOM),
    NUMBER(CHP_SUBSCRIBER_ROOM),
    NUMBER(CHP_OPEN),
    NUMBER(CHP_WHOLE),
    NUMBER(CHP_VOID),
    NUMBER(CHP_REFUSED),
    NUMBER(CHP_STARTED),
    NUMBER(CHP_APPLIED),
    NUMBER(CHP_STALE),
    NUMBER(CHP_OUTSIDE),
    NUMBER(CHP_SYNCED),
    NUMBER(CHP_LIVE),
    NUMBER(CHP_HEARD),
    NUMBER(CHP_WROTE),
    NUMBER(CHP_NOTHING),
    NUMBER(CHP_FOUND),
    NUMBER(CHP_ABSENT),
    NUMBER(CHP_PRESENT),
    NUMBER(CHP_GONE),
    NUMBER(CHP_ACCEPTED),
    NUMBER(CHP_FRAMING),
    NUMBER(CHP_FRAME_COUNT),
    NUMBER(CHP_WORD),
    NUMBER(CHP_BAD_KEY),
    NUMBER(CHP_BAD_SUBTREE),
    NUMBER(CHP_BAD_SEQUENCE),
    NUMBER(CHP_BAD_UUID),
    NUMBER(CHP_BAD_PROPERTIES),
    NUMBER(CHP_BAD_VALUE),
    NUMBER(CHP_BAD_TICK),
    NUMBER(CHP_FULL),
    NUMBER(CHP_EXHAUSTED),
    NUMBER(CHP_PHASE),
    NUMBER(CHP_SHORT_OUTPUT),
    NUMBER(CHP_BAD_IDENTITY),
    NUMBER(CHP_ILL_FORMED),
};

const size_t shim_layout_length = sizeof shim_layout / sizeof shim_layout[0];
