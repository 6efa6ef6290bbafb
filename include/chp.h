/* chp.h - the bookkeeping of ZeroMQ's Clustered Hashmap Protocol (12/CHP), for C and C++.
 *
 * A server keeps one map of keys and values, numbers each update and publishes it. A client asks for a snapshot of a
 * subtree of the map and follows what is published. This library takes a message that came in and writes the message
 * that goes out. It has no sockets, no threads, no heap and no global data: the host moves the bytes and tells the
 * time.
 *
 * Link with libchp.a. The functions in the archive are proved to meet the contracts in crates/chp. This header, the
 * compilers and the host are not proved. docs/PROTOCOL.md has all the rules.
 *
 * HOW A CALL WORKS (from examples/first.c)
 *
 *     chp_server_start(&server, 0, now_ms);
 *     a = chp_server_kvset(&server, request, request_length, now_ms, update, sizeof update);
 *     if (a.kind == CHP_WROTE)
 *         publish(update, a.written);
 *     else
 *         fprintf(stderr, "refused: %s\n", chp_refusal_text(a.refusal));
 *
 * Every function accepts any state, any bytes, any tick and any length, and returns. On error the call is refused: the
 * answer's kind is CHP_REFUSED, its refusal is one of 1 to 16, the state is unchanged bit for bit, and no byte of the
 * output has changed. An accepted call leaves the output after the bytes that it wrote unchanged.
 *
 * MESSAGES are ZMTP 3.0 frames in one piece of memory: for each frame the flag octet, the size and the body.
 * chp_message_add builds one from the parts that a socket delivers, and chp_next_frame splits one into parts.
 *
 * TICKS are milliseconds of a clock that never runs backward, from 0 to CHP_TICK_MOST.
 *
 * STATES are plain data of about 25 KB. A host may copy, store or send them; they hold no pointers. A state from
 * elsewhere may be ill-formed: every call except the starts checks that first and refuses it with CHP_ILL_FORMED.
 *
 * STACK. Every function needs less than 4 KB, the starts too: they fill the state where it is.
 *
 * WHAT THE HOST OWES: MEMORY
 *   - A pointer to a state points to a whole chp_server or chp_client, whatever its bits.
 *   - A pointer to bytes points to as many readable (for an output: writable) bytes as the length beside it says. With
 *     length 0 the pointer may be null.
 *   - An output overlaps neither the input bytes nor the state. Input bytes overlap no state that the call changes.
 *   - No other thread writes a state, an input or an output during a call that uses it. Nothing is shared between
 *     different states.
 *
 * WHAT THE HOST OWES: THE NETWORK
 * The library cannot see what the network loses. A client's map is the server's map at the client's number, cut to its
 * subtree, provided that the host keeps these rules (docs/JOINING.md has the theorem, examples/zeromq a host):
 *   - Sockets, for a port P. Server: ROUTER at P for ICANHAZ and its answer; PUB at P + 1 for what KVSET and Tick
 *     write; SUB at P + 2, subscribed to everything, for KVSET. Client: DEALER to P; SUB to P + 1; PUB to P + 2 if it
 *     sends updates.
 *   - Subscribe before asking. A client connects and subscribes first. Connecting takes time: once the first message
 *     has arrived on the SUB socket, the subscription is in place, and the client may ask for its snapshot. Keep what
 *     arrives until the client is live, then hand it in, in order. Not reading the socket until then keeps it.
 *   - Subscribe to everything (the empty prefix), also for a narrow subtree; the client answers CHP_OUTSIDE to what is
 *     not its own. A SUB socket without a subscription receives nothing. A client that subscribes to its subtree and
 *     the word HUGZ alone hears nothing while others edit elsewhere, and calls the server gone.
 *   - Lose nothing between two messages that are delivered, or start anew: chp_client_start, then a new snapshot.
 *     ZeroMQ drops messages without notice when a queue is at its high-water mark, by default 1000 messages, and when a
 *     connection is cut. Either set ZMQ_SNDHWM of the server's PUB and ZMQ_RCVHWM of the client's SUB to 0 before bind
 *     and connect, and start anew after a cut. Or watch for a gap, which finds both: numbers rise by one, so after
 *     CHP_APPLIED and CHP_OUTSIDE the client's number must be one more than before the call. HUGZ has no number: a loss
 *     shows with the next update.
 *   - One answer at a time, and all of it. Open a new DEALER socket for each request, so that two answers cannot mix.
 *     If a message of an answer is refused, drop the whole answer and start the client anew.
 *   - One server at a time. A server that is started again is another server. Start it at a number above its last one:
 *     then the clients see a gap and start anew.
 *   - A KVSET can be lost too. The update comes back as a KVPUB; if it does not, look the key up and send it again.
 *     Sent twice, it may be applied twice, the second time over a newer value of another client.
 *   - There is no access control. Whoever can reach the three ports can read and change every key.
 */
#ifndef CHP_H
#define CHP_H

#include <stddef.h>
#include <stdint.h>

#ifdef __cplusplus
extern "C" {
#endif

/* ---- Version ---- */

#define CHP_VERSION_MAJOR 0
#define CHP_VERSION_MINOR 8
#define CHP_VERSION_PATCH 0
#define CHP_VERSION (CHP_VERSION_MAJOR * 1000000 + CHP_VERSION_MINOR * 1000 + CHP_VERSION_PATCH)

/* ---- Limits ---- */

#define CHP_ROWS 64                                   /* rows that a state holds */
#define CHP_KEY_MOST 96                               /* bytes of a key or a subtree */
#define CHP_VALUE_MOST 256                            /* bytes of a value */
#define CHP_PROPERTIES_MOST 128                       /* bytes of properties */
#define CHP_UUID_LENGTH 16                            /* bytes of a UUID that is not empty */
#define CHP_IDENTITY_MOST 255                         /* bytes of an identity */
#define CHP_NUMBER_MOST UINT64_C(9223372036854775807) /* the last number: 2^63 - 1 */
#define CHP_TICK_MOST UINT64_C(4611686018427387904)   /* the last tick: 2^62 */
#define CHP_NEVER UINT64_MAX                          /* the expiry of a row that does not expire */

/* Outputs: with these lengths an output is never too short. */
#define CHP_KVPUB_MOST 521      /* KVSET and Tick at a server; a client's KVSET */
#define CHP_HUGZ_LENGTH 22
#define CHP_ICANHAZ_MOST 108    /* a client's ICANHAZ */
#define CHP_SNAPSHOT_MOST 40953 /* ICANHAZ at a server */

/* Inputs: a buffer of this length holds every message that the entry can accept, as chp_message_add builds it. A longer
 * message does not fit, and is refused with CHP_FRAMING, whatever else is wrong with it. */
#define CHP_KVSET_ROOM 521      /* for chp_server_kvset */
#define CHP_ICANHAZ_ROOM 365    /* for chp_server_icanhaz, with the identity in front */
#define CHP_SNAPSHOT_ROOM 377   /* for chp_client_snapshot: one message of a snapshot */
#define CHP_SUBSCRIBER_ROOM 521 /* for chp_client_subscriber */

/* ---- Answers ---- */

typedef struct chp_answer {
    uint64_t kind;    /* one of the kinds below */
    uint64_t refusal; /* one of the refusals below, or 0 if the call is accepted */
    uint64_t number;  /* the number of the state after the call */
    uint64_t written; /* bytes written to the output; 0 if the call is refused */
} chp_answer;

/* The kinds. */
enum {
    CHP_REFUSED = 0,  /* nothing has changed, and nothing is written */
    CHP_STARTED = 1,  /* a server or a client begins */
    CHP_APPLIED = 2,  /* a KVPUB set or removed its row */
    CHP_STALE = 3,    /* a KVPUB is not newer than the client, and changed nothing */
    CHP_OUTSIDE = 4,  /* a KVPUB outside the subtree: its number is taken */
    CHP_SYNCED = 5,   /* a KVSYNC set its row */
    CHP_LIVE = 6,     /* KTHXBAI: the snapshot is complete */
    CHP_HEARD = 7,    /* HUGZ: the silence clock restarts */
    CHP_WROTE = 8,    /* the output has a message, or several */
    CHP_NOTHING = 9,  /* Tick had nothing to do */
    CHP_FOUND = 10,   /* the output has the value */
    CHP_ABSENT = 11,  /* the client has no such key */
    CHP_PRESENT = 12, /* at most 5000 ms since the last HUGZ, or since the start */
    CHP_GONE = 13     /* more than 5000 ms since then */
};

/* The refusals. Each function lists those that it makes in the order of its checks; the first that applies decides. */
enum {
    CHP_ACCEPTED = 0,
    CHP_FRAMING = 1,        /* no bytes, a bad flag octet, a frame past the end, bytes after the last frame */
    CHP_FRAME_COUNT = 2,    /* not the number of frames that this entry takes */
    CHP_WORD = 3,           /* a snapshot request whose second frame is not ICANHAZ? */
    CHP_BAD_KEY = 4,        /* malformed key */
    CHP_BAD_SUBTREE = 5,    /* malformed subtree; a KVSYNC key not under the client's; a KTHXBAI of another one */
    CHP_BAD_SEQUENCE = 6,   /* not 8 bytes; above CHP_NUMBER_MOST where it is taken; not zero in HUGZ */
    CHP_BAD_UUID = 7,       /* neither 0 nor 16 bytes; not empty in KVSYNC, KTHXBAI, HUGZ */
    CHP_BAD_PROPERTIES = 8, /* malformed, over 128 bytes, a bad ttl; not empty in KVSYNC, KTHXBAI, HUGZ */
    CHP_BAD_VALUE = 9,      /* over 256 bytes; empty in KVSYNC; not empty in HUGZ */
    CHP_BAD_TICK = 10,      /* above CHP_TICK_MOST, or before the last one */
    CHP_FULL = 11,          /* a new row, and 64 are held */
    CHP_EXHAUSTED = 12,     /* a new number is needed after CHP_NUMBER_MOST */
    CHP_PHASE = 13,         /* the client waits and should be live, or is live and should wait */
    CHP_SHORT_OUTPUT = 14,  /* the output is shorter than the answer */
    CHP_BAD_IDENTITY = 15,  /* an identity of 0 bytes, or of more than 255 */
    CHP_ILL_FORMED = 16     /* the state is ill-formed */
};

/* The cause of a refusal in words; "unknown" for any other number. The text is constant. */
static inline const char *chp_refusal_text(uint64_t refusal);

/* The name of a kind; "unknown" for any other number. The text is constant. */
static inline const char *chp_kind_text(uint64_t kind);

/* ---- States ----
 * A host may read any field; chp_server_row and chp_client_row read the rows without knowing this layout. Row i, for
 * i < header.count, has rows[i], lengths[i] and, at a server, stamps[i]. Rows are in key order. Bytes after a length,
 * and rows from the count on, are not part of a state.
 */

/* The bytes of a row: of either, as many count as its length says. */
typedef struct chp_row_bytes {
    uint8_t key[CHP_KEY_MOST];
    uint8_t value[CHP_VALUE_MOST];
} chp_row_bytes;

typedef struct chp_row_lengths {
    uint64_t key;
    uint64_t value;
} chp_row_lengths;

/* What a server notes of a row. */
typedef struct chp_row_stamps {
    uint64_t number; /* of the row's last set */
    uint64_t expiry; /* a tick, or CHP_NEVER */
} chp_row_stamps;

typedef struct chp_server_header {
    uint64_t number;         /* of the last update */
    uint64_t last_tick;      /* of the last accepted call with a tick */
    uint64_t last_published; /* the tick of the last KVPUB or HUGZ; at first that of the start */
    uint64_t count;          /* rows */
} chp_server_header;

typedef struct chp_server {
    chp_row_bytes rows[CHP_ROWS];
    chp_row_lengths lengths[CHP_ROWS];
    chp_row_stamps stamps[CHP_ROWS];
    chp_server_header header;
} chp_server;

typedef struct chp_client_header {
    uint64_t phase;          /* 0: the client waits for its snapshot; any other number: it is live */
    uint64_t number;         /* of the last update taken; 0 while the client waits */
    uint64_t clock;          /* the tick of the last HUGZ; at first that of the start */
    uint64_t subtree_length; /* bytes of the subtree */
    uint64_t count;          /* rows */
} chp_client_header;

typedef struct chp_client {
    chp_row_bytes rows[CHP_ROWS];
    chp_row_lengths lengths[CHP_ROWS];
    uint8_t subtree[CHP_KEY_MOST];
    chp_client_header header;
} chp_client;

/* ---- Messages and parts ---- */

/* A message that is built from parts, in a buffer of the host. The entries refuse the bytes of a message that is void
 * or unfinished with CHP_FRAMING; the stage tells it from a message that came in broken. */
typedef struct chp_message {
    uint8_t *bytes;  /* the host's buffer */
    size_t room;     /* its length */
    uint64_t length; /* bytes of the message so far; 0 if it is void */
    uint64_t stage;  /* one of the stages below */
} chp_message;

/* The stages of a message. */
enum {
    CHP_OPEN = 0,  /* another part is to come */
    CHP_WHOLE = 1, /* the last part has come */
    CHP_VOID = 2   /* a part did not fit, came after the last one, or was not received; so is any larger number */
};

/* A frame of a message: where its body starts, counted from the first byte, how long the body is, and whether another
 * frame of the same message follows (1) or not (0). */
typedef struct chp_frame {
    uint64_t start;
    uint64_t length;
    uint64_t more;
} chp_frame;

/* A part of some bytes. */
typedef struct chp_part {
    uint64_t start;
    uint64_t length;
} chp_part;

/* ---- The server ---- */

/* A server without rows, at a number and a tick: started. Both clocks are at that tick.
 * Refuses: 6 the number, 10 the tick. Refused, *s is a server without rows at number 0 and tick 0. */
static inline chp_answer chp_server_start(chp_server *s, uint64_t number, uint64_t tick);

/* KVSET at a tick. msg has five frames: key, sequence, UUID, properties, value. The number rises by one. A value that
 * is not empty is set, with an expiry if the properties have a ttl. An empty value removes the key. Writes the KVPUB,
 * which the host sends to every client, of at most CHP_KVPUB_MOST bytes: wrote.
 * Refuses: 16, 1, 2, 4, 6, 7, 8, 9, 10, 11, 12, 14. */
static inline chp_answer chp_server_kvset(chp_server *s, const uint8_t *msg, size_t msg_len, uint64_t tick,
    uint8_t *out, size_t out_len);

/* Tells the time. If rows are due (their expiry is before the tick), the one that expired first is removed, the number
 * rises by one, and its KVPUB is written: wrote. Otherwise, if nothing was published for 1000 ms, HUGZ is written:
 * wrote. Otherwise: nothing. Call it a few times a second. If it wrote, call again at once: each call removes one row.
 * Refuses: 16, 10, 12, 14. */
static inline chp_answer chp_server_tick(chp_server *s, uint64_t tick, uint8_t *out, size_t out_len);

/* ICANHAZ. msg has three frames: the client's identity, the word ICANHAZ? and a subtree. Writes the snapshot, messages
 * one after another, each with the identity frame in front: a KVSYNC for each row under the subtree, then KTHXBAI; at
 * most CHP_SNAPSHOT_MOST bytes: wrote. chp_next_frame splits all of it into parts. The server does not change.
 * Refuses: 16, 1, 2, 15, 3, 5, 14. */
static inline chp_answer chp_server_icanhaz(const chp_server *s, const uint8_t *msg, size_t msg_len,
    uint8_t *out, size_t out_len);

/* ---- The client ---- */

/* A client that waits for the snapshot of a subtree, from a tick on: started. The empty subtree is the whole map.
 * Refuses: 5 the subtree, 10 the tick. Refused, *c has the empty subtree and tick 0.
 * Caution: *c is filled where it is, so subtree must not point into it. To start a client anew, keep the subtree. */
static inline chp_answer chp_client_start(chp_client *c, const uint8_t *subtree, size_t subtree_len, uint64_t tick);

/* A message from the server's router, without the identity frame. KTHXBAI with the client's subtree takes the number
 * and makes the client live: live. Anything else is a KVSYNC, which sets its row: synced. Only while the client waits.
 * Refuses KTHXBAI: 16, 1, 2, 5, 6, 7, 8, 13. Refuses KVSYNC: 16, 1, 2, 4, 5, 6, 7, 8, 9, 13, 11. */
static inline chp_answer chp_client_snapshot(chp_client *c, const uint8_t *msg, size_t msg_len);

/* A message that the server published. HUGZ sets the silence clock to the tick: heard. Only HUGZ uses the tick.
 * Anything else is a KVPUB. If its number is not above the client's, nothing changes: stale. Otherwise the client takes
 * the number. If the key is under the subtree, its row is set or removed: applied; if not: outside. Only once the
 * client is live; while it waits, the host keeps what is published and hands it in after KTHXBAI.
 * Refuses HUGZ: 16, 1, 2, 6, 7, 8, 9, 10, 13. Refuses KVPUB: 16, 1, 2, 4, 6, 7, 8, 9, 13, 11. */
static inline chp_answer chp_client_subscriber(chp_client *c, const uint8_t *msg, size_t msg_len, uint64_t tick);

/* Writes ICANHAZ, the request for the snapshot: the word and the client's subtree, at most CHP_ICANHAZ_MOST bytes:
 * wrote. The router socket puts the identity in front. The client does not change.
 * Refuses: 16, 13 if it is live, 14. */
static inline chp_answer chp_client_write_icanhaz(const chp_client *c, uint8_t *out, size_t out_len);

/* Writes KVSET, the request for an update of any key, of at most CHP_KVPUB_MOST bytes: wrote. An empty value removes
 * the key. The client does not change: the update comes back to it as a KVPUB.
 * Refuses: 16, 4, 7, 8, 9, 14. */
static inline chp_answer chp_client_write_kvset(const chp_client *c, const uint8_t *key, size_t key_len,
    const uint8_t *uuid, size_t uuid_len, const uint8_t *properties, size_t properties_len,
    const uint8_t *value, size_t value_len, uint8_t *out, size_t out_len);

/* Whether more than 5000 ms have passed since HUGZ was heard, or since the start: gone, otherwise present. A server
 * that publishes updates all the time sends no HUGZ: ask only if no update has arrived for a while either. The client
 * does not change.
 * Refuses: 16, 10. */
static inline chp_answer chp_client_ask(const chp_client *c, uint64_t tick);

/* Copies the value of a key to the output, at most CHP_VALUE_MOST bytes: found. If the client has no such key: absent,
 * and nothing is written. Only once the client is live. The client does not change.
 * Refuses: 16, 4, 13, 14. */
static inline chp_answer chp_client_lookup(const chp_client *c, const uint8_t *key, size_t key_len,
    uint8_t *out, size_t out_len);

/* ---- Rows ---- */

/* A row of a state. Key and value point into the state, and are valid until the next call that changes it. */
typedef struct chp_row {
    const uint8_t *key;
    size_t key_length;
    const uint8_t *value;
    size_t value_length;
    uint64_t number; /* of the row's last set; 0 at a client, which keeps none */
    uint64_t expiry; /* a tick, or CHP_NEVER; CHP_NEVER at a client */
} chp_row;

/* Row i of a server, counted from 0 in key order: 1, and *row is set; or 0, if there is no such row, and *row is
 * unchanged. In an ill-formed state, a row whose lengths do not fit its cells is no row. */
static inline int chp_server_row(const chp_server *s, size_t i, chp_row *row);

/* The same of a client. While it waits, these are the rows of the snapshot so far. */
static inline int chp_client_row(const chp_client *c, size_t i, chp_row *row);

/* ---- Messages from and to sockets ----
 * ZeroMQ delivers a message part by part. These functions receive one, and send what a call wrote (from
 * examples/zeromq/sockets.h, which the example programs use):
 *
 *     static inline int receive(void *socket, chp_message *message)
 *     {
 *         int size, more;
 *         *message = chp_message_in(message->bytes, message->room);
 *         do {
 *             zmq_msg_t part;
 *             if (zmq_msg_init(&part) != 0) return -1;
 *             do size = zmq_msg_recv(&part, socket, 0);
 *             while (size == -1 && zmq_errno() == EINTR);
 *             more = size >= 0 && zmq_msg_more(&part);
 *             chp_message_add(message, zmq_msg_data(&part), size, more);
 *             if (zmq_msg_close(&part) != 0) return -1;
 *         } while (more);
 *         return size < 0 ? -1 : 0;
 *     }
 *
 *     static inline int send_messages(void *socket, const uint8_t *bytes, size_t length)
 *     {
 *         chp_frame frame = {0, 0, 0};
 *         while (chp_next_frame(bytes, length, &frame)) {
 *             int sent;
 *             do sent = zmq_send(socket, bytes + frame.start, frame.length, frame.more ? ZMQ_SNDMORE : 0);
 *             while (sent == -1 && zmq_errno() == EINTR);
 *             if (sent == -1) return -1;
 *         }
 *         return frame.start + frame.length == length ? 0 : -1;
 *     }
 */

/* Begins a message in a buffer of so many bytes; CHP_KVSET_ROOM and the like are enough. Each message begins with this
 * call, also in a buffer that was used before. */
static inline chp_message chp_message_in(uint8_t *buffer, size_t room);

/* Adds a part of so many bytes; more is 0 if it is the last one. If the part does not fit, if it comes after the last
 * one, or if its length is negative (as a socket's -1), the message is void, and stays void whatever is added. So the
 * bytes of a message are exactly the parts that were added, in their order, or every entry refuses them.
 * Caution: zmq_recv returns the length before truncation, which may be more than your buffer holds. Use zmq_msg_recv as
 * above, or a part buffer that is no shorter than the room: a longer part is then void before it is read. */
static inline void chp_message_add(chp_message *m, const void *part, int64_t length, int more);

/* The frame after *frame in some bytes that hold messages one after another; after {0, 0, 0}, the first one. Returns 1
 * and sets *frame; or returns 0 and leaves *frame, after the last whole message. Of a message that is not whole no
 * frame is given. So the loop above ends on any bytes, and never sends half a message. */
static inline int chp_next_frame(const uint8_t *bytes, size_t len, chp_frame *frame);

/* The length of the whole message that some bytes begin with, up to its last frame; 0 if they begin with none. */
static inline size_t chp_message_length(const uint8_t *bytes, size_t len);

/* The value frame of a message of five frames, whatever they hold: where it starts in msg and how long it is. If the
 * message is refused (see chp_value_refusal), the length is 0. */
static inline chp_part chp_value(const uint8_t *msg, size_t msg_len);

/* 0 if msg has five frames; otherwise the refusal, 1 or 2. */
static inline uint64_t chp_value_refusal(const uint8_t *msg, size_t msg_len);

/* ---- Names ---- */

/* Whether some bytes are a well-formed key: 1 or 0. */
static inline int chp_is_key(const uint8_t *bytes, size_t len);

/* Whether some bytes are a well-formed subtree: 1 or 0. The empty one is. */
static inline int chp_is_subtree(const uint8_t *bytes, size_t len);

/* Whether the bytes of a key begin with those of a subtree: 1 or 0. Neither need be well-formed. */
static inline int chp_is_under(const uint8_t *subtree, size_t subtree_len, const uint8_t *key, size_t key_len);

/* ---- A check of this header ---- */

/* Whether this header fits the archive: 1, or 0 if the versions differ, or if a compiler or an option lays out the
 * states in another way. The archive marks each field, and each is read where this header has it. */
static inline int chp_layout_agrees(void);

#ifdef __cplusplus
}
#endif

/* The bodies of these functions, and the functions of the archive that they call. */
#include "chp_exports.h"

#endif
