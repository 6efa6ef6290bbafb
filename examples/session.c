/* A session without a network: one server, and desks that cut clips. The functions publish and join hand over what
 * sockets would carry; examples/zeromq has the same with sockets. */
#include "chp.h"

#include <stdio.h>
#include <string.h>

#define DESKS 3
#define TEXT(t) (const uint8_t *)(t), strlen(t)

typedef struct {
    const char *name;
    const char *subtree;
    int joined; /* the host's own note: this desk hears what is published */
    chp_client client;
} desk;

static chp_server server;
static desk desks[DESKS];

static void tell(const char *who, const char *what, chp_answer a)
{
    printf("  %-12s %-40s %s", who, what, chp_kind_text(a.kind));
    if (a.kind == CHP_REFUSED)
        printf(" with %u: %s", (unsigned)a.refusal, chp_refusal_text(a.refusal));
    else if (a.written)
        printf(", %u bytes", (unsigned)a.written);
    printf(" (number %u)\n", (unsigned)a.number);
}

static void start(desk *d, const char *name, const char *subtree, uint64_t now)
{
    d->name = name;
    d->subtree = subtree;
    d->joined = 0;
    tell(name, subtree, chp_client_start(&d->client, TEXT(subtree), now));
}

/* What the server published goes to every desk that listens. */
static void publish(const uint8_t *msg, size_t len, uint64_t now)
{
    for (int i = 0; i < DESKS; i++)
        if (desks[i].joined)
            tell(desks[i].name, "hears what was published", chp_client_subscriber(&desks[i].client, msg, len, now));
}

/* A desk asks for an update; the server makes it and publishes it. */
static void set(desk *d, const char *key, const char *properties, const char *value, uint64_t now)
{
    char what[64];
    uint8_t request[CHP_KVPUB_MOST], update[CHP_KVPUB_MOST];
    chp_answer a = chp_client_write_kvset(&d->client, TEXT(key), NULL, 0, TEXT(properties), TEXT(value),
        request, sizeof request);
    snprintf(what, sizeof what, "asks for %s = %s", key, *value ? value : "(nothing)");
    tell(d->name, what, a);
    if (a.kind != CHP_WROTE) return;
    a = chp_server_kvset(&server, request, a.written, now, update, sizeof update);
    tell("server", "takes the update and publishes it", a);
    if (a.kind == CHP_WROTE) publish(update, a.written, now);
}

/* The router puts the identity of the desk in front of its request. */
static chp_answer route(desk *d, uint8_t *snapshot, size_t room)
{
    uint8_t request[CHP_ICANHAZ_MOST], buffer[CHP_ICANHAZ_ROOM];
    chp_message routed = chp_message_in(buffer, sizeof buffer);
    chp_frame f = {0, 0, 0};
    chp_answer a = chp_client_write_icanhaz(&d->client, request, sizeof request);
    tell(d->name, "asks for its snapshot", a);
    chp_message_add(&routed, d->name, (int64_t)strlen(d->name), 1);
    while (chp_next_frame(request, a.written, &f))
        chp_message_add(&routed, request + f.start, (int64_t)f.length, f.more != 0);
    return chp_server_icanhaz(&server, routed.bytes, routed.length, snapshot, room);
}

/* A desk joins: it takes each message of the answer, without the identity, which the router takes off. */
static void join(desk *d)
{
    static uint8_t snapshot[CHP_SNAPSHOT_MOST];
    uint8_t buffer[CHP_SNAPSHOT_ROOM];
    chp_message message = chp_message_in(buffer, sizeof buffer);
    chp_frame f = {0, 0, 0};
    int identity = 1;
    chp_answer a = route(d, snapshot, sizeof snapshot);
    tell("server", "answers with the snapshot", a);
    while (chp_next_frame(snapshot, a.written, &f)) {
        if (!identity) chp_message_add(&message, snapshot + f.start, (int64_t)f.length, f.more != 0);
        identity = !f.more;
        if (!identity) continue;
        tell(d->name, "reads a message of it", chp_client_snapshot(&d->client, message.bytes, message.length));
        message = chp_message_in(buffer, sizeof buffer);
    }
    d->joined = 1;
}

static void look(desk *d, const char *key)
{
    char what[64];
    uint8_t value[CHP_VALUE_MOST];
    chp_answer a = chp_client_lookup(&d->client, TEXT(key), value, sizeof value);
    if (a.kind == CHP_FOUND)
        snprintf(what, sizeof what, "looks up %s: %.*s", key, (int)a.written, (const char *)value);
    else
        snprintf(what, sizeof what, "looks up %s", key);
    tell(d->name, what, a);
}

/* Time passes: the server is told until it has nothing more to do. */
static void tick(uint64_t now)
{
    uint8_t out[CHP_KVPUB_MOST];
    for (;;) {
        chp_answer a = chp_server_tick(&server, now, out, sizeof out);
        tell("server", "is told the time", a);
        if (a.kind != CHP_WROTE) return;
        publish(out, a.written, now);
    }
}

/* The last part of this update is longer than a server has room for: nothing of it is taken. */
static void send_oversized(uint64_t now)
{
    static const uint8_t frame[4096] = {0};
    uint8_t buffer[CHP_KVSET_ROOM], out[CHP_KVPUB_MOST];
    chp_message message = chp_message_in(buffer, sizeof buffer);
    chp_message_add(&message, "/clip/7/undo", 12, 1);
    chp_message_add(&message, frame, 8, 1);
    chp_message_add(&message, frame, 0, 1);
    chp_message_add(&message, frame, 0, 1);
    chp_message_add(&message, frame, sizeof frame, 0);
    tell("server", "gets a value of 4096 bytes",
        chp_server_kvset(&server, message.bytes, message.length, now, out, sizeof out));
}

static void list_rows(void)
{
    chp_row row;
    for (size_t i = 0; chp_server_row(&server, i, &row); i++)
        printf("  %.*s = %.*s, set by number %u\n", (int)row.key_length, (const char *)row.key,
            (int)row.value_length, (const char *)row.value, (unsigned)row.number);
}

int main(void)
{
    if (!chp_layout_agrees()) {
        fprintf(stderr, "this header does not fit the library\n");
        return 1;
    }
    printf("At 0 ms the server starts, and two desks.\n");
    tell("server", "starts", chp_server_start(&server, 0, 0));
    start(&desks[0], "desk seven", "/clip/7/", 0);
    start(&desks[1], "desk seventy", "/clip/70/", 0);
    join(&desks[0]);
    join(&desks[1]);

    printf("\nAt 10 ms both cut. Each desk takes what is under its own subtree.\n");
    set(&desks[0], "/clip/7/undo", "", "cut", 10);
    set(&desks[1], "/clip/70/undo", "", "fade", 10);
    set(&desks[0], "/clip/7/camera", "ttl=2\n", "goal line", 10);

    printf("\nAt 20 ms a third desk joins late, and finds the same afternoon.\n");
    start(&desks[2], "late desk", "/clip/7/", 20);
    join(&desks[2]);
    look(&desks[2], "/clip/7/undo");
    look(&desks[2], "/clip/70/undo");

    printf("\nAt 2500 ms the camera mark has outlived its two seconds.\n");
    tick(2500);
    look(&desks[0], "/clip/7/camera");
    look(&desks[2], "/clip/7/camera");

    printf("\nA malformed key and an oversized part are refused, and nothing changes.\n");
    set(&desks[0], "/clip//undo", "", "cut", 2500);
    send_oversized(2500);
    list_rows();

    printf("\nAt 3600 ms the server has published nothing for a second: it gives a sign of life.\n");
    tick(3600);

    printf("\nThen it is silent. After more than five seconds it is presumed gone.\n");
    tell(desks[0].name, "asks at 7500 ms", chp_client_ask(&desks[0].client, 7500));
    tell(desks[0].name, "asks at 9000 ms", chp_client_ask(&desks[0].client, 9000));
    return 0;
}
