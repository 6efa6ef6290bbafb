/* A first exchange: a server, a desk that cuts clip 7, one update, one snapshot, one lookup. There is no network here:
 * what sockets would carry is handed over in memory. README.md and include/chp.h show pieces of this program. */
#include "chp.h"

#include <stdio.h>
#include <string.h>

#define TEXT(t) (const uint8_t *)(t), strlen(t)

static chp_server server;
static chp_client desk;

/* In place of a PUB socket. */
static void publish(const uint8_t *message, size_t length)
{
    chp_part value = chp_value(message, length);
    printf("published: %u bytes, number %u, value %.*s\n", (unsigned)length, (unsigned)server.header.number,
        (int)value.length, (const char *)message + value.start);
}

static void update_clip(uint64_t now_ms)
{
    uint8_t request[CHP_KVPUB_MOST], update[CHP_KVPUB_MOST];
    size_t request_length;
    chp_answer a;

    chp_client_start(&desk, TEXT("/clip/7/"), now_ms);
    a = chp_client_write_kvset(&desk, TEXT("/clip/7/undo"), NULL, 0, NULL, 0, TEXT("cut"), request, sizeof request);
    request_length = a.written;

    chp_server_start(&server, 0, now_ms);
    a = chp_server_kvset(&server, request, request_length, now_ms, update, sizeof update);
    if (a.kind == CHP_WROTE)
        publish(update, a.written);
    else
        fprintf(stderr, "refused: %s\n", chp_refusal_text(a.refusal));
}

/* In place of the way to the server: the ROUTER socket puts the identity of the desk in front. */
static chp_message with_identity(const uint8_t *request, size_t length, uint8_t *buffer, size_t room)
{
    chp_message message = chp_message_in(buffer, room);
    chp_frame frame = {0, 0, 0};
    chp_message_add(&message, "desk", 4, 1);
    while (chp_next_frame(request, length, &frame))
        chp_message_add(&message, request + frame.start, (int64_t)frame.length, frame.more != 0);
    return message;
}

/* In place of the way back: the desk receives each message of the answer without the identity. */
static void take_snapshot(const uint8_t *answer, size_t length)
{
    uint8_t buffer[CHP_SNAPSHOT_ROOM];
    chp_message message = chp_message_in(buffer, sizeof buffer);
    chp_frame frame = {0, 0, 0};
    int identity = 1;
    while (chp_next_frame(answer, length, &frame)) {
        if (!identity) chp_message_add(&message, answer + frame.start, (int64_t)frame.length, frame.more != 0);
        identity = !frame.more;
        if (!identity) continue;
        printf("snapshot: %s\n", chp_kind_text(chp_client_snapshot(&desk, message.bytes, message.length).kind));
        message = chp_message_in(buffer, sizeof buffer);
    }
}

static void join(void)
{
    static uint8_t snapshot[CHP_SNAPSHOT_MOST];
    uint8_t request[CHP_ICANHAZ_MOST], buffer[CHP_ICANHAZ_ROOM];
    chp_message routed;
    chp_answer a;

    a = chp_client_write_icanhaz(&desk, request, sizeof request);
    routed = with_identity(request, a.written, buffer, sizeof buffer);
    a = chp_server_icanhaz(&server, routed.bytes, routed.length, snapshot, sizeof snapshot);
    take_snapshot(snapshot, a.written);
}

static void look_up(void)
{
    uint8_t value[CHP_VALUE_MOST];
    chp_answer a = chp_client_lookup(&desk, TEXT("/clip/7/undo"), value, sizeof value);
    if (a.kind == CHP_FOUND) printf("found at number %u: %.*s\n", (unsigned)a.number, (int)a.written, (char *)value);
}

int main(void)
{
    if (!chp_layout_agrees()) return 1;
    update_clip(0);
    join();
    look_up();
    return 0;
}
