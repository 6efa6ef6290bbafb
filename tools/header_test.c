/* Tests of the header's own code against a page that no read may touch: lengths that a socket told and a buffer does
 * not have, -1, messages longer than their buffer, a broken message that is sent, rows of an ill-formed state. Then
 * every call on a stack of 4 KB with such a page below it. A read past a buffer or a write below the stack ends this
 * program. */
#define _DEFAULT_SOURCE
#include "chp.h"

#include <stdio.h>
#include <string.h>
#include <sys/mman.h>
#include <ucontext.h>
#include <unistd.h>

#define TEXT(t) (const uint8_t *)(t), strlen(t)
#define STACK 4096

static int failures;

static void expect(const char *what, int good)
{
    if (!good) failures++;
    printf("%s: %s\n", what, good ? "as expected" : "DIFFERENT");
}

/* The last so many bytes before the page that no read may touch. */
static uint8_t *before_the_end(size_t bytes)
{
    size_t page = (size_t)sysconf(_SC_PAGESIZE);
    uint8_t *two = (uint8_t *)mmap(NULL, 2 * page, PROT_READ | PROT_WRITE, MAP_PRIVATE | MAP_ANONYMOUS, -1, 0);
    if (two == (uint8_t *)MAP_FAILED || mprotect(two + page, page, PROT_NONE) != 0) return NULL;
    memset(two, 'x', page);
    return two + page - bytes;
}

/* The five parts of a KVSET, of which the last is said to have so many bytes. */
static chp_message built(uint8_t *buffer, size_t room, const uint8_t *value, int64_t length)
{
    chp_message m = chp_message_in(buffer, room);
    chp_message_add(&m, "/clip/7/undo", 12, 1);
    chp_message_add(&m, "\0\0\0\0\0\0\0\0", 8, 1);
    chp_message_add(&m, NULL, 0, 1);
    chp_message_add(&m, NULL, 0, 1);
    chp_message_add(&m, value, length, 0);
    return m;
}

static void lengths(chp_server *s)
{
    uint8_t *part = before_the_end(512), *buffer = before_the_end(CHP_KVSET_ROOM), out[CHP_KVPUB_MOST];
    const int64_t told[] = {513, 900, 100000, -1, INT64_MIN, INT64_MAX};
    size_t i;
    expect("pages", part != NULL && buffer != NULL);
    if (!part || !buffer) return;
    for (i = 0; i < sizeof told / sizeof told[0]; i++) {
        chp_message m = built(buffer, CHP_KVSET_ROOM, part, told[i]);
        chp_answer a = chp_server_kvset(s, m.bytes, m.length, 0, out, sizeof out);
        expect("a length that the part does not have", m.stage == CHP_VOID && a.refusal == CHP_FRAMING);
        chp_message_add(&m, "/k", 2, 0);
        expect("void stays void", m.stage == CHP_VOID && m.length == 0);
    }
    for (i = 0; i <= 600; i++) {
        chp_message m = built(buffer + CHP_KVSET_ROOM - i % 522, i % 522, part + 512 - i % 257, (int64_t)(i % 257));
        size_t need = 14 + 10 + 2 + 2 + (i % 257 > 255 ? 9 : 2) + i % 257;
        if ((m.stage == CHP_WHOLE) != (need <= i % 522) || (m.stage == CHP_VOID) != (need > i % 522)) failures++;
    }
    expect("buffers and parts that end at the page", failures == 0);
}

static void walks(void)
{
    uint8_t *end = before_the_end(8);
    const uint8_t two[8] = {0, 1, 'a', 1, 1, 'b', 0, 9};
    chp_frame f = {0, 0, 0};
    if (!end) return;
    memcpy(end, two, 8);
    expect("the first message", chp_next_frame(end, 8, &f) == 1 && f.start == 2 && f.length == 1 && f.more == 0);
    expect("nothing of the second, which is cut", chp_next_frame(end, 8, &f) == 0 && f.start == 2);
    f.start = UINT64_MAX;
    f.length = UINT64_MAX;
    f.more = 1;
    expect("a place past every end", chp_next_frame(end, 8, &f) == 0);
}

static void rows(chp_server *s)
{
    chp_row row;
    s->header.count = SIZE_MAX;
    s->lengths[0].key = 97;
    s->lengths[1].value = 257;
    expect("no row past its cell", !chp_server_row(s, 0, &row) && !chp_server_row(s, 1, &row));
    expect("no row past the table", !chp_server_row(s, CHP_ROWS, &row) && !chp_server_row(s, SIZE_MAX, &row));
}

/* ---- The stack ---- */

static chp_server server;
static chp_client client;
static uint8_t message[CHP_KVPUB_MOST], request[CHP_ICANHAZ_ROOM], snapshot[CHP_SNAPSHOT_MOST], value[CHP_VALUE_MOST];
static chp_message built_in;
static chp_frame frame;
static uint64_t length;
static int good;

static void begin(void)
{
    good = chp_layout_agrees();
    good &= chp_server_start(&server, 0, 0).kind == CHP_STARTED;
    good &= chp_client_start(&client, NULL, 0, 0).kind == CHP_STARTED;
}

/* A row of a key and a value, as long as they can be, that expires at once; it moves another row up. */
static void set(void)
{
    static uint8_t key[CHP_KEY_MOST], text[CHP_VALUE_MOST];
    memset(key, 'k', sizeof key);
    key[0] = '/';
    length = chp_client_write_kvset(&client, TEXT("/z"), NULL, 0, NULL, 0, TEXT("cut"), message, sizeof message)
        .written;
    good &= chp_server_kvset(&server, message, length, 0, message, 0).refusal == CHP_SHORT_OUTPUT;
    good &= chp_server_kvset(&server, message, length, 0, snapshot, sizeof snapshot).kind == CHP_WROTE;
    length = chp_client_write_kvset(&client, key, sizeof key, NULL, 0, TEXT("ttl=0\n"), text, sizeof text, message,
        sizeof message).written;
    good &= chp_server_kvset(&server, message, length, 0, snapshot, sizeof snapshot).kind == CHP_WROTE;
}

static void ask(void)
{
    length = chp_client_write_icanhaz(&client, message, sizeof message).written;
    built_in = chp_message_in(request, sizeof request);
    chp_message_add(&built_in, "desk", 4, 1);
    memset(&frame, 0, sizeof frame);
    while (chp_next_frame(message, length, &frame))
        chp_message_add(&built_in, message + frame.start, (int64_t)frame.length, frame.more != 0);
    length = chp_server_icanhaz(&server, request, built_in.length, snapshot, sizeof snapshot).written;
    good &= length > 0 && chp_message_length(snapshot, length) > 0;
}

/* The messages of the snapshot, each without the identity frame of six bytes. */
static void take(void)
{
    uint8_t *at = snapshot;
    while (at < snapshot + length) {
        size_t whole = chp_message_length(at, (size_t)(snapshot + length - at));
        good &= chp_client_snapshot(&client, at + 6, whole - 6).kind != CHP_REFUSED;
        good &= chp_value_refusal(at + 6, whole - 6) == 0 && chp_value(at + 6, whole - 6).length <= CHP_VALUE_MOST;
        at += whole;
    }
    good &= client.header.phase != 0 && client.header.count == 2;
}

static void expire(void)
{
    length = chp_server_tick(&server, 2000, message, sizeof message).written;
    good &= chp_client_subscriber(&client, message, length, 2000).kind == CHP_APPLIED;
    length = chp_server_tick(&server, 4000, message, sizeof message).written;
    good &= chp_client_subscriber(&client, message, length, 4000).kind == CHP_HEARD;
    good &= chp_client_ask(&client, 9001).kind == CHP_GONE;
}

static void look(void)
{
    static chp_row row;
    good &= chp_client_lookup(&client, TEXT("/z"), value, sizeof value).kind == CHP_FOUND;
    good &= chp_client_row(&client, 0, &row) && chp_server_row(&server, 0, &row) && !chp_server_row(&server, 1, &row);
    good &= chp_is_key(row.key, row.key_length) && chp_is_subtree(NULL, 0) && chp_is_under(NULL, 0, TEXT("/z"));
    good &= *chp_refusal_text(0) == 'a' && *chp_kind_text(0) == 'r';
}

/* Once on the program's own stack, so that the functions of the C library are found, and once on the small one. */
static void small_stack(void)
{
    static void (*const steps[])(void) = {begin, set, ask, take, expire, look};
    static ucontext_t here, there;
    size_t page = (size_t)sysconf(_SC_PAGESIZE), i, n = sizeof steps / sizeof steps[0];
    uint8_t *low = (uint8_t *)mmap(NULL, 2 * page, PROT_READ | PROT_WRITE, MAP_PRIVATE | MAP_ANONYMOUS, -1, 0);
    if (page != STACK || low == (uint8_t *)MAP_FAILED || mprotect(low, page, PROT_NONE) != 0) {
        expect("a stack of 4 KB", 0);
        return;
    }
    for (i = 0; i < n; i++) steps[i]();
    expect("every call on the program's stack", good);
    for (i = 0; i < n; i++) {
        if (getcontext(&there) != 0) good = 0;
        there.uc_stack.ss_sp = low + page;
        there.uc_stack.ss_size = page;
        there.uc_link = &here;
        makecontext(&there, steps[i], 0);
        if (swapcontext(&here, &there) != 0) good = 0;
    }
    expect("every call on a stack of 4 KB", good);
}

int main(void)
{
    static chp_server s;
    expect("layout and version", chp_layout_agrees());
    chp_server_start(&s, 0, 0);
    lengths(&s);
    walks();
    expect("no number was spent", s.header.number == 0 && s.header.count == 0);
    rows(&s);
    small_stack();
    printf("%s\n", failures ? "FAILED" : "ok");
    return failures != 0;
}
