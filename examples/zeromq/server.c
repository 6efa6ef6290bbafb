/* A server: it answers requests for snapshots, numbers the updates that desks ask for, and publishes them.
 *
 *     server PORT [NUMBER [MARK]]
 *
 * NUMBER is where the numbers start, by default 0. A server that is started again has lost its map. It must begin above
 * its last number: then desks see a gap at the next update, and start anew.
 *
 * MARK is the high-water mark of the PUB socket, by default 0: no mark.
 *
 * SIGUSR1 prints the map. SIGTERM and SIGINT print it and end the program. */
#define _POSIX_C_SOURCE 200809L
#include "host.h"

#include <signal.h>

typedef struct host {
    void *context;
    void *router;    /* ICANHAZ, and the snapshot that answers it */
    void *publisher; /* what KVSET and Tick write */
    void *collector; /* KVSET */
    chp_server server;
} host;

static volatile sig_atomic_t ending, asked_for_map;

static void on_signal(int signal)
{
    if (signal == SIGUSR1)
        asked_for_map = 1;
    else
        ending = 1;
}

/* A signal ends the wait in zmq_poll, but does not disturb what is being printed. */
static void catch_signals(void)
{
    struct sigaction action = {0};
    action.sa_handler = on_signal;
    action.sa_flags = SA_RESTART;
    if (sigaction(SIGTERM, &action, NULL) != 0 || sigaction(SIGINT, &action, NULL) != 0
        || sigaction(SIGUSR1, &action, NULL) != 0)
        fail("sigaction");
}

/* At its high-water mark a PUB socket drops messages without notice, and so does a ROUTER socket that sends. A
 * receiving socket at its mark stops reading, and then the sender drops. With no mark, nothing is lost while a
 * connection lives. The price is memory: a desk that does not read makes a queue grow at the server. A host that cannot
 * afford that sets a mark at the PUB socket, and leaves it to the desks to see the gap. */
static void open_sockets(host *h, unsigned port, int mark)
{
    h->context = zmq_ctx_new();
    if (!h->context) fail("context");
    h->router = open_socket(h->context, ZMQ_ROUTER, 0);
    h->publisher = open_socket(h->context, ZMQ_PUB, mark);
    h->collector = open_socket(h->context, ZMQ_SUB, 0);
    subscribe(h->collector);
    attach(h->router, zmq_bind, port);
    attach(h->publisher, zmq_bind, port + 1);
    attach(h->collector, zmq_bind, port + 2);
}

static void close_sockets(host *h)
{
    close_socket(h->router);
    close_socket(h->publisher);
    close_socket(h->collector);
    end_context(h->context);
}

/* The end of a call that has a message to send: sends it, or says why there is none. */
static void finish(void *socket, const char *what, chp_answer a, const uint8_t *out)
{
    if (a.kind != CHP_WROTE)
        print_refusal("server", what, a);
    else if (send_messages(socket, out, a.written) != 0)
        fail(what);
}

static void take_request(host *h)
{
    static uint8_t out[CHP_SNAPSHOT_MOST];
    uint8_t buffer[CHP_ICANHAZ_ROOM];
    chp_message message = chp_message_in(buffer, sizeof buffer);
    if (receive(h->router, &message) != 0) fail("ICANHAZ");
    finish(h->router, "ICANHAZ", chp_server_icanhaz(&h->server, buffer, message.length, out, sizeof out), out);
}

static void take_update(host *h)
{
    uint8_t buffer[CHP_KVSET_ROOM], out[CHP_KVPUB_MOST];
    chp_message message = chp_message_in(buffer, sizeof buffer);
    if (receive(h->collector, &message) != 0) fail("KVSET");
    finish(h->publisher, "KVSET",
        chp_server_kvset(&h->server, buffer, message.length, clock_ms(), out, sizeof out), out);
}

/* Each call removes one row that is due, or gives one sign of life. */
static void tell_time(host *h)
{
    uint8_t out[CHP_KVPUB_MOST];
    chp_answer a;
    do {
        a = chp_server_tick(&h->server, clock_ms(), out, sizeof out);
        if (a.kind != CHP_NOTHING) finish(h->publisher, "Tick", a, out);
    } while (a.kind == CHP_WROTE);
}

static void print_map(const host *h)
{
    chp_row row;
    size_t i;
    for (i = 0; chp_server_row(&h->server, i, &row); i++) print_row(&row);
    printf("server: %u rows at number %" PRIu64 "\n", (unsigned)i, h->server.header.number);
}

/* Each round takes at most one message from each socket, so neither has to wait for the other, and tells the time if a
 * tick is due. */
static void serve(host *h)
{
    zmq_pollitem_t items[2] = {{h->router, 0, ZMQ_POLLIN, 0}, {h->collector, 0, ZMQ_POLLIN, 0}};
    uint64_t now = clock_ms(), next_tick = now;
    while (!ending) {
        int ready = zmq_poll(items, 2, now < next_tick ? (long)(next_tick - now) : 0);
        if (ready == -1 && zmq_errno() != EINTR) fail("poll");
        if (ready > 0 && items[0].revents) take_request(h);
        if (ready > 0 && items[1].revents) take_update(h);
        now = clock_ms();
        if (now >= next_tick) {
            tell_time(h);
            next_tick = now + ROUND_MS;
        }
        if (asked_for_map) {
            asked_for_map = 0;
            print_map(h);
        }
    }
}

int main(int argc, char **argv)
{
    static host h;
    uint64_t port, number, mark;
    chp_answer a;
    begin_program();
    if (argc < 2 || argc > 4 || !read_number(argv[1], 65533, &port) || port == 0
        || !read_number(argc > 2 ? argv[2] : "0", CHP_NUMBER_MOST, &number)
        || !read_number(argc > 3 ? argv[3] : "0", 1000000, &mark)) {
        fprintf(stderr, "usage: server PORT [NUMBER [MARK]]\n");
        return 2;
    }
    catch_signals();
    a = chp_server_start(&h.server, number, clock_ms());
    if (a.kind != CHP_STARTED) {
        print_refusal("server", "start", a);
        return 1;
    }
    open_sockets(&h, (unsigned)port, (int)mark);
    printf("server: listens at ports %u to %u, at number %" PRIu64 "\n", (unsigned)port, (unsigned)port + 2, a.number);
    serve(&h);
    print_map(&h);
    close_sockets(&h);
    return 0;
}
