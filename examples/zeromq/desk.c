/* A desk: it takes a snapshot of a subtree, follows what the server publishes, and sends the edits of its user.
 *
 *     desk PORT NAME SUBTREE [MARK]
 *
 * SUBTREE may be empty: the whole map. MARK is the high-water mark of the SUB socket, by default 0: no mark.
 * Commands come from the standard input, one to a line; commands.c has them. */
#define _POSIX_C_SOURCE 200809L
#include "desk.h"

#include <string.h>
#include <unistd.h>

#define PATIENCE_MS 5000 /* for the answer to ICANHAZ */
#define SILENCE_MS 5000  /* without a message, before the desk asks whether the server is gone */

static void close_dealer(desk *d)
{
    if (d->dealer) close_socket(d->dealer);
    d->dealer = NULL;
}

/* Each request has a DEALER socket of its own, so that the rest of an earlier answer cannot arrive. */
static void open_dealer(desk *d)
{
    close_dealer(d);
    d->dealer = open_socket(d->context, ZMQ_DEALER, 0);
    attach(d->dealer, zmq_connect, d->port);
    d->asked = d->now;
}

static void start_client(desk *d)
{
    chp_answer a = chp_client_start(&d->client, (const uint8_t *)d->subtree, strlen(d->subtree), d->now);
    if (a.kind == CHP_STARTED) return;
    print_refusal(d->name, "start", a);
    exit(1);
}

/* Begins at the beginning, with a new SUB socket. What it hears first comes through a subscription that is in place;
 * the old socket could still hold messages of a connection that is gone. */
static void listen_anew(desk *d)
{
    start_client(d);
    close_dealer(d);
    if (d->subscriber) close_socket(d->subscriber);
    d->subscriber = open_socket(d->context, ZMQ_SUB, d->mark);
    subscribe(d->subscriber);
    attach(d->subscriber, zmq_connect, d->port + 1);
}

static void ask(desk *d)
{
    uint8_t out[CHP_ICANHAZ_MOST];
    chp_answer a = chp_client_write_icanhaz(&d->client, out, sizeof out);
    open_dealer(d);
    if (a.kind != CHP_WROTE)
        print_refusal(d->name, "ICANHAZ", a);
    else if (send_messages(d->dealer, out, a.written) != 0)
        fail("ICANHAZ");
}

/* One message of the answer. If it is refused, a row may be missing, and the rest must not make the desk live: the desk
 * goes on with a DEALER socket on which nothing was asked, until its patience ends. */
static void take_answer(desk *d)
{
    uint8_t buffer[CHP_SNAPSHOT_ROOM];
    chp_message message = chp_message_in(buffer, sizeof buffer);
    chp_answer a;
    if (receive(d->dealer, &message) != 0) fail("answer");
    a = chp_client_snapshot(&d->client, buffer, message.length);
    if (a.kind == CHP_REFUSED) {
        print_refusal(d->name, "answer", a);
        open_dealer(d);
    } else if (a.kind == CHP_LIVE) {
        close_dealer(d);
        d->quiet = 0;
        printf("%s: live at number %" PRIu64 " with %u rows\n", d->name, a.number, (unsigned)d->client.header.count);
    }
}

/* One published message. Numbers rise by one; if this one does not, updates were lost, and the map lacks them. The
 * subscription is in place, so the desk asks at once. If a message is refused, the map stays as it was at its number;
 * if it was an update, the next one shows the gap. HUGZ has no number: a loss is seen with the next update only. */
static void follow(desk *d)
{
    uint8_t buffer[CHP_SUBSCRIBER_ROOM];
    chp_message message = chp_message_in(buffer, sizeof buffer);
    uint64_t before = d->client.header.number;
    chp_answer a;
    if (receive(d->subscriber, &message) != 0) fail("published message");
    d->quiet = 0;
    a = chp_client_subscriber(&d->client, buffer, message.length, d->now);
    if (a.kind == CHP_REFUSED) {
        print_refusal(d->name, "published message", a);
    } else if ((a.kind == CHP_APPLIED || a.kind == CHP_OUTSIDE) && a.number != before + 1) {
        printf("%s: numbers %" PRIu64 " to %" PRIu64 " were lost; starting anew\n", d->name, before + 1, a.number - 1);
        start_client(d);
        ask(d);
    }
}

/* The socket of this round has a message. While the desk listens, it is left in the queue: it shows that the
 * subscription is in place, and the desk reads on there once it is live. */
static void take_message(desk *d)
{
    if (d->dealer)
        take_answer(d);
    else if (!d->client.header.phase)
        ask(d);
    else
        follow(d);
}

/* A desk that was itself stopped for a while heard nothing either. So a round counts as quiet for ROUND_MS at most. */
static void read_clock(desk *d)
{
    uint64_t now = clock_ms(), round = now - d->now;
    d->now = now;
    d->quiet += round < ROUND_MS ? round : ROUND_MS;
}

/* The library's silence clock knows HUGZ alone, and a server that publishes updates all the time sends none. So the
 * desk asks only if there was no update either. */
static int is_silent(const desk *d)
{
    return d->client.header.phase && d->quiet > SILENCE_MS && chp_client_ask(&d->client, d->now).kind != CHP_PRESENT;
}

static void check_patience(desk *d)
{
    if (d->dealer && d->now - d->asked > PATIENCE_MS) {
        printf("%s: no complete answer; starting anew\n", d->name);
        listen_anew(d);
    } else if (is_silent(d)) {
        printf("%s: the server is silent; starting anew\n", d->name);
        listen_anew(d);
    }
}

/* While the desk asks, the SUB socket is not read: it keeps what is published meanwhile. */
static void run(desk *d)
{
    while (!d->ended) {
        void *socket = d->dealer ? d->dealer : d->subscriber;
        zmq_pollitem_t items[2] = {{socket, 0, ZMQ_POLLIN, 0}, {NULL, STDIN_FILENO, ZMQ_POLLIN, 0}};
        int ready = zmq_poll(items, 2, ROUND_MS);
        if (ready == -1 && zmq_errno() != EINTR) fail("poll");
        read_clock(d);
        if (ready > 0 && items[0].revents) take_message(d);
        if (ready > 0 && items[1].revents) read_commands(d);
        check_patience(d);
        settle_edits(d);
    }
}

static void close_desk(desk *d)
{
    close_dealer(d);
    close_socket(d->subscriber);
    close_socket(d->publisher);
    end_context(d->context);
}

int main(int argc, char **argv)
{
    static desk d;
    uint64_t port, mark;
    begin_program();
    if (argc < 4 || argc > 5 || !read_number(argv[1], 65533, &port) || port == 0
        || !read_number(argc > 4 ? argv[4] : "0", 1000000, &mark)) {
        fprintf(stderr, "usage: desk PORT NAME SUBTREE [MARK]\n");
        return 2;
    }
    d.name = argv[2];
    d.subtree = argv[3];
    d.port = (unsigned)port;
    d.mark = (int)mark;
    d.now = clock_ms();
    d.context = zmq_ctx_new();
    if (!d.context) fail("context");
    d.publisher = open_socket(d.context, ZMQ_PUB, 0);
    attach(d.publisher, zmq_connect, d.port + 2);
    listen_anew(&d);
    run(&d);
    close_desk(&d);
    return 0;
}
