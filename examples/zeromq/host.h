/* What both programs need: the clock, sockets, numbers that a user wrote, and lines that a user reads. */
#ifndef HOST_H
#define HOST_H

#include "sockets.h"

#include <inttypes.h>
#include <stdio.h>
#include <stdlib.h>
#include <time.h>

#define ROUND_MS 100 /* the longest wait in one round of a program's loop */

/* Ends the program: the socket library reported an error that the program cannot work around. */
static inline void fail(const char *what)
{
    fprintf(stderr, "%s: %s\n", what, zmq_strerror(zmq_errno()));
    exit(1);
}

/* Milliseconds of a clock that never runs backward. */
static inline uint64_t clock_ms(void)
{
    struct timespec t;
    if (clock_gettime(CLOCK_MONOTONIC, &t) != 0) fail("clock");
    return (uint64_t)t.tv_sec * 1000 + (uint64_t)t.tv_nsec / 1000000;
}

/* A new socket. Its high-water mark counts messages and holds for both directions; 0 is no mark. A mark must be set
 * before bind and connect: later it changes nothing.
 *
 * A part is in memory as a whole before the program sees how long it is. So there is a limit for parts: whoever sends a
 * longer one is disconnected. There is no limit for the number of parts.
 *
 * When a socket is closed, what it has not sent yet is kept for a short time. Without that limit the program would not
 * end while a peer does not read. */
static inline void *open_socket(void *context, int type, int mark)
{
    const int64_t part_most = 1024 * 1024;
    const int linger_ms = 500;
    void *socket = zmq_socket(context, type);
    if (!socket) fail("socket");
    if (zmq_setsockopt(socket, ZMQ_SNDHWM, &mark, sizeof mark) != 0) fail("ZMQ_SNDHWM");
    if (zmq_setsockopt(socket, ZMQ_RCVHWM, &mark, sizeof mark) != 0) fail("ZMQ_RCVHWM");
    if (zmq_setsockopt(socket, ZMQ_MAXMSGSIZE, &part_most, sizeof part_most) != 0) fail("ZMQ_MAXMSGSIZE");
    if (zmq_setsockopt(socket, ZMQ_LINGER, &linger_ms, sizeof linger_ms) != 0) fail("ZMQ_LINGER");
    return socket;
}

/* Subscribes to everything. */
static inline void subscribe(void *socket)
{
    if (zmq_setsockopt(socket, ZMQ_SUBSCRIBE, "", 0) != 0) fail("ZMQ_SUBSCRIBE");
}

/* Binds or connects a socket (how is zmq_bind or zmq_connect) to a port of this machine. */
static inline void attach(void *socket, int (*how)(void *, const char *), unsigned port)
{
    char endpoint[32];
    snprintf(endpoint, sizeof endpoint, "tcp://127.0.0.1:%u", port);
    if (how(socket, endpoint) != 0) fail(endpoint);
}

static inline void close_socket(void *socket)
{
    if (zmq_close(socket) != 0) fail("close");
}

/* Ends a context; its sockets are closed already. */
static inline void end_context(void *context)
{
    while (zmq_ctx_term(context) != 0)
        if (zmq_errno() != EINTR) fail("context");
}

/* Reads a decimal number: 1, or 0 if the text is none or the number is above the limit. */
static inline int read_number(const char *text, uint64_t most, uint64_t *number)
{
    uint64_t n = 0;
    if (*text == '\0') return 0;
    for (; *text >= '0' && *text <= '9'; text++) {
        uint64_t digit = (uint64_t)(*text - '0');
        if (digit > most || n > (most - digit) / 10) return 0;
        n = 10 * n + digit;
    }
    *number = n;
    return *text == '\0';
}

/* Prints bytes that came from elsewhere. Control characters could forge a line, so they are printed as \xNN. */
static inline void print_bytes(const uint8_t *bytes, size_t length)
{
    size_t i;
    for (i = 0; i < length; i++) {
        if (bytes[i] < 32 || bytes[i] == 127)
            printf("\\x%02x", bytes[i]);
        else
            putchar(bytes[i]);
    }
}

static inline void print_row(const chp_row *row)
{
    printf("  ");
    print_bytes(row->key, row->key_length);
    printf(" = ");
    print_bytes(row->value, row->value_length);
    printf("\n");
}

static inline void print_refusal(const char *who, const char *what, chp_answer a)
{
    printf("%s: %s refused with %" PRIu64 ": %s\n", who, what, a.refusal, chp_refusal_text(a.refusal));
}

/* Every program begins with this: lines are written as they are printed, and the header fits the library. */
static inline void begin_program(void)
{
    if (setvbuf(stdout, NULL, _IOLBF, BUFSIZ) != 0) fail("setvbuf");
    if (!chp_layout_agrees()) {
        fprintf(stderr, "chp.h and libchp.a do not fit together\n");
        exit(1);
    }
}

#endif
