/* Messages over ZeroMQ sockets: received part by part, and sent part by part. include/chp.h and README.md show these
 * lines. */
#ifndef SOCKETS_H
#define SOCKETS_H

#include "chp.h"

#include <errno.h>
#include <zmq.h>

/* Receives one message into its buffer: 0, or -1 if the socket failed. A part that does not fit makes the message void;
 * the rest of it is received all the same, so that the next call begins with the next message. For the same reason a
 * signal does not end the loop, and a socket that failed must not be used again. */
static inline int receive(void *socket, chp_message *message)
{
    int size, more;
    *message = chp_message_in(message->bytes, message->room);
    do {
        zmq_msg_t part;
        if (zmq_msg_init(&part) != 0) return -1;
        do size = zmq_msg_recv(&part, socket, 0);
        while (size == -1 && zmq_errno() == EINTR);
        more = size >= 0 && zmq_msg_more(&part);
        chp_message_add(message, zmq_msg_data(&part), size, more);
        if (zmq_msg_close(&part) != 0) return -1;
    } while (more);
    return size < 0 ? -1 : 0;
}

/* Sends the messages that a call wrote: 0, or -1 if the socket failed, or not all bytes are whole messages. A socket
 * that failed may have sent half a message, and must not be used again. */
static inline int send_messages(void *socket, const uint8_t *bytes, size_t length)
{
    chp_frame frame = {0, 0, 0};
    while (chp_next_frame(bytes, length, &frame)) {
        int sent;
        do sent = zmq_send(socket, bytes + frame.start, frame.length, frame.more ? ZMQ_SNDMORE : 0);
        while (sent == -1 && zmq_errno() == EINTR);
        if (sent == -1) return -1;
    }
    return frame.start + frame.length == length ? 0 : -1;
}

#endif
