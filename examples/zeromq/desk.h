/* A desk: a client and its sockets. desk.c joins and follows; commands.c does what the user says. */
#ifndef DESK_H
#define DESK_H

#include "host.h"

#define EDITS 16      /* edits that can be open at a time */
#define LINE_MOST 512 /* characters of a command */

/* An edit of the user that the desk has not seen in its map yet. */
typedef struct edit {
    uint8_t key[CHP_KEY_MOST], value[CHP_VALUE_MOST];
    size_t key_length, value_length; /* no key: this place is free */
    unsigned times;                  /* how often it was sent */
    uint64_t sent;                   /* the tick of the last time */
    uint64_t number;                 /* of the desk, at the first time */
} edit;

/* A desk listens while its client waits and there is no dealer; it asks while there is one; then its client is live. */
typedef struct desk {
    const char *name, *subtree;
    unsigned port;
    int mark; /* the high-water mark of the subscriber */
    void *context, *publisher, *subscriber, *dealer;
    chp_client client;
    uint64_t now;   /* the tick of this round */
    uint64_t asked; /* the tick of the last ICANHAZ */
    uint64_t quiet; /* milliseconds since the last published message, as long as this desk was running */
    edit edits[EDITS];
    char line[LINE_MOST + 1];
    size_t line_length;
    int ended;
} desk;

/* Reads what the user wrote, and runs each line that is complete. */
void read_commands(desk *d);

/* Sends each open edit, if it is due, and closes it once the map has it. */
void settle_edits(desk *d);

#endif
