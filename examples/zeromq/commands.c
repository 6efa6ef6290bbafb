/* What the user of a desk can say, one command to a line:
 *
 *     set KEY VALUE            sets a key of the subtree; without VALUE removes it
 *     fill COUNT KEY [BYTES]   sends COUNT updates of a key at once: the values 1 to COUNT, each padded to BYTES
 *     big KEY BYTES            sends an update with a value of BYTES bytes, which may be too long
 *     six KEY                  sends an update with a sixth part
 *     map                      prints the map and its number
 *     look KEY                 prints a value
 *     quit
 */
#define _POSIX_C_SOURCE 200809L
#include "desk.h"

#include <string.h>
#include <unistd.h>

#define AGAIN_MS 500        /* from one sending of an edit to the next */
#define TIMES_MOST 60       /* an edit is sent this often, then given up */
#define COUNT_MOST 10000000 /* of fill */
#define BIG_MOST 10000000   /* bytes of big */

typedef struct command {
    const char *word;
    void (*run)(desk *d, char *rest);
} command;

/* Ends a text at its first blank. Returns what follows the blank; the end of the text if there is none. */
static char *cut(char *text)
{
    char *blank = strchr(text, ' ');
    if (!blank) return text + strlen(text);
    *blank = '\0';
    return blank + 1;
}

/* Writes and sends a KVSET: 1, or 0 if it was refused. */
static int send_update(desk *d, const uint8_t *key, size_t key_length, const uint8_t *value, size_t value_length)
{
    uint8_t out[CHP_KVPUB_MOST];
    chp_answer a = chp_client_write_kvset(&d->client, key, key_length, NULL, 0, NULL, 0, value, value_length, out,
        sizeof out);
    if (a.kind != CHP_WROTE) {
        print_refusal(d->name, "update", a);
        return 0;
    }
    if (send_messages(d->publisher, out, a.written) != 0) fail("update");
    return 1;
}

/* ---- Edits ---- */

/* Prints a line that begins with an edit. */
static void print_edit(const desk *d, const edit *e, const char *what)
{
    printf("%s: ", d->name);
    print_bytes(e->key, e->key_length);
    if (e->value_length > 0) printf(" = ");
    print_bytes(e->value, e->value_length);
    printf(" %s at number %" PRIu64 "\n", what, d->client.header.number);
}

/* Whether the map has the edit, at a number above the one at which it was first sent. */
static int is_settled(const desk *d, const edit *e)
{
    uint8_t value[CHP_VALUE_MOST];
    chp_answer a = chp_client_lookup(&d->client, e->key, e->key_length, value, sizeof value);
    if (a.number <= e->number) return 0;
    if (a.kind == CHP_ABSENT) return e->value_length == 0;
    return a.kind == CHP_FOUND && a.written == e->value_length && memcmp(value, e->value, e->value_length) == 0;
}

/* An update can be lost: a PUB socket drops it while the server's subscription has not reached it yet. So it is sent
 * until the map has it. The server may also refuse it, and does not tell: so the desk gives up at some time. */
static void settle_edit(desk *d, edit *e)
{
    if (e->times > 0 && is_settled(d, e)) {
        print_edit(d, e, e->value_length > 0 ? "is set" : "is removed");
        e->key_length = 0;
    } else if (e->times == TIMES_MOST) {
        print_edit(d, e, "is given up");
        e->key_length = 0;
    } else if (e->times == 0 || d->now - e->sent >= AGAIN_MS) {
        if (e->times == 0) e->number = d->client.header.number;
        e->times++;
        e->sent = d->now;
        send_update(d, e->key, e->key_length, e->value, e->value_length);
    }
}

void settle_edits(desk *d)
{
    size_t i;
    if (!d->client.header.phase) return;
    for (i = 0; i < EDITS; i++)
        if (d->edits[i].key_length > 0) settle_edit(d, &d->edits[i]);
}

/* The open edit of the same key, which the new one replaces; otherwise a free place, or NULL. */
static edit *place_for(desk *d, const char *key)
{
    edit *place = NULL;
    size_t i;
    for (i = 0; i < EDITS; i++) {
        edit *e = &d->edits[i];
        if (e->key_length == strlen(key) && memcmp(e->key, key, e->key_length) == 0) return e;
        if (e->key_length == 0 && !place) place = e;
    }
    return place;
}

/* ---- Commands ---- */

static void set(desk *d, char *key)
{
    char *value = cut(key);
    edit *e = place_for(d, key);
    if (!chp_is_key((uint8_t *)key, strlen(key)) || strlen(value) > CHP_VALUE_MOST) {
        printf("%s: malformed key, or a value of more than %d bytes\n", d->name, CHP_VALUE_MOST);
    } else if (!chp_is_under((const uint8_t *)d->subtree, strlen(d->subtree), (uint8_t *)key, strlen(key))) {
        printf("%s: %s is not under %s: this desk would not see it set\n", d->name, key, d->subtree);
    } else if (!e) {
        printf("%s: %d edits are open already\n", d->name, EDITS);
    } else {
        e->key_length = strlen(key);
        memcpy(e->key, key, e->key_length);
        e->value_length = strlen(value);
        memcpy(e->value, value, e->value_length);
        e->times = 0;
    }
}

/* Sends a value that is a number, padded with points: 1, or 0 if it was refused. */
static int send_padded(desk *d, const char *key, uint64_t number, size_t length)
{
    char value[CHP_VALUE_MOST];
    size_t digits = (size_t)snprintf(value, sizeof value, "%" PRIu64, number);
    memset(value + digits, '.', sizeof value - digits);
    return send_update(d, (const uint8_t *)key, strlen(key), (uint8_t *)value, length > digits ? length : digits);
}

static void fill(desk *d, char *rest)
{
    char *key = cut(rest), *bytes = cut(key);
    uint64_t count, length, i;
    if (!read_number(rest, COUNT_MOST, &count) || !read_number(*bytes ? bytes : "0", CHP_VALUE_MOST, &length)) {
        printf("%s: usage: fill COUNT KEY [BYTES]\n", d->name);
        return;
    }
    for (i = 1; i <= count; i++)
        if (!send_padded(d, key, i, (size_t)length)) return;
    printf("%s: %" PRIu64 " updates of %s are sent\n", d->name, count, key);
}

/* Sends the parts of a KVSET as they are, and a sixth one if count is 6. The library would write none of these. */
static void send_raw(desk *d, const char *key, const void *value, size_t value_length, int count)
{
    const void *parts[6] = {key, "\0\0\0\0\0\0\0\0", "", "", value, "six"};
    const size_t lengths[6] = {strlen(key), 8, 0, 0, value_length, 3};
    int i = 0;
    while (i < count) {
        if (zmq_send(d->publisher, parts[i], lengths[i], i + 1 < count ? ZMQ_SNDMORE : 0) != -1)
            i++;
        else if (zmq_errno() != EINTR)
            fail("send");
    }
    printf("%s: %d parts are sent\n", d->name, count);
}

static void big(desk *d, char *key)
{
    char *bytes = cut(key);
    uint64_t length;
    void *value;
    if (!read_number(bytes, BIG_MOST, &length)) {
        printf("%s: usage: big KEY BYTES\n", d->name);
        return;
    }
    value = calloc(1, (size_t)length + 1);
    if (!value) fail("memory");
    send_raw(d, key, value, (size_t)length, 5);
    free(value);
}

static void six(desk *d, char *key)
{
    send_raw(d, key, "cut", 3, 6);
}

static void map(desk *d, char *rest)
{
    chp_row row;
    size_t i;
    (void)rest;
    for (i = 0; chp_client_row(&d->client, i, &row); i++) {
        printf("%s: ", d->name);
        print_row(&row);
    }
    printf("%s: %u rows at number %" PRIu64 "%s\n", d->name, (unsigned)i, d->client.header.number,
        d->client.header.phase ? "" : ", waiting for the snapshot");
}

static void look(desk *d, char *key)
{
    uint8_t value[CHP_VALUE_MOST];
    chp_answer a = chp_client_lookup(&d->client, (uint8_t *)key, strlen(key), value, sizeof value);
    if (a.kind == CHP_REFUSED) {
        print_refusal(d->name, "look", a);
    } else if (a.kind == CHP_ABSENT) {
        printf("%s: %s is absent\n", d->name, key);
    } else {
        printf("%s: %s = ", d->name, key);
        print_bytes(value, a.written);
        printf("\n");
    }
}

static void quit(desk *d, char *rest)
{
    (void)rest;
    d->ended = 1;
}

static void run_command(desk *d, char *line)
{
    static const command commands[] = {
        {"set", set}, {"fill", fill}, {"big", big}, {"six", six}, {"map", map}, {"look", look}, {"quit", quit},
    };
    char *rest = cut(line);
    size_t i;
    for (i = 0; i < sizeof commands / sizeof commands[0]; i++) {
        if (strcmp(line, commands[i].word) == 0) {
            commands[i].run(d, rest);
            return;
        }
    }
    printf("%s: set, fill, big, six, map, look or quit?\n", d->name);
}

static void take_byte(desk *d, char byte)
{
    if (byte != '\n') {
        if (d->line_length <= LINE_MOST) d->line[d->line_length++] = byte;
        return;
    }
    if (d->line_length > LINE_MOST) {
        printf("%s: a command of more than %d characters\n", d->name, LINE_MOST);
    } else {
        d->line[d->line_length] = '\0';
        run_command(d, d->line);
    }
    d->line_length = 0;
}

/* The end of the input ends the desk as well. */
void read_commands(desk *d)
{
    char bytes[LINE_MOST];
    ssize_t length = read(STDIN_FILENO, bytes, sizeof bytes), i;
    if (length == 0 || (length == -1 && errno != EINTR)) d->ended = 1;
    for (i = 0; i < length && !d->ended; i++) take_byte(d, bytes[i]);
}
