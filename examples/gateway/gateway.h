/* One end over a TCP socket: what the server and the client have in common. */
#ifndef GATEWAY_H
#define GATEWAY_H

#include "osi.h"

#include <stdbool.h>
#include <stdio.h>

/* A side makes no more calls while this many octets are outgoing. */
#define MOST_WAITING 262144u
/* It reads no more while this many octets are outgoing, because it answers what it reads. This bound is above that of calls:
 * otherwise two sides that both write much would stop reading, and wait for each other for ever. */
#define MOST_OUTGOING 524288u
/* If a peer gives no credit for this many octets of answers, its connection is answered no more and given up. */
#define MOST_UNSENT 16384u
/* The most octets that a turn reads: some 700 messages of one octet. So a peer that sends without a pause delays no other. */
#define MOST_READ 8192u

struct gateway {
    osi_end end;
    int socket;            /* below 0 once it is closed */
    const char *side;      /* "left" calls, "right" is called */
    FILE *log;             /* the log of indications; NULL for none. It stays open */
    FILE *sent, *came;     /* the octets of each direction, as hexadecimal digits; NULL for none */
    FILE *trace;           /* the lines of all packets, > for sent and < for received ones; NULL for none */
    size_t stall_at;       /* stops for good once this many octets were sent; 0 for never */
    size_t sent_octets;
    /* In milliseconds: how long the peer may take, from each of the times below. The first indication has to come. */
    long long patience;
    long long now, began;  /* the begin of this turn, and of the first one */
    long long moved;       /* octets were last read or written */
    long long whole;       /* no packet or data was incomplete, or one was completed */
    long long written;     /* octets were last written, or none waited for the socket */
    long long shown_at;    /* the user last received an indication */
    bool was_heard;        /* the peer sent something */
    bool was_shown;        /* the user has received an indication */
    bool has_more;         /* the user makes more calls as soon as gateway_may_send */
    /* Called with each indication, which is lent until this function calls the end. */
    void (*shown)(struct gateway *, const osi_indication *);
    /* Called to make more calls, after what came was taken and after octets were written; NULL for none. */
    void (*more)(struct gateway *);
    void *user;
};

/* The command line: switches with a value, such as --port 4000. */
const char *option(int count, char **words, const char *name, const char *otherwise);

/* The file that --log FILE|- names, open for writing; NULL for none. */
FILE *log_file(int count, char **words);

/* An end on a socket, with the switches of the command line that both sides have:
 *
 *   --classes 0|2|20   the transport classes; --window 1 .. 15, of class 2
 *   --wait SECONDS     how long to wait for a peer; 10
 *   --capture NAME     the octets of each direction, in NAME.left and NAME.right, and the lines of both in NAME.trace */
bool gateway_open(struct gateway *g, int socket, bool calls, int count, char **words);

/* The events that poll has to wait for at the socket, and for how many milliseconds at most. */
short gateway_events(struct gateway *g);
int gateway_timeout(struct gateway *g);

/* Reads and writes without blocking: one read of at most MOST_READ octets, if poll found something to read, and one write of all
 * that this and earlier calls gave. False once there is nothing left to do, because this side or the other has closed the byte
 * connection, or because the peer was given up. */
bool gateway_turn(struct gateway *g, short found);

/* Whether the first peer is less active than the second: it has no session, or has sent nothing whole for longer. */
bool gateway_is_less_active(const struct gateway *g, const struct gateway *other);

/* Gives the peer up, and logs why. gateway_turn then answers false. */
void gateway_give_up(struct gateway *g, const char *why);

/* Whether a side may make more calls: few octets are outgoing, and none wait for the peer's credit. Those would be copied, to be
 * kept until it comes. */
bool gateway_may_send(struct gateway *g);

/* Whether a connection may be answered. If its peer keeps asking and gives no credit for the answers, it is given up. */
bool gateway_may_answer(struct gateway *g, uint16_t reference);

/* Writes a call to the log, such as "left 1 data ok", and answers whether it was done. */
bool gateway_did(struct gateway *g, unsigned reference, const char *call, uint32_t code);

/* Closes everything but the log. */
void gateway_close(struct gateway *g);

/* The name of a code, such as "TokenNotHeld". */
const char *code_name(uint32_t code);

#endif
