/* One end over a TCP socket that never blocks: the caller calls `poll`, and passes its answer. */
#ifndef LINK_H
#define LINK_H

#include "osi.h"

#include <stdbool.h>
#include <stdio.h>

/* A side reads no more while this many octets wait to be sent. */
#define MOST_WAITING 65536u
/* If an end keeps this many octets of an incomplete packet or of incomplete data, its peer sends too much: a
 * packet has at most 65,535 octets, and a PDU of MMS has the agreed length. */
#define MOST_KEPT 131072u

struct link {
    osi_end end;
    int socket;              /* -1 once it is closed */
    FILE *sent, *came;       /* the octets of each direction, as hexadecimal digits; NULL for none */
    bool awaits_proxy;       /* a line of the PROXY protocol comes first */
    char line[108];          /* the octets of that line so far */
    size_t line_length;
    bool was_live;           /* a connection was live: once none is, this side closes */
    double sent_all;         /* when all octets were last sent, in seconds of `now` */
    double was_whole;        /* when a packet or data was last completed, or nothing incomplete was kept */
    double heard;            /* when octets were last received */
    /* Called with each indication, which is lent until this function calls the end. */
    void (*shown)(struct link *, const osi_indication *);
    void *user;
};

/* Seconds of a monotonic clock. */
double now(void);

/* A socket that listens on this port of one address of this host, or of all addresses if it is NULL (IPv6 and
 * IPv4). With `share`, other processes may listen on the same port. If it fails, it answers -1 after one line
 * on standard error that says why. */
int link_listen(const char *program, const char *host, unsigned long port, bool share);
/* The port that a socket listens on. */
int link_port(int listener);
/* A connection to this port, by any address of the host, with at most this many seconds for each; -1 in the
 * same way. */
int link_connect(const char *program, const char *host, unsigned long port, double wait);

/* An end on a socket. With `capture` the octets that the calling side sends go into NAME.left, and the others
 * into NAME.right. False if memory runs out or a file can't be made. */
bool link_open(struct link *l, int socket, bool calls, const osi_terms *terms, const char *capture);
/* The events to wait for, as `poll` takes them. */
short link_awaits(struct link *l);
/* Reads once and writes once, after `poll` answered this. False once there is nothing left to do, because this
 * side or the other has closed the byte connection. */
bool link_turn(struct link *l, short came);
/* Whether for this many seconds octets have waited to be sent, or a packet or data has stayed incomplete; or
 * whether too many octets are kept. */
bool link_is_stuck(struct link *l, double wait);
/* Closes the byte connection. A user who doesn't yet know that the connection is over is told. */
void link_break(struct link *l);
/* Frees everything. */
void link_close(struct link *l);

#endif
