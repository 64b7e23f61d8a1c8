/* The lines of a script (docs/TOOL.md), and more for one end by itself:
 *   feed SIDE DATA    this side is fed octets that no end of the script has sent
 *   drop SIDE         what this side has to send is taken away and carried to nobody
 *   wants SIDE DATA   what this side has to send is just this
 *   shows LINE        the last line of the transcript
 *   holds SIDE REF TT the tokens that this side holds
 * `ends` also takes `-` for an end with no class and a sixth word, the window of the right end, and
 * `connect` two more behind the sizes, the transport addresses of the caller and of the called side. */
#ifndef TRIALS_SCRIPTS_H
#define TRIALS_SCRIPTS_H

#include "osi.h"

enum { LEFT = 0, RIGHT = 1 };

enum kind { ENDS, CONNECT, CARRY, BREAK, TOLD, CALL, FEED, DROP, WANTS, SHOWS, HOLDS };

enum verb {
    ACCEPT, REFUSE, DATA, GIVE, PLEASE, MINOR, MINOR_CONFIRM, MAJOR, MAJOR_CONFIRM, RESTART,
    RESTART_CONFIRM, RELEASE, RELEASE_ACCEPT, RELEASE_REFUSE, ABORT
};

/* One line. Which fields it has, its kind and verb say. */
struct event {
    enum kind kind;
    enum verb verb;
    int side;
    uint16_t reference;
    uint16_t units;
    uint32_t number;    /* serial number, or the octets to carry, or those that the left side keeps */
    uint32_t other;     /* those that the right side keeps */
    osi_sides sides;
    uint16_t sizes[2]; /* octets of a TSDU of the asker and of the answerer; 0: no limit */
    uint8_t tokens;
    uint8_t confirm;
    osi_terms terms[2];
    uint8_t *data;
    size_t length;
    uint8_t *addresses[2];
    size_t address_lengths[2];
};

struct script {
    char name[64];
    struct event *events;
    size_t count;
    size_t room;
};

extern const char *const verb_names[];
extern const char *const side_names[];

/* Reads trials/scripts/NAME.script. A line that cannot be read ends the program. */
struct script script_read(const char *name);
/* The same with other ends: classes (OSI_CLASS_0, OSI_CLASS_2) of both sides, size and window. */
void script_terms(struct script *script, uint8_t classes, uint8_t size, uint8_t window);
/* The same with these sizes of TSDUs in each connect and accept: octets of the asker's and of the
 * answerer's. */
void script_sizes(struct script *script, uint16_t from_asker, uint16_t from_answerer);
/* Adds an event, whose octets stay those of the script that it comes from. */
void script_add(struct script *script, struct event event);
/* An event without octets. */
struct event event_of(enum kind kind, int side, uint32_t number, uint32_t other);
/* The octets of hexadecimal digits; none for "-". They are never freed. */
uint8_t *octets_of(const char *digits, size_t *length);

#endif
