/*
 * osi.h: one end of an OSI session (ITU-T X.225 version 2) over the transport classes 0 and 2 of
 * X.224 in TPKT packets (RFC 1006). You pass in the octets that you received, and it returns the
 * octets to send.
 *
 * Nothing here opens a socket, starts a thread, reads a clock or has global state: the whole state of
 * an end is in its osi_end. It is proved that each function does what its contract in crates/osi_c
 * says. docs/GUIDE.md is a guide, from an empty folder to a gateway.
 *
 * An end in ten lines, without the socket:
 *
 *     osi_end end = OSI_END;
 *     osi_terms terms = { OSI_CLASS_0, 13, 15 };
 *     osi_opening asked = OSI_OPENING;
 *     uint16_t connection;
 *     osi_indication shown;
 *     if (osi_caller(&end, &terms) || osi_connect(&end, &asked, &connection))
 *         return 1;                             // a code that is not OSI_OK, which is 0
 *     for (;;) {
 *         carry(&end);                          // write what osi_outgoing lends, then call osi_taken
 *         feed(&end);                           // read from the socket, then call osi_feed
 *         while (osi_next(&end, &shown))
 *             if (shown.tag == OSI_CONNECTED && osi_data(&end, shown.reference, (const uint8_t *)"hello", 5))
 *                 return 1;
 *     }                                         // until osi_ended, and then osi_free(&end)
 *
 * Later versions may add fields at the end of osi_opening and osi_indication. The functions that take
 * these structs are told their size, so a program that was compiled with an older header still works
 * with a newer library, as long as the soname has the same number. No other struct changes.
 *
 * What the caller owes, and nothing checks:
 *   - An osi_end begins as OSI_END, and only these functions read or write its fields. You may move it
 *     by value between two calls. The old place is then no end any more: set it to OSI_END before you
 *     use it again. An end that you don't free leaks.
 *   - An end is used by one thread at a time. Different ends share nothing.
 *   - Each pointer points to an object of its type, which is neither the osi_end nor octets that this
 *     end has lent. A null pointer is allowed only for octets of length 0, and in osi_free(NULL),
 *     which does nothing.
 *   - Octets that an end has lent (osi_outgoing, and user_data of an indication) are valid until the
 *     next call with this end. Don't write to them.
 *   - malloc, realloc and free belong to one allocator. Don't call these functions from a signal
 *     handler.
 */
#ifndef OSI_H
#define OSI_H

#include <stdbool.h>
#include <stddef.h>
#include <stdint.h>

/* The version of this header. The soname of the library has the first number, and the second too while
 * the first is 0, so a program loads only a library that fits the header it was compiled with. */
#define OSI_VERSION "0.2.0-dev"

/* The same as a number, for #if: 10,000 times the first, plus 100 times the second, plus the third. */
#define OSI_VERSION_NUM 200

/* Marks a function whose answer you have to look at, because even a correct program's call may be refused
 * or find no indication. GCC and Clang warn about a call that ignores it. */
#if defined(__GNUC__) && !defined(OSI_LOOK)
#define OSI_LOOK __attribute__((warn_unused_result))
#elif !defined(OSI_LOOK)
#define OSI_LOOK
#endif

#ifdef __cplusplus
extern "C" {
#endif

/* ---- an end ------------------------------------------------------------------------------- */

/* A slot that holds one end of a byte connection, or none. */
typedef struct osi_end {
    bool full;
    struct {
        void *at;
    } inner;
} osi_end;

/* An empty slot. Each slot begins as this. */
#ifdef __cplusplus
#define OSI_END { false, { nullptr } }
#else
#define OSI_END { false, { NULL } }
#endif

/* ---- codes: what the functions answer -----------------------------------------------------
 * Each function says which of these it answers. After any code but OSI_OK nothing has changed, unless
 * the function says otherwise.
 */
#define OSI_OK 0u                   /* done */
#define OSI_SLOT_EMPTY 1u           /* the slot holds no end */
#define OSI_BAD_ARGUMENT 2u         /* a number or a length is outside its range */
#define OSI_NO_MEMORY 3u            /* malloc or realloc failed; call again when there is memory */
#define OSI_IN_USE 4u               /* the slot holds an end already: free it first */
#define OSI_NOTHING 5u              /* no indication is pending; there are no addresses; no verdict is due */
#define OSI_NO_SUCH_CONNECTION 10u  /* this end never gave the reference; a judge knows no such number */
#define OSI_ENDED 11u               /* the connection, or the end, is over */
#define OSI_BAD_STATE 12u           /* the call is not allowed in this phase (X.225 annex A) */
#define OSI_NOT_SELECTED 13u        /* a functional unit or token isn't available, or units can't be combined */
#define OSI_TOKEN_NOT_HELD 14u      /* the call needs a token that the other side holds */
#define OSI_TOKEN_ALREADY_HELD 15u  /* the call asks for a token that this side holds */
#define OSI_BAD_NUMBER 16u          /* the call may not name a point of this number */
#define OSI_SERIALS_USED_UP 17u     /* all numbers of points, up to 999,999, are used */
#define OSI_EMPTY 18u               /* data without an octet, or a set without a token */
#define OSI_TOO_LONG 19u            /* too many octets; each call states its limit */
#define OSI_NOT_CALLER 20u          /* only the calling end asks for connections */
#define OSI_NEGOTIATING 21u         /* the first connection is not answered yet: ask again later */
#define OSI_ONE_CONNECTION 22u      /* the end uses class 0, which has one connection */
#define OSI_TOO_MANY 23u            /* 64 connections are live */
#define OSI_REFERENCES_USED_UP 24u  /* all 65,535 references are used */

/* ---- what is passed ------------------------------------------------------------------------ */

/* Octets, and how many. The pointer of lent octets is never null. */
typedef struct osi_octets {
    const uint8_t *at;
    size_t length;
} osi_octets;

/* No octets, as an osi_octets, and as the two arguments of a call. */
#ifdef __cplusplus
#define OSI_NO_OCTETS { nullptr, 0 }
#define OSI_NO_DATA nullptr, 0
#else
#define OSI_NO_OCTETS { NULL, 0 }
#define OSI_NO_DATA NULL, 0
#endif

/* The transport protocol of an end. */
typedef struct osi_terms {
    uint8_t classes; /* OSI_CLASS_0, OSI_CLASS_2 or both; a caller with neither takes class 0 */
    uint8_t size;    /* the exponent of the largest TPDU: 7 (128 octets) to 13 (8,192) */
    uint8_t window;  /* class 2: how many units the peer may send before this end acknowledges them, 1 to 15 */
} osi_terms;

#define OSI_CLASS_0 1u
#define OSI_CLASS_2 2u

/* Functional units (X.225 section 8): half-duplex with any of minor, major, resynchronize and
 * negotiated release; or duplex alone. */
#define OSI_HALF_DUPLEX 0x0001u
#define OSI_DUPLEX 0x0002u
#define OSI_MINOR_SYNC 0x0008u
#define OSI_MAJOR_SYNC 0x0010u
#define OSI_RESYNCHRONIZE 0x0020u
#define OSI_NEGOTIATED_RELEASE 0x0080u

/* Sets of tokens. A token is available if its functional unit is selected: half-duplex, minor, major
 * or negotiated release. Other bits are ignored. */
#define OSI_TOKEN_DATA 0x01u
#define OSI_TOKEN_MINOR 0x04u
#define OSI_TOKEN_MAJOR 0x10u
#define OSI_TOKEN_RELEASE 0x40u

/* Which side holds each token at first. */
typedef struct osi_sides {
    uint8_t data;
    uint8_t minor;
    uint8_t major;
    uint8_t release;
} osi_sides;

#define OSI_ASKER 0u    /* the side that asks for the connection or the restart */
#define OSI_ANSWERER 1u /* the side that answers */
#define OSI_CHOICE 2u   /* only in a wish: the answering side chooses */

/* Why a user refuses a connection (X.225 section 8.3.5). */
#define OSI_REFUSAL_UNSPECIFIED 0u /* no reason is given */
#define OSI_REFUSAL_CONGESTION 1u  /* temporary congestion: the caller may ask again later */
#define OSI_REFUSAL_WITH_DATA 2u   /* user data says why */

/* The parameters of a connection that you ask for. Begin with OSI_OPENING. */
typedef struct osi_opening {
    uint16_t requirements;       /* functional units */
    uint32_t serial;             /* the number of the first point, 0 to 999,999 */
    osi_sides wishes;            /* which side is to hold each token */
    osi_octets calling_tsap;     /* the transport address of this end, 1 to 32 octets; 0 octets: no address */
    osi_octets called_tsap;      /* that of the other end */
    osi_octets calling_selector; /* the session address of this user, 1 to 16 octets; 0 octets: no address */
    osi_octets called_selector;  /* that of the other user */
    osi_octets user_data;        /* at most 10,240 octets */
    uint16_t size_from_asker;    /* the most octets of a TSDU that this side sends: 64 to 65,535; 0: no limit */
    uint16_t size_from_answerer; /* the same for the TSDUs of the other side (X.225 section 8) */
} osi_opening;

#define OSI_OPENING \
    { OSI_HALF_DUPLEX, 0, { OSI_ASKER, OSI_ASKER, OSI_ASKER, OSI_ASKER }, \
      OSI_NO_OCTETS, OSI_NO_OCTETS, OSI_NO_OCTETS, OSI_NO_OCTETS, OSI_NO_OCTETS, 0, 0 }

/* ---- indications ----------------------------------------------------------------------------- */

/* Which indication it is (X.215 section 10), and which fields it has in addition to tag and reference. */
#define OSI_NONE 0u                  /* none */
#define OSI_CONNECT 1u               /* CN: requirements, number (if has_number), sides as wishes, user_data, sizes */
#define OSI_CONNECTED 2u             /* AC: requirements, number (if has_number), sides, user_data, sizes */
#define OSI_REFUSED_BY_TRANSPORT 3u  /* DR: reason (X.224 section 13.5.3) */
#define OSI_REFUSED_BY_SESSION 4u    /* RF: reason (0, 1 and 2 come from the called user), user_data */
#define OSI_DATA 5u                  /* DT: user_data, at least one octet */
#define OSI_GIVEN 6u                 /* GT: tokens */
#define OSI_ASKED 7u                 /* PT: tokens, user_data */
#define OSI_MINOR 8u                 /* MIP: number, confirm, user_data */
#define OSI_MINOR_CONFIRMED 9u       /* MIA: number, user_data */
#define OSI_MAJOR 10u                /* MAP: number, user_data */
#define OSI_MAJOR_CONFIRMED 11u      /* MAA: user_data */
#define OSI_RESTART 12u              /* RS: number, sides as wishes, user_data */
#define OSI_RESTARTED 13u            /* RA: number, sides, user_data */
#define OSI_RELEASE 14u              /* FN: user_data */
#define OSI_RELEASED 15u             /* DN: user_data */
#define OSI_RELEASE_REFUSED 16u      /* NF: user_data */
#define OSI_ABORTED 17u              /* AB of the peer's user: user_data */
#define OSI_LOST 18u                 /* the transport connection was closed, broke, or had a fault */
#define OSI_PEER_ABORT 19u           /* AB of the peer's provider: reason, the octet of its parameter 17 */
#define OSI_BAD_UNIT 20u             /* this end aborts because it received a bad unit: fault */

/* Why a received unit is bad. */
typedef struct osi_fault {
    uint8_t fault;     /* 1 spelling, 2 unexpected, 3 not selected, 4 token not held, 5 bad number, 6 bad tokens,
                          7 bad enclosure (a part of data that is out of its place), 8 data too long */
    uint8_t si;        /* 2 to 8: the SI of the unit */
    uint8_t spelling;  /* fault 1: 1 unknown SI, 2 length past end, 3 missing, 4 duplicate parameter, 5 bad value,
                          6 bad concatenation, 7 octets left over */
    uint8_t parameter; /* spelling 3, 4 and 5: the code of the parameter */
    uint64_t offset;   /* fault 1: the offset of the octet in the TSDU, from 0 */
} osi_fault;

/* An indication for the user of a connection. Fields that don't belong to the tag are 0, and user_data
 * then has no octets. */
typedef struct osi_indication {
    uint32_t tag;
    uint32_t number;       /* of a point, 0 to 999,999 */
    uint16_t reference;    /* this end's reference of the connection: 1 to 65,535, and 0 for none */
    uint16_t requirements; /* functional units */
    uint8_t has_number;    /* 1 if the CN or AC names a number, else 0 */
    uint8_t confirm;       /* 1 if the peer asks for the confirmation of the point, else 0 */
    uint8_t tokens;
    uint8_t reason;
    osi_sides sides;
    osi_fault fault;
    osi_octets user_data;  /* lent until the next call with this end */
    uint16_t size_from_asker;    /* the sizes that the CN or AC names: the most octets of a TSDU from the */
    uint16_t size_from_answerer; /* side that asked, and of one from the side that answers; 0: no limit */
} osi_indication;

/* ---- making and freeing ---------------------------------------------------------------------- */

/* Makes the calling end of a byte connection, or the called one. It has nothing to send yet.
 * OSI_OK, or the first that applies of OSI_BAD_ARGUMENT (terms), OSI_IN_USE and OSI_NO_MEMORY. */
uint32_t osi_caller(osi_end *end, const osi_terms *terms) OSI_LOOK;
uint32_t osi_called(osi_end *end, const osi_terms *terms) OSI_LOOK;

/* Frees the end that the slot holds, if any, with all octets that it has lent. You can use the slot
 * again. */
void osi_free(osi_end *end);

/* ---- connections ------------------------------------------------------------------------------ */

/* Asks for a connection, and writes its reference to *reference: 1 to 65,535, none of them twice. If the
 * call is refused, *reference keeps its value. The peer's answer comes as an indication: OSI_CONNECTED,
 * OSI_REFUSED_BY_*, or one that says why the connection is over.
 * OSI_OK, or the first that applies of OSI_BAD_ARGUMENT (serial, wishes, sizes, a transport address of
 * more than 32 octets, a field that an older library does not know), OSI_SLOT_EMPTY, OSI_NOT_CALLER,
 * OSI_ENDED, OSI_NEGOTIATING, OSI_ONE_CONNECTION, OSI_TOO_MANY, OSI_REFERENCES_USED_UP,
 * OSI_NOT_SELECTED, OSI_TOO_LONG and OSI_NO_MEMORY. */
uint32_t osi_connect_with_size(osi_end *end, const osi_opening *asked, size_t size, uint16_t *reference) OSI_LOOK;
static inline OSI_LOOK uint32_t osi_connect(osi_end *end, const osi_opening *asked, uint16_t *reference)
{
    return osi_connect_with_size(end, asked, sizeof *asked, reference);
}

/* ---- calls of the user of a connection (X.215 section 10) ---------------------------------------
 * User data has at most 10,240 octets, unless the call says otherwise, and is copied. Each call answers
 * OSI_OK, or the first that applies of OSI_BAD_ARGUMENT (if an argument has a range), OSI_SLOT_EMPTY,
 * OSI_NO_SUCH_CONNECTION, OSI_ENDED, OSI_BAD_STATE, OSI_NOT_SELECTED, OSI_TOKEN_NOT_HELD,
 * OSI_TOKEN_ALREADY_HELD, OSI_BAD_NUMBER, OSI_SERIALS_USED_UP, OSI_EMPTY, OSI_TOO_LONG and
 * OSI_NO_MEMORY. If it is done, osi_outgoing lends the octets that it sends, unless the peer's credit
 * holds them back (osi_unsent). */

/* Answers OSI_CONNECT. Select some of the units that the CN names: half-duplex, with or without others,
 * or duplex alone. The number is that of the first point, 0 to 999,999. The sides say who holds the
 * tokens whose choice the CN left to this side. osi_accept agrees to the sizes that the CN names.
 * osi_accept_sized passes sizes of its own, 64 to 65,535 octets or 0 for no limit: if the CN names a
 * size, the smaller of the two is agreed; if it names 0, there is no limit.
 *
 * A call that would send a TSDU above the agreed size answers OSI_TOO_LONG, with two exceptions: an
 * answer to OSI_CONNECT may have any length, and data that is longer leaves in parts, for which the
 * peer's user receives one indication. */
uint32_t osi_accept(osi_end *end, uint16_t reference, uint16_t requirements, uint32_t number,
                    const osi_sides *sides, const uint8_t *data, size_t length) OSI_LOOK;
uint32_t osi_accept_sized(osi_end *end, uint16_t reference, uint16_t requirements, uint32_t number,
                          const osi_sides *sides, uint16_t size_from_asker, uint16_t size_from_answerer,
                          const uint8_t *data, size_t length) OSI_LOOK;

/* Answers OSI_CONNECT by a refusal. osi_refuse sends OSI_REFUSAL_WITH_DATA if there is user data, and
 * OSI_REFUSAL_UNSPECIFIED if there is none. osi_refuse_with sends the reason that you name; only
 * OSI_REFUSAL_WITH_DATA may have user data, which may be empty. */
uint32_t osi_refuse(osi_end *end, uint16_t reference, const uint8_t *data, size_t length) OSI_LOOK;
uint32_t osi_refuse_with(osi_end *end, uint16_t reference, uint8_t reason, const uint8_t *data, size_t length) OSI_LOOK;

/* Sends data, 1 to 1,048,572 octets. */
uint32_t osi_data(osi_end *end, uint16_t reference, const uint8_t *data, size_t length) OSI_LOOK;

/* Gives tokens that this side holds, or asks for tokens that it doesn't hold: at least one. */
uint32_t osi_give(osi_end *end, uint16_t reference, uint8_t tokens) OSI_LOOK;
uint32_t osi_please(osi_end *end, uint16_t reference, uint8_t tokens, const uint8_t *data, size_t length) OSI_LOOK;

/* osi_minor sets a minor point. The point has the number that osi_next_serial answers before the call,
 * and its confirmation is asked for unless confirm is 0. osi_minor_confirm confirms all minor points up
 * to this number. */
uint32_t osi_minor(osi_end *end, uint16_t reference, uint8_t confirm, const uint8_t *data, size_t length) OSI_LOOK;
uint32_t osi_minor_confirm(osi_end *end, uint16_t reference, uint32_t number, const uint8_t *data, size_t length) OSI_LOOK;

/* osi_major sets a major point; osi_major_confirm answers OSI_MAJOR. */
uint32_t osi_major(osi_end *end, uint16_t reference, const uint8_t *data, size_t length) OSI_LOOK;
uint32_t osi_major_confirm(osi_end *end, uint16_t reference, const uint8_t *data, size_t length) OSI_LOOK;

/* osi_restart restarts at this number, which the next point then has; osi_restart_confirm answers
 * OSI_RESTART. */
uint32_t osi_restart(osi_end *end, uint16_t reference, uint32_t number, const osi_sides *wishes,
                     const uint8_t *data, size_t length) OSI_LOOK;
uint32_t osi_restart_confirm(osi_end *end, uint16_t reference, const osi_sides *sides,
                             const uint8_t *data, size_t length) OSI_LOOK;

/* osi_release asks for the release; the other two answer OSI_RELEASE. */
uint32_t osi_release(osi_end *end, uint16_t reference, const uint8_t *data, size_t length) OSI_LOOK;
uint32_t osi_release_accept(osi_end *end, uint16_t reference, const uint8_t *data, size_t length) OSI_LOOK;
uint32_t osi_release_refuse(osi_end *end, uint16_t reference, const uint8_t *data, size_t length) OSI_LOOK;

/* Aborts the connection. */
uint32_t osi_abort(osi_end *end, uint16_t reference, const uint8_t *data, size_t length) OSI_LOOK;

/* Gives up one connection at once, whatever it waits for (X.224 section 6.7). It drops the octets that
 * the peer's credit holds back (an osi_abort is sent only after these), and the pending indications of
 * this connection, which has no more of them. All other connections go on. In class 2 it appends a DR to
 * osi_outgoing, the peer's user receives OSI_LOST, and the connection is live until the peer answers. In
 * class 0 the end ends with OSI_END_CLOSED. If the connection is gone already, only its pending
 * indications are dropped. OSI_OK, OSI_SLOT_EMPTY, OSI_NO_SUCH_CONNECTION, OSI_BAD_STATE
 * (OSI_PHASE_WAIT_TRANSPORT: the peer has not answered the CR, and X.224 sends no DR before that; call
 * again in a later phase), OSI_NO_MEMORY (for the DR). */
uint32_t osi_disconnect(osi_end *end, uint16_t reference) OSI_LOOK;

/* ---- octets ------------------------------------------------------------------------------------- */

/* What osi_feed did. */
typedef struct osi_fed {
    size_t used; /* how many octets of the piece were used, from the first */
    bool waits;  /* an indication is pending */
} osi_fed;

/* Feeds octets that you received from the peer, in their order, cut in any way. It stops after a packet
 * that causes an indication, and uses nothing while one is pending: fetch all indications, and then feed
 * the rest of the piece. Once the end has ended, it uses everything. If memory runs out, the end ends
 * (OSI_END_NO_MEMORY). If the slot holds no end, it uses nothing and no indication is pending. OSI_OK,
 * OSI_SLOT_EMPTY. */
uint32_t osi_feed(osi_end *end, const uint8_t *piece, size_t length, osi_fed *fed);

/* Lends the octets to send to the peer, in their order; none if the slot holds no end. They are valid
 * until the next call with this end. The end stays as it is. */
void osi_outgoing(osi_end *end, osi_octets *octets);

/* Whether osi_outgoing would lend an octet. If so, wait until you can write to the socket. */
bool osi_wants_write(osi_end *end);

/* Says that you have sent this many of the octets that osi_outgoing lends, from the first. OSI_OK,
 * OSI_SLOT_EMPTY, OSI_BAD_ARGUMENT (it lends fewer). */
uint32_t osi_taken(osi_end *end, size_t octets);

/* Says that the byte connection is over: it broke, or the peer closed it. Each user who doesn't yet know
 * that his connection is over then receives OSI_LOST. If the end has ended, nothing changes. OSI_OK,
 * OSI_SLOT_EMPTY. */
uint32_t osi_broken(osi_end *end);

/* Why the end has ended. *detail is 0, unless the list below says what it is. If the end has ended, send
 * the rest of osi_outgoing (unless the byte connection broke), and then close the byte connection. */
#define OSI_END_NONE 0u                 /* it has not ended, or the slot holds no end */
#define OSI_END_BROKEN 1u               /* osi_broken */
#define OSI_END_CLOSED 2u               /* its connection of class 0 was closed here */
#define OSI_END_PEER_CLOSED 3u          /* the peer closed it by a DR: detail is the reason */
#define OSI_END_NO_MEMORY 4u            /* memory ran out in osi_feed */
#define OSI_END_UNKNOWN_REFERENCE 5u    /* this and those below: the peer broke a rule of X.224 or RFC 1006 */
#define OSI_END_BAD_ANSWER 6u
#define OSI_END_UNEXPECTED_UNIT 7u
#define OSI_END_BAD_VERSION 10u         /* detail: the offset of the packet's first octet in the stream */
#define OSI_END_BAD_LENGTH 11u          /* the same */
#define OSI_END_NO_MEMORY_FOR_PACKET 12u
#define OSI_END_BAD_LI 13u              /* 13 to 17: detail is the offset of the octet in the packet's units */
#define OSI_END_UNKNOWN_CODE 14u
#define OSI_END_BAD_PARAMETER_LENGTH 15u
#define OSI_END_BAD_PARAMETER_VALUE 16u
#define OSI_END_DUPLICATE_PARAMETER 17u
#define OSI_END_WRONG_FORM 18u
#define OSI_END_OUT_OF_SEQUENCE 19u
#define OSI_END_CREDIT_REDUCED 20u
#define OSI_END_TSDU_TOO_LONG 21u
#define OSI_END_NO_MEMORY_FOR_TSDU 22u
uint32_t osi_ended(osi_end *end, uint64_t *detail);

/* Whether you may close the byte connection now: osi_outgoing lends nothing, and either the end has
 * ended, or there were connections and none is live. Ask after you have fetched all indications. If you
 * want to ask for another connection, keep the byte connection open. False if the slot holds no end. */
bool osi_is_over(osi_end *end);

/* How many octets the end keeps of a packet, of TSDUs and of data in parts that are not whole yet: at
 * most 65,535, and 2,097,148 for each live connection (1,048,576 of a TSDU, 1,048,572 of data). */
size_t osi_kept(osi_end *end);

/* How many octets of a connection's TSDUs the peer's credit holds back in class 2, so that osi_outgoing
 * does not lend them yet. They leave when you feed the peer's acknowledgements. 0 for a connection that is
 * gone or never was. */
size_t osi_unsent(osi_end *end, uint16_t reference);

/* The sum over all connections; SIZE_MAX if it is larger. */
size_t osi_backlog(osi_end *end);

/* How many connections are live, at most 64: those whose transport connection is being opened, open or
 * closing. */
size_t osi_live(osi_end *end);

/* ---- fetching indications -------------------------------------------------------------------------- */

/* Fetches the oldest indication of the connection with the lowest reference that has one. It allocates
 * nothing. OSI_OK, OSI_NOTHING (none is pending, and the last one is forgotten), OSI_SLOT_EMPTY. */
uint32_t osi_fetch(osi_end *end) OSI_LOOK;

/* Writes the indication that was fetched last to *shown; OSI_NONE if there is none. The end stays as it is. */
void osi_last_with_size(osi_end *end, osi_indication *shown, size_t size);
static inline void osi_last(osi_end *end, osi_indication *shown)
{
    osi_last_with_size(end, shown, sizeof *shown);
}

/* Fetches an indication and writes it to *shown. Answers whether there was one. */
static inline OSI_LOOK bool osi_next(osi_end *end, osi_indication *shown)
{
    uint32_t code = osi_fetch(end);
    osi_last(end, shown);
    return code == OSI_OK;
}

/* ---- the state of a connection ----------------------------------------------------------------------- */

/* The phase of a connection. OSI_PHASE_NONE for a reference that was never given, or if the slot holds no
 * end; OSI_PHASE_ENDED once the connection is gone. */
#define OSI_PHASE_NONE 0u
#define OSI_PHASE_WAIT_TRANSPORT 1u
#define OSI_PHASE_WAIT_CN 2u
#define OSI_PHASE_CONNECTING 3u
#define OSI_PHASE_ANSWERING 4u
#define OSI_PHASE_READY 5u
#define OSI_PHASE_MAJOR_ASKED 6u
#define OSI_PHASE_MAJOR_DUE 7u
#define OSI_PHASE_RELEASING 8u
#define OSI_PHASE_RELEASE_DUE 9u
#define OSI_PHASE_RESTARTING 10u
#define OSI_PHASE_RESTART_DUE 11u
#define OSI_PHASE_ABORTING 12u
#define OSI_PHASE_ENDED 13u
uint32_t osi_phase(osi_end *end, uint16_t reference);

/* The tokens that this end holds; none for a connection that is gone or never was. */
uint8_t osi_held(osi_end *end, uint16_t reference);

/* V(M), the number of the next point; V(A), below which all are confirmed; V(R), the lowest number at
 * which this end may restart. Each is 0 for a connection that is gone or never was. */
uint32_t osi_next_serial(osi_end *end, uint16_t reference);
uint32_t osi_confirmed_below(osi_end *end, uint16_t reference);
uint32_t osi_lowest_restart(osi_end *end, uint16_t reference);

/* ---- addresses --------------------------------------------------------------------------------------- */

/* A transport address: its first length octets. A length of 0 means that there is no address. */
typedef struct osi_tsap {
    uint8_t octets[32];
    uint8_t length;
} osi_tsap;

/* A session address, in the same form. */
typedef struct osi_selector {
    uint8_t octets[16];
    uint8_t length;
} osi_selector;

/* The addresses of a connection: those of its CR (X.224 section 13.3.4) and of its CN (X.225 section 8). */
typedef struct osi_addressing {
    osi_tsap calling_tsap;         /* the transport address of the end that asks */
    osi_tsap called_tsap;          /* that of the other end */
    osi_selector calling_selector; /* the session address of the user that asks */
    osi_selector called_selector;  /* that of the other user */
} osi_addressing;

/* Writes the addresses of a connection to *shown: those that you asked for, or on the called side those
 * of the peer's CR and CN, from the moment OSI_CONNECT is pending until the connection is gone. A server can
 * tell associations on one port apart by the user that is called. The end stays as it is. OSI_OK,
 * OSI_NOTHING (the connection is gone or never was, or its CN has not come yet; the struct then has no
 * address), OSI_SLOT_EMPTY (the same). */
uint32_t osi_addresses(osi_end *end, uint16_t reference, osi_addressing *shown);

/* ---- trace and counters -------------------------------------------------------------------------------- */

/* What osi_trace begins. */
#define OSI_TRACE_OFF 0u    /* no trace */
#define OSI_TRACE_COUNTS 1u /* counters only */
#define OSI_TRACE_LINES 2u  /* counters, and lines for a log */

/* Begins a trace in both directions: of the octets that osi_feed uses, and of those that osi_taken says
 * are sent. It ends an earlier trace. An end begins without one. Call it right after osi_caller or
 * osi_called: the first octet that a trace takes has to begin a packet. OSI_OK, or the first that applies
 * of OSI_BAD_ARGUMENT (none of the three) and OSI_SLOT_EMPTY.
 *
 * A trace never changes what the end does, and its memory is bounded: in each direction it keeps a packet
 * and TSDUs that are not whole yet (as osi_kept, but of at most 64 DST-REFs), and at most 1,048,576 octets
 * of lines that you have not fetched. If it would keep more, or if an allocation fails, the trace of this
 * direction stops. osi_trace_fetch says so. */
uint32_t osi_trace(osi_end *end, uint32_t what) OSI_LOOK;

/* The direction of a trace. */
#define OSI_RECEIVED 0u
#define OSI_SENT 1u

/* Fetches the lines of a direction that you have not fetched: what `osi show` prints for the packets that
 * were whole since then. OSI_OK, or the first that applies of OSI_BAD_ARGUMENT (no direction),
 * OSI_SLOT_EMPTY, OSI_NO_MEMORY (this trace has stopped; you are told once, after its last lines, and then
 * the direction has no trace) and OSI_NOTHING (no lines). After any of these but the first two,
 * osi_trace_lines lends what was fetched. */
uint32_t osi_trace_fetch(osi_end *end, uint32_t direction) OSI_LOOK;

/* Lends the lines that were fetched last, each with its line feed. They are valid until the next call with
 * this end. The end stays as it is. */
void osi_trace_lines(osi_end *end, osi_octets *lines);

/* A function for a log: it is called with each line, without its line feed. text is NULL if the trace of
 * this direction has stopped. It may not call the end. */
typedef void osi_on_line(void *context, uint32_t direction, const char *text, size_t length);

/* Fetches the lines of both directions and passes each to a function. Call it after osi_feed and after
 * osi_taken; then the lines come in the order in which the packets passed. */
static inline void osi_trace_each(osi_end *end, osi_on_line *on_line, void *context)
{
    for (uint32_t direction = OSI_RECEIVED; direction <= OSI_SENT; direction++) {
        osi_octets lines;
        uint32_t code = osi_trace_fetch(end, direction);
        osi_trace_lines(end, &lines);
#ifdef __cplusplus
        const char *text = reinterpret_cast<const char *>(lines.at);
#else
        const char *text = (const char *)lines.at;
#endif
        for (size_t from = 0, to = 0; code == OSI_OK && to < lines.length; to++)
            if (text[to] == '\n') {
                on_line(context, direction, text + from, to - from);
                from = to + 1;
            }
        if (code == OSI_NO_MEMORY)
            on_line(context, direction, NULL, 0);
    }
}

/* What the trace of one direction has counted. A trace that has stopped counts no more: of the piece in which
 * it stopped, it has counted everything or nothing. Once osi_trace_fetch has told you that it has stopped, the
 * direction has no trace, and all is 0. */
typedef struct osi_tally {
    uint64_t octets;        /* octets */
    uint64_t packets;       /* packets (RFC 1006 section 6) */
    uint64_t units;         /* transport units (X.224 section 13) */
    uint64_t tsdus;         /* whole TSDUs */
    uint64_t session_units; /* session units (X.225 section 8) */
    uint64_t refused;       /* packets, transport units and TSDUs that break a rule of spelling */
} osi_tally;

/* Both directions. */
typedef struct osi_counters {
    osi_tally received;
    osi_tally sent;
} osi_counters;

/* Writes the counters to *shown: all 0 for a direction without a trace, and if the slot holds no end. The
 * end stays as it is. */
void osi_counts(osi_end *end, osi_counters *shown);

/* ---- judging a byte connection that passes ---------------------------------------------------------------
 * A judge is fed a byte connection between two other programs, and says which side first sent what no
 * conforming end could have sent there (docs/JUDGING.md). It needs no osi_end. It judges both classes of
 * transport and any number of connections: the transport of each side, and the session of each side of each
 * connection. It says what `osi judge` says, while the octets pass.
 *
 *     osi_judge judge = OSI_JUDGE;
 *     osi_verdict verdict;
 *     char line[OSI_VERDICT_TEXT];
 *     size_t used;
 *     if (osi_judge_new(&judge))
 *         return 1;                             // OSI_NO_MEMORY
 *     while (next_piece(&side, &piece, &length)) {
 *         if (osi_judge_feed(&judge, side, piece, length, &used))
 *             return 1;                         // OSI_NO_MEMORY: feed the rest again
 *         while (osi_judge_next(&judge, &verdict) == OSI_OK) {
 *             osi_verdict_text(&verdict, line, sizeof line);
 *             puts(line);                       // left 1 broke packet 143 Data TokenNotHeld
 *         }
 *     }
 *     osi_judge_free(&judge);
 *
 * What the caller owes is what he owes to an osi_end: an osi_judge begins as OSI_JUDGE, only these
 * functions read or write its fields, one thread at a time uses it, and text that it lends is valid until
 * the next call with it.
 */

/* A slot that holds the judge of a byte connection, or none. */
typedef struct osi_judge {
    bool full;
    struct {
        void *at;
    } inner;
} osi_judge;

/* An empty slot. Each slot begins as this. */
#ifdef __cplusplus
#define OSI_JUDGE { false, { nullptr } }
#else
#define OSI_JUDGE { false, { NULL } }
#endif

/* The sides of a connection. */
#define OSI_LEFT 0u  /* the side that opened the byte connection, and sent the CR */
#define OSI_RIGHT 1u /* the other side */

/* What a verdict says. OSI_VERDICT_KEPT may change while octets pass. The others may change only to
 * OSI_VERDICT_NONE, if the other side leaves the profile. */
#define OSI_VERDICT_NONE 0u       /* nothing: the other side of the connection left the profile */
#define OSI_VERDICT_KEPT 1u       /* all that was judged of it is what a conforming end may send */
#define OSI_VERDICT_BROKE 2u      /* it broke the protocol: said, rule, offset */
#define OSI_VERDICT_LEAVES 3u     /* it sent what X.225 allows and this product leaves out: said, offset */
#define OSI_VERDICT_TOO_MANY 4u   /* more than 4,096 sessions explain it, so it is judged no further */
#define OSI_VERDICT_NOT_JUDGED 5u /* it is judged no further: rule says why */

/* The rule that a side broke. 10 to 19: a session there would refuse the call that sends it, with the code
 * of the same number. */
#define OSI_RULE_NONE 0u
#define OSI_RULE_NO_SUCH_CONNECTION 10u
#define OSI_RULE_ENDED 11u
#define OSI_RULE_BAD_STATE 12u
#define OSI_RULE_NOT_SELECTED 13u
#define OSI_RULE_TOKEN_NOT_HELD 14u
#define OSI_RULE_TOKEN_ALREADY_HELD 15u
#define OSI_RULE_BAD_NUMBER 16u
#define OSI_RULE_SERIALS_USED_UP 17u
#define OSI_RULE_EMPTY 18u
#define OSI_RULE_TOO_LONG 19u
#define OSI_RULE_BAD_TOKENS 30u             /* it settles a token that the other side has settled */
#define OSI_RULE_BAD_ENCLOSURE 31u          /* a part of data is out of its place */
#define OSI_RULE_NO_FAULT 32u               /* it aborts for a protocol error that nobody made */
#define OSI_RULE_NOTHING_TO_ANSWER 33u      /* AA without an AB, or DC without a DR */
#define OSI_RULE_OUTSIDE 34u                /* what this product leaves out */
#define OSI_RULE_UNKNOWN_SI 40u             /* 40 to 46: the TSDU is no session units (X.225 section 8) */
#define OSI_RULE_LENGTH_PAST_END 41u
#define OSI_RULE_MISSING_PARAMETER 42u
#define OSI_RULE_DUPLICATE_PARAMETER 43u
#define OSI_RULE_BAD_VALUE 44u
#define OSI_RULE_BAD_CONCATENATION 45u
#define OSI_RULE_TRAILING_OCTETS 46u
#define OSI_RULE_NO_OPENING 50u             /* no break: it begins in the middle of a connection */
#define OSI_RULE_BAD_VERSION 54u            /* 54 and 55: no packet begins there (RFC 1006 section 6) */
#define OSI_RULE_BAD_LENGTH 55u
#define OSI_RULE_BAD_LI 56u                 /* 56 to 60: no transport unit (X.224 section 13) */
#define OSI_RULE_UNKNOWN_CODE 57u
#define OSI_RULE_BAD_TPDU_PARAMETER_LENGTH 58u
#define OSI_RULE_BAD_TPDU_PARAMETER_VALUE 59u
#define OSI_RULE_DUPLICATE_TPDU_PARAMETER 60u
#define OSI_RULE_UNEXPECTED_UNIT 61u        /* a unit that has no place there, as data before the CC */
#define OSI_RULE_WRONG_FORM 62u             /* a DR that refuses no CR */
#define OSI_RULE_TSDU_TOO_LONG 63u          /* more than 1,048,576 octets */
#define OSI_RULE_LIMIT 70u                  /* no break: more was to be kept of a connection than a judge keeps */
#define OSI_RULE_TOO_MANY_CONNECTIONS 71u   /* no break: over 128 connections at once, or nobody can tell */
#define OSI_RULE_ONE_CONNECTION 80u         /* a CR in class 0, which has one connection */
#define OSI_RULE_NEGOTIATING 81u            /* a CR while another is unanswered and the class is not known */
#define OSI_RULE_REFERENCE_IN_USE 82u       /* a reference that its sender has given another connection */
#define OSI_RULE_UNKNOWN_REFERENCE 83u      /* a unit for a reference of no connection */
#define OSI_RULE_BAD_ANSWER 84u             /* a CC that selects what its CR does not offer */
#define OSI_RULE_LARGER_SIZE 85u            /* a CC with a larger TPDU size than its CR */
#define OSI_RULE_CLOSED 86u                 /* a unit on a connection that its sender has closed */
#define OSI_RULE_OUT_OF_SEQUENCE 87u        /* a DT or an AK with a wrong number */
#define OSI_RULE_NO_CREDIT 88u              /* a DT that the window does not allow */
#define OSI_RULE_SIZE_EXCEEDED 89u          /* a DT that is longer than the size that was selected */
#define OSI_RULE_CREDIT_REDUCED 90u         /* an AK that moves the edge of the window down */

/* What the side sent: a session unit by its name in X.225, or what could not be read. */
#define OSI_SAID_NOTHING 0u
#define OSI_SAID_CN 1u
#define OSI_SAID_AC 2u
#define OSI_SAID_RF 3u
#define OSI_SAID_DT 4u
#define OSI_SAID_GT 5u
#define OSI_SAID_PT 6u
#define OSI_SAID_MIP 7u
#define OSI_SAID_MIA 8u
#define OSI_SAID_MAP 9u
#define OSI_SAID_MAA 10u
#define OSI_SAID_RS 11u
#define OSI_SAID_RA 12u
#define OSI_SAID_FN 13u
#define OSI_SAID_DN 14u
#define OSI_SAID_NF 15u
#define OSI_SAID_AB 16u
#define OSI_SAID_AA 17u
#define OSI_SAID_TSDU 18u         /* a TSDU that is no session units */
#define OSI_SAID_TPKT 19u         /* octets that begin no packet */
#define OSI_SAID_TPDU 20u         /* a transport unit */
#define OSI_SAID_TRANSPORT_DT 21u /* a DT of the transport, by which a TSDU is too long */
#define OSI_SAID_TRANSPORT_DR 22u /* a DR of the transport */
#define OSI_SAID_TRANSPORT_CR 23u /* a CR of the transport */
#define OSI_SAID_TRANSPORT_CC 24u /* a CC of the transport */
#define OSI_SAID_TRANSPORT_DC 25u /* a DC of the transport */
#define OSI_SAID_TRANSPORT_AK 26u /* an AK of the transport */
#define OSI_SAID_TRANSPORT_ER 27u /* an ER of the transport */

/* In place of the number of a connection: the transport of a side, which is of no single connection. */
#define OSI_NO_CONNECTION UINT64_MAX

/* A verdict on a side of a byte connection. */
typedef struct osi_verdict {
    uint64_t offset;     /* of the packet, in the direction of `by`, from 0; a TSDU has that of its last packet */
    uint64_t connection; /* its number in the order of the CRs, from 0; or OSI_NO_CONNECTION */
    uint32_t kind;       /* OSI_VERDICT_* */
    uint32_t side;       /* OSI_LEFT or OSI_RIGHT */
    uint32_t by;         /* the side that sent the packet: the other one may, if nothing more of both is judged */
    uint32_t rule;       /* OSI_RULE_*, or a code of a call */
    uint32_t said;       /* OSI_SAID_* */
    uint16_t left;       /* the reference that left gave the connection; 0 if it gave none */
    uint16_t right;      /* the same of right */
} osi_verdict;

/* Makes a judge of a byte connection on which nothing has passed. OSI_OK, OSI_IN_USE, OSI_NO_MEMORY. */
uint32_t osi_judge_new(osi_judge *judge) OSI_LOOK;

/* Frees the judge that the slot holds, if any, with the text that it has lent. */
void osi_judge_free(osi_judge *judge);

/* Feeds octets of a side, in the order in which they passed, cut in any way. *used is how many passed:
 * all of them if the answer is OSI_OK. OSI_OK, or the first that applies of OSI_BAD_ARGUMENT (no
 * side), OSI_SLOT_EMPTY and OSI_NO_MEMORY. After OSI_NO_MEMORY the first *used octets have passed: feed the
 * others again when there is memory. After the other two none has.
 *
 * Of each connection a judge keeps the TSDUs that passed, without their user data and equal ones in a row
 * once, and what has passed of unfinished ones: at most 3,145,728 octets, of which each TSDU counts 48 more
 * than it has. So data may pass for ever, and a TSDU of each side may be as long as one may be. If there is no
 * room for a DT, the connection is judged no further, and the verdict on a side that was kept until then is
 * OSI_VERDICT_NOT_JUDGED with OSI_RULE_LIMIT. What is kept of a connection takes at most 8 MiB. Once it is over
 * and another connection has its place, some 100 octets are left of it, and as much again for each side that
 * broke the protocol; they stay until osi_judge_free. */
uint32_t osi_judge_feed(osi_judge *judge, uint32_t side, const uint8_t *piece, size_t length, size_t *used) OSI_LOOK;

/* Writes a verdict that is certain to *verdict: OSI_OK. If there is none the struct is all 0: OSI_NOTHING; or
 * OSI_SLOT_EMPTY, OSI_NO_MEMORY (make the call again when there is memory). Each verdict is given once, and
 * none is OSI_VERDICT_KEPT. That on the break that passed first comes before the others. There is at most
 * one of each of these:
 *
 *   the session of a side of a connection: it broke the protocol, left the profile, or is judged no further;
 *   the transport of a side: where it first broke a rule or left the profile;
 *   a side of which nothing more is judged, OSI_VERDICT_NOT_JUDGED: the packet after which that is so.
 *
 * What right sends before the first packet of left is certain once that packet has passed: if it is no CR,
 * nothing is judged, since the capture begins in the middle of a connection (OSI_RULE_NO_OPENING).
 *
 * A verdict says what the side did by what had passed until then. So it holds if you feed all octets of both
 * directions in their order. If you feed one direction alone, don't use it. */
uint32_t osi_judge_next(osi_judge *judge, osi_verdict *verdict) OSI_LOOK;

/* Writes the verdict by what has passed so far to *verdict, whether it is certain or not: that on the session
 * of a side of the connection with this number, or, with OSI_NO_CONNECTION, that on the transport of a side:
 * its first break, else the packet after which nothing more of it is judged, else OSI_VERDICT_KEPT. No verdict
 * is taken from osi_judge_next. OSI_OK, or with a struct that is all 0 the first that applies of
 * OSI_BAD_ARGUMENT (no side), OSI_SLOT_EMPTY, OSI_NO_MEMORY (make the call again when there is memory) and
 * OSI_NO_SUCH_CONNECTION (none has this number so far). */
uint32_t osi_judge_verdict(osi_judge *judge, uint64_t connection, uint32_t side, osi_verdict *verdict) OSI_LOOK;

/* Writes to *connections how many connections were requested so far. Their numbers are 0 to one less. OSI_OK,
 * or with a count of 0 OSI_SLOT_EMPTY and OSI_NO_MEMORY (make the call again when there is memory). */
uint32_t osi_judge_connections(osi_judge *judge, uint64_t *connections) OSI_LOOK;

/* Writes the text of the verdict on all that has passed so far, which osi_judge_text then lends: what `osi judge`
 * prints for it. Its last line is "both kept the protocol" only if all that passed was judged. Before an octet of
 * each side has passed it blames nobody: its last line says that only one direction is here. OSI_OK,
 * OSI_SLOT_EMPTY, OSI_NO_MEMORY (the text that was written before is still there). */
uint32_t osi_judge_write(osi_judge *judge) OSI_LOOK;

/* Lends the text that was written last, its lines each with a line feed; no octets if there is none. It is
 * valid until the next call with this judge. */
void osi_judge_text(osi_judge *judge, osi_octets *text);

/* Writes a verdict as a line of text, in the words of `osi judge`:
 *
 *   left 1 kept                                                 a session: its side, and that side's reference
 *   left 1 broke packet 143 Data TokenNotHeld
 *   left 1 leaves packet 143 Restart Outside
 *   left 1 too many                                             more than 4,096 sessions explain it
 *   left 1 not judged Limit
 *   right kept                                                  the transport of a side
 *   right broke packet 92 CC ReferenceInUse
 *   left not judged after right packet 92 CC ReferenceInUse     a side of which nothing more is judged
 *
 * The line has no line feed, and a 0 octet after it. Returns its length without the 0; a buffer of
 * OSI_VERDICT_TEXT octets holds any line. If size is smaller, as much of the line as fits is written, with a
 * 0 octet after it; if size is 0, nothing is, and the text may be null. A verdict of the kind
 * OSI_VERDICT_NONE gives no text. No memory is taken, and no judge is needed. */
size_t osi_verdict_text(const osi_verdict *verdict, char *text, size_t size);

/* A buffer of so many octets holds the line of any verdict, with the 0 octet after it. */
#define OSI_VERDICT_TEXT 96u

/* ---- names ------------------------------------------------------------------------------------------- */

/* The version of the library. OSI_VERSION is that of this header. */
const char *osi_version(void);

/* The name of a number in this header, such as "OSI_BAD_STATE", or "unknown" if it has none. The text is
 * a constant, and no end is needed. */
const char *osi_code_name(uint32_t code);
const char *osi_indication_name(uint32_t tag);
const char *osi_phase_name(uint32_t phase);
const char *osi_end_name(uint32_t why);
const char *osi_verdict_name(uint32_t kind);
const char *osi_rule_name(uint32_t rule);
const char *osi_said_name(uint32_t said);

#ifdef __cplusplus
}
#endif

#endif
