/*
 * osi.hpp: one end of an OSI session (ITU-T X.225 version 2) over the transport classes 0 and 2 of
 * X.224 in TPKT packets (RFC 1006), for C++17 and later. It is osi.h with types of C++: an end that
 * frees itself and can be moved, views of octets, and enumerations instead of numbers.
 *
 *     osi::end end = *osi::end::caller();              // empty if memory ran out
 *     osi::opening asked;
 *     asked.user_data = "gateway";
 *     const auto connection = end.connect(asked);      // its reference, or connection.code says why not
 *     for (;;) {
 *         const osi::octets waiting = end.outgoing();  // write these to the socket
 *         (void)end.taken(written);                    // how many octets the socket took
 *         (void)end.feed_all(piece, [&](const osi::indication &shown) {
 *             if (shown.tag == osi::tag::connected)
 *                 (void)end.data(shown.reference, "hello");
 *         });
 *     }                                                // until end.ended()
 *
 * Nothing here throws, and it compiles with -fno-exceptions and -fno-rtti. A call answers an osi::code,
 * or an osi::result that has one; the compiler warns if you ignore it. osi.h says at each function which
 * codes it answers and what each number means.
 *
 * What the caller owes, and nothing checks:
 *   - An end is used by one thread at a time. Different ends share nothing.
 *   - Octets that an end has lent (end::outgoing, and user_data of an indication) are valid until the
 *     next call with this end, whichever it is, and until the end is assigned to or destroyed.
 *   - An osi::octets does not own what it views. Keep the viewed octets alive while you use it.
 */
#ifndef OSI_HPP
#define OSI_HPP

#include "osi.h"

#include <cstddef>
#include <cstdint>
#include <cstring>
#include <iterator>
#include <memory>
#include <new>
#include <optional>
#include <string_view>
#include <type_traits>
#include <utility>

namespace osi {

/* ---- octets ------------------------------------------------------------------------------------- */

namespace detail {

/* Where a view of no octets points to. */
inline constexpr std::uint8_t no_octet = 0;

template <class T>
inline constexpr bool is_octet =
    std::is_same_v<T, unsigned char> || std::is_same_v<T, char> || std::is_same_v<T, std::byte>;

template <class T>
using element = std::remove_cv_t<std::remove_pointer_t<decltype(std::data(std::declval<const T &>()))>>;

template <class T, class = void>
inline constexpr bool holds_octets = false;

/* What has octets in a row: a vector, an array, a string, a span. An array of char is text. */
template <class T>
inline constexpr bool holds_octets<T, std::void_t<element<T>, decltype(std::size(std::declval<const T &>()))>> =
    is_octet<element<T>> && !(std::is_array_v<T> && std::is_same_v<element<T>, char>);

template <class T, class = void>
inline constexpr bool owns_octets = false;

/* What has octets in a row and goes with them. A std::string_view or std::span only views them: a const one lends the same
 * pointer as another, and a const container lends a pointer to const. */
template <class T>
inline constexpr bool owns_octets<T, std::enable_if_t<holds_octets<T>>> =
    !std::is_trivially_copyable_v<T> ||
    !std::is_same_v<decltype(std::data(std::declval<const T &>())), decltype(std::data(std::declval<T &>()))>;

} // namespace detail

/* A view of octets that somebody else holds. It never points to null. */
class octets {
public:
    using value_type = std::uint8_t;
    using const_iterator = const std::uint8_t *;

    constexpr octets() noexcept = default;
    octets(std::nullptr_t) = delete;

    constexpr octets(const std::uint8_t *at, std::size_t length) noexcept
        : at_(at != nullptr ? at : &detail::no_octet), length_(at != nullptr ? length : 0)
    {
    }

    octets(const void *at, std::size_t length) noexcept : octets(static_cast<const std::uint8_t *>(at), length) {}

    octets(osi_octets lent) noexcept : octets(lent.at, lent.length) {}

    /* The characters of a text, up to its end. */
    octets(const char *text) noexcept : octets(text, std::strlen(text)) {}

    /* All of a std::string, std::string_view, std::vector, std::array, std::span or array of octets. */
    template <class T, class = std::enable_if_t<detail::holds_octets<T>>>
    octets(const T &all) noexcept : octets(static_cast<const void *>(std::data(all)), std::size(all))
    {
    }

    constexpr const std::uint8_t *data() const noexcept { return at_; }
    constexpr std::size_t size() const noexcept { return length_; }
    constexpr bool empty() const noexcept { return length_ == 0; }
    constexpr const_iterator begin() const noexcept { return at_; }
    constexpr const_iterator end() const noexcept { return at_ + length_; }

    /* The octet at a place below size(). */
    constexpr std::uint8_t operator[](std::size_t place) const noexcept { return at_[place]; }

    /* The first count octets, and the octets after them; fewer if there are fewer. */
    constexpr octets first(std::size_t count) const noexcept { return {at_, count < length_ ? count : length_}; }
    constexpr octets from(std::size_t count) const noexcept
    {
        return count < length_ ? octets(at_ + count, length_ - count) : octets();
    }

    /* The same octets as characters. */
    std::string_view text() const noexcept { return {reinterpret_cast<const char *>(at_), length_}; }

    operator osi_octets() const noexcept { return {at_, length_}; }

    friend bool operator==(octets left, octets right) noexcept { return left.text() == right.text(); }
    friend bool operator!=(octets left, octets right) noexcept { return !(left == right); }

private:
    const std::uint8_t *at_ = &detail::no_octet;
    std::size_t length_ = 0;
};

/* A view of octets that is kept for a later statement, as a field of an opening is. So it isn't made of a container that
 * goes at the end of its statement, such as a std::string that a function returns: that does not compile. */
class lasting_octets : public octets {
public:
    constexpr lasting_octets() noexcept = default;
    lasting_octets(std::nullptr_t) = delete;
    constexpr lasting_octets(octets view) noexcept : octets(view) {}
    constexpr lasting_octets(const std::uint8_t *at, std::size_t length) noexcept : octets(at, length) {}
    lasting_octets(const void *at, std::size_t length) noexcept : octets(at, length) {}
    lasting_octets(osi_octets view) noexcept : octets(view) {}
    lasting_octets(const char *text) noexcept : octets(text) {}

    template <class T, class = std::enable_if_t<detail::holds_octets<T>>>
    lasting_octets(const T &all) noexcept : octets(all)
    {
    }

    /* Keep the container in a variable of its own first. */
    template <class T, class = std::enable_if_t<!std::is_reference_v<T> && detail::owns_octets<std::remove_cv_t<T>>>>
    lasting_octets(T &&temporary) = delete;
};

/* ---- what calls answer --------------------------------------------------------------------------- */

/* The answer of a call. All but ok change nothing, unless osi.h says so. */
enum class [[nodiscard]] code : std::uint32_t {
    ok = OSI_OK,                                       /* done */
    slot_empty = OSI_SLOT_EMPTY,                       /* the osi::end holds no end */
    bad_argument = OSI_BAD_ARGUMENT,                   /* a number or a length is outside its range */
    no_memory = OSI_NO_MEMORY,                         /* memory ran out; call again when there is some */
    in_use = OSI_IN_USE,                               /* a slot of osi.h holds an end already */
    nothing = OSI_NOTHING,                             /* no indication is pending */
    no_such_connection = OSI_NO_SUCH_CONNECTION,       /* this end never gave the reference */
    ended = OSI_ENDED,                                 /* the connection, or the end, is over */
    bad_state = OSI_BAD_STATE,                         /* not allowed in this phase (X.225 annex A) */
    not_selected = OSI_NOT_SELECTED,                   /* a unit or token is not there, or units do not go together */
    token_not_held = OSI_TOKEN_NOT_HELD,               /* the other side holds a token that is needed */
    token_already_held = OSI_TOKEN_ALREADY_HELD,       /* a token is asked for that is held */
    bad_number = OSI_BAD_NUMBER,                       /* the number is of no point that the call may name */
    serials_used_up = OSI_SERIALS_USED_UP,             /* all numbers of points, up to 999,999, are used */
    empty = OSI_EMPTY,                                 /* no octet of data, or no token */
    too_long = OSI_TOO_LONG,                           /* too many octets */
    not_caller = OSI_NOT_CALLER,                       /* only the calling end asks for connections */
    negotiating = OSI_NEGOTIATING,                     /* the first connection is not answered yet */
    one_connection = OSI_ONE_CONNECTION,               /* class 0 holds, which has one connection */
    too_many = OSI_TOO_MANY,                           /* 64 connections are live */
    references_used_up = OSI_REFERENCES_USED_UP,       /* all 65,535 references were given */
};

/* What a code says, in a few words. */
constexpr std::string_view text(code answer) noexcept
{
    switch (answer) {
    case code::ok: return "done";
    case code::slot_empty: return "there is no end here";
    case code::bad_argument: return "a number or a length is outside its range";
    case code::no_memory: return "there is no memory";
    case code::in_use: return "there is an end here already";
    case code::nothing: return "no indication waits";
    case code::no_such_connection: return "this end never gave the reference";
    case code::ended: return "the connection is over";
    case code::bad_state: return "the call is not allowed in this phase";
    case code::not_selected: return "a functional unit or a token is not selected";
    case code::token_not_held: return "the other side holds a token that the call needs";
    case code::token_already_held: return "a token is held already";
    case code::bad_number: return "the number is of no point that the call may name";
    case code::serials_used_up: return "all numbers of points are used";
    case code::empty: return "there is no octet of data, or no token";
    case code::too_long: return "there are too many octets";
    case code::not_caller: return "only the calling end asks for connections";
    case code::negotiating: return "the first connection is not answered yet";
    case code::one_connection: return "class 0 has one connection";
    case code::too_many: return "64 connections are live";
    case code::references_used_up: return "all references were given";
    }
    return "a code without a name";
}

/* A code and a value. If the code is not ok, the value is T{}. */
template <class T>
struct [[nodiscard]] result {
    osi::code code = osi::code::ok;
    T value{};

    constexpr explicit operator bool() const noexcept { return code == osi::code::ok; }
    constexpr T &operator*() &noexcept { return value; }
    constexpr const T &operator*() const &noexcept { return value; }
    constexpr T &&operator*() &&noexcept { return std::move(value); }
    constexpr T *operator->() noexcept { return &value; }
    constexpr const T *operator->() const noexcept { return &value; }
};

/* ---- what is passed -------------------------------------------------------------------------------- */

/* Names a connection of one end: 1 to 65,535, and no number twice. */
using reference = std::uint16_t;

/* Sets of transport classes, functional units and tokens are joined by |, intersected by & and asked
 * by has(set, part). */
enum class classes : std::uint8_t {
    none = 0,
    class_0 = OSI_CLASS_0,
    class_2 = OSI_CLASS_2,
    both = OSI_CLASS_0 | OSI_CLASS_2,
};

/* Functional units (X.225 section 8): half_duplex with any of the last four, or duplex alone. */
enum class units : std::uint16_t {
    none = 0,
    half_duplex = OSI_HALF_DUPLEX,
    duplex = OSI_DUPLEX,
    minor_sync = OSI_MINOR_SYNC,
    major_sync = OSI_MAJOR_SYNC,
    resynchronize = OSI_RESYNCHRONIZE,
    negotiated_release = OSI_NEGOTIATED_RELEASE,
};

/* Tokens (X.215 section 7). Each is available if its functional unit is selected. */
enum class tokens : std::uint8_t {
    none = 0,
    data = OSI_TOKEN_DATA,
    minor = OSI_TOKEN_MINOR,
    major = OSI_TOKEN_MAJOR,
    release = OSI_TOKEN_RELEASE,
};

namespace detail {

template <class T>
inline constexpr bool is_set = std::is_same_v<T, classes> || std::is_same_v<T, units> || std::is_same_v<T, tokens>;

template <class T>
using if_set = std::enable_if_t<is_set<T>, T>;

template <class T>
constexpr std::underlying_type_t<T> bits(T value) noexcept
{
    return static_cast<std::underlying_type_t<T>>(value);
}

} // namespace detail

template <class T>
constexpr detail::if_set<T> operator|(T left, T right) noexcept
{
    return static_cast<T>(detail::bits(left) | detail::bits(right));
}

template <class T>
constexpr detail::if_set<T> operator&(T left, T right) noexcept
{
    return static_cast<T>(detail::bits(left) & detail::bits(right));
}

/* Whether a set has all of a part. */
template <class T>
constexpr bool has(T set, detail::if_set<T> part) noexcept
{
    return (set & part) == part;
}

/* The transport protocol of an end (X.224 section 6.5). A caller should offer both classes only to a peer
 * that is known to have class 2: one that has only class 0 may leave a request that prefers class 2
 * unanswered. A called end with both takes the class that the caller prefers. */
struct terms {
    osi::classes classes = osi::classes::class_0; /* a caller with none takes class 0 */
    std::uint8_t size = 13;                       /* the exponent of the largest TPDU: 7 (128 octets) to 13 (8,192) */
    std::uint8_t window = 15;                     /* class 2: units that the peer may send unacknowledged, 1 to 15 */
};

/* A side of a connection or a restart. */
enum class side : std::uint8_t {
    asker = OSI_ASKER,       /* the side that asks */
    answerer = OSI_ANSWERER, /* the side that answers */
    choice = OSI_CHOICE,     /* only in a wish: the answering side chooses */
};

/* Why a user refuses a connection (X.225 section 8.3.5). */
enum class refusal : std::uint8_t {
    unspecified = OSI_REFUSAL_UNSPECIFIED, /* no reason is given */
    congestion = OSI_REFUSAL_CONGESTION,   /* temporary congestion: the caller may ask again later */
    with_data = OSI_REFUSAL_WITH_DATA,     /* user data says why */
};

/* Which side holds, or is to hold, each token at first. */
struct sides {
    side data = side::asker;
    side minor = side::asker;
    side major = side::asker;
    side release = side::asker;

    constexpr operator osi_sides() const noexcept
    {
        return {detail::bits(data), detail::bits(minor), detail::bits(major), detail::bits(release)};
    }
};

/* The most octets of a TSDU in each direction: 64 to 65,535, or 0 for no limit (X.225 section 8). */
struct tsdu_sizes {
    std::uint16_t from_asker = 0;
    std::uint16_t from_answerer = 0;
};

/* The parameters of a connection that you ask for. Its octets are views: keep them alive until end::connect returns. */
struct opening {
    units requirements = units::half_duplex;
    std::uint32_t serial = 0;        /* the number of the first point, 0 to 999,999 */
    sides wishes;                    /* which side is to hold each token */
    lasting_octets calling_tsap;     /* the transport address of this end, 1 to 32 octets; empty: no address */
    lasting_octets called_tsap;      /* that of the other end */
    lasting_octets calling_selector; /* the session address of this user, 1 to 16 octets; empty: no address */
    lasting_octets called_selector;  /* that of the other user */
    lasting_octets user_data;        /* at most 10,240 octets */
    tsdu_sizes sizes;                /* the sizes that you ask for */
};

/* ---- indications ------------------------------------------------------------------------------------- */

/* Which indication it is (X.215 section 10), and which fields it has in addition to its reference. */
enum class tag : std::uint32_t {
    none = OSI_NONE,
    connect = OSI_CONNECT,                           /* requirements, perhaps number, sides as wishes, user_data, sizes */
    connected = OSI_CONNECTED,                       /* requirements, perhaps number, sides, user_data, sizes */
    refused_by_transport = OSI_REFUSED_BY_TRANSPORT, /* reason (X.224 section 13.5.3) */
    refused_by_session = OSI_REFUSED_BY_SESSION,     /* reason (0, 1 and 2 come from the called user), user_data */
    data = OSI_DATA,                                 /* user_data, at least one octet */
    given = OSI_GIVEN,                               /* tokens */
    asked = OSI_ASKED,                               /* tokens, user_data */
    minor = OSI_MINOR,                               /* number, confirm, user_data */
    minor_confirmed = OSI_MINOR_CONFIRMED,           /* number, user_data */
    major = OSI_MAJOR,                               /* number, user_data */
    major_confirmed = OSI_MAJOR_CONFIRMED,           /* user_data */
    restart = OSI_RESTART,                           /* number, sides as wishes, user_data */
    restarted = OSI_RESTARTED,                       /* number, sides, user_data */
    release = OSI_RELEASE,                           /* user_data */
    released = OSI_RELEASED,                         /* user_data */
    release_refused = OSI_RELEASE_REFUSED,           /* user_data */
    aborted = OSI_ABORTED,                           /* by the peer's user: user_data */
    lost = OSI_LOST,                                 /* the transport connection was closed, broke, or had a fault */
    peer_abort = OSI_PEER_ABORT,                     /* by the peer's provider: reason, its parameter 17 */
    bad_unit = OSI_BAD_UNIT,                         /* by this end, because it received a bad unit: fault */
};

/* What an indication is called, in a few words. */
constexpr std::string_view text(tag shown) noexcept
{
    switch (shown) {
    case tag::none: return "nothing";
    case tag::connect: return "a connection is asked for";
    case tag::connected: return "connected";
    case tag::refused_by_transport: return "refused by the transport provider";
    case tag::refused_by_session: return "refused by the session user or provider";
    case tag::data: return "data";
    case tag::given: return "tokens given";
    case tag::asked: return "tokens asked for";
    case tag::minor: return "minor point";
    case tag::minor_confirmed: return "minor point confirmed";
    case tag::major: return "major point";
    case tag::major_confirmed: return "major point confirmed";
    case tag::restart: return "restart";
    case tag::restarted: return "restarted";
    case tag::release: return "release";
    case tag::released: return "released";
    case tag::release_refused: return "release refused";
    case tag::aborted: return "aborted by the peer's user";
    case tag::lost: return "the transport connection is lost";
    case tag::peer_abort: return "aborted by the peer's provider";
    case tag::bad_unit: return "aborted here, since a unit that came is bad";
    }
    return "an indication without a name";
}

/* Whether the connection is over after this indication. */
constexpr bool is_over(tag shown) noexcept
{
    switch (shown) {
    case tag::refused_by_transport:
    case tag::refused_by_session:
    case tag::released:
    case tag::aborted:
    case tag::lost:
    case tag::peer_abort:
    case tag::bad_unit: return true;
    default: return false;
    }
}

/* Why a received unit is bad. */
enum class fault_kind : std::uint8_t {
    none = 0,
    spelling = 1,       /* its octets are no unit: see fault::spelling and fault::offset */
    unexpected = 2,     /* it is not allowed in this phase */
    not_selected = 3,   /* its functional unit is not selected */
    token_not_held = 4, /* the peer does not hold a token that the unit needs */
    bad_number = 5,     /* the unit may not name a point of this number */
    bad_tokens = 6,     /* it names tokens or sides that it may not name */
    bad_enclosure = 7,  /* it is a part of data that is out of its place */
    data_too_long = 8,  /* with it the parts of one data have more than 1,048,572 octets */
};

/* What is wrong with the octets of a unit. */
enum class spelling : std::uint8_t {
    none = 0,
    unknown_si = 1,
    length_past_end = 2,
    missing_parameter = 3,
    duplicate_parameter = 4,
    bad_value = 5,
    bad_concatenation = 6,
    octets_left_over = 7,
};

struct fault {
    fault_kind kind = fault_kind::none;
    std::uint8_t si = 0; /* of all kinds but spelling: the SI of the unit (X.225 section 8) */
    osi::spelling spelling = osi::spelling::none;
    std::uint8_t parameter = 0; /* of spellings 3 to 5: the code of the parameter */
    std::uint64_t offset = 0;   /* of a spelling: the offset of the octet in the TSDU, from 0 */
};

/* An indication for the user of a connection. Fields that don't belong to the tag have the values given here. */
struct indication {
    osi::tag tag = osi::tag::none;
    osi::reference reference = 0;
    units requirements = units::none;
    std::optional<std::uint32_t> number; /* of a point, 0 to 999,999 */
    bool confirm = false;                /* the peer asks for the confirmation of the minor point */
    osi::tokens tokens = osi::tokens::none;
    std::uint8_t reason = 0;
    osi::sides sides;
    osi::fault fault;
    octets user_data; /* lent until the next call with the end: copy it if you want to keep it */
    tsdu_sizes sizes; /* those that the CN or AC names */
};

/* Why an end has ended. */
enum class ending : std::uint32_t {
    broken = OSI_END_BROKEN,           /* end::broken was called */
    closed = OSI_END_CLOSED,           /* its connection of class 0 was closed here */
    peer_closed = OSI_END_PEER_CLOSED, /* the peer closed it by a DR: detail is the reason */
    no_memory = OSI_END_NO_MEMORY,     /* memory ran out in end::feed */
    unknown_reference = OSI_END_UNKNOWN_REFERENCE, /* this and those below: the peer broke a rule of X.224 or RFC 1006 */
    bad_answer = OSI_END_BAD_ANSWER,
    unexpected_unit = OSI_END_UNEXPECTED_UNIT,
    bad_version = OSI_END_BAD_VERSION, /* detail: the offset of the packet's first octet in the stream */
    bad_length = OSI_END_BAD_LENGTH,   /* the same */
    no_memory_for_packet = OSI_END_NO_MEMORY_FOR_PACKET,
    bad_li = OSI_END_BAD_LI, /* this one and the next four: detail is the offset of the octet in the packet's units */
    unknown_code = OSI_END_UNKNOWN_CODE,
    bad_parameter_length = OSI_END_BAD_PARAMETER_LENGTH,
    bad_parameter_value = OSI_END_BAD_PARAMETER_VALUE,
    duplicate_parameter = OSI_END_DUPLICATE_PARAMETER,
    wrong_form = OSI_END_WRONG_FORM,
    out_of_sequence = OSI_END_OUT_OF_SEQUENCE,
    credit_reduced = OSI_END_CREDIT_REDUCED,
    tsdu_too_long = OSI_END_TSDU_TOO_LONG,
    no_memory_for_tsdu = OSI_END_NO_MEMORY_FOR_TSDU,
};

/* Why an end has ended, in a few words. */
constexpr std::string_view text(ending why) noexcept
{
    switch (why) {
    case ending::broken: return "the byte connection is broken or closed";
    case ending::closed: return "its connection was closed here";
    case ending::peer_closed: return "the peer closed its connection";
    case ending::no_memory: return "there was no memory for what came";
    case ending::unknown_reference: return "a unit names an unknown reference";
    case ending::bad_answer: return "a CC answers what was not asked for";
    case ending::unexpected_unit: return "a unit came that is not expected";
    case ending::bad_version: return "a packet is not of TPKT version 3";
    case ending::bad_length: return "the length of a packet is out of range";
    case ending::no_memory_for_packet: return "there was no memory for a packet";
    case ending::bad_li: return "the length indicator of a unit is bad";
    case ending::unknown_code: return "the code of a unit is unknown";
    case ending::bad_parameter_length: return "the length of a parameter is bad";
    case ending::bad_parameter_value: return "the value of a parameter is bad";
    case ending::duplicate_parameter: return "a parameter stands twice";
    case ending::wrong_form: return "a unit has the form of another class";
    case ending::out_of_sequence: return "a unit is out of sequence";
    case ending::credit_reduced: return "a credit was reduced";
    case ending::tsdu_too_long: return "a TSDU is too long";
    case ending::no_memory_for_tsdu: return "there was no memory for a TSDU";
    }
    return "a reason without a name";
}

/* The addresses of a connection: the transport addresses of its CR (X.224 section 13.3.4) and the session
 * addresses of its CN (X.225 section 8). An empty one means that there is no address. Its views are valid while it lives. */
class addresses {
public:
    addresses() noexcept : held_() {}
    explicit addresses(const osi_addressing &held) noexcept : held_(held) {}

    /* The transport address of the end that asks, and that of the other end. */
    octets calling_tsap() const noexcept { return {held_.calling_tsap.octets, held_.calling_tsap.length}; }
    octets called_tsap() const noexcept { return {held_.called_tsap.octets, held_.called_tsap.length}; }

    /* The session address of the user that asks, and that of the other user. */
    octets calling_selector() const noexcept
    {
        return {held_.calling_selector.octets, held_.calling_selector.length};
    }
    octets called_selector() const noexcept { return {held_.called_selector.octets, held_.called_selector.length}; }

private:
    osi_addressing held_;
};

/* Why an end has ended, with the detail. */
struct ended {
    ending why = ending::broken;
    std::uint64_t detail = 0; /* 0, unless osi::ending says what it is */
};

/* The state of a connection (X.225 annex A). */
enum class phase : std::uint32_t {
    none = OSI_PHASE_NONE,                     /* the reference was never given, or there is no end */
    wait_transport = OSI_PHASE_WAIT_TRANSPORT, /* the transport connection is awaited */
    wait_cn = OSI_PHASE_WAIT_CN,               /* a CN is awaited */
    connecting = OSI_PHASE_CONNECTING,         /* the answer to the CN is awaited */
    answering = OSI_PHASE_ANSWERING,           /* the user is to accept or refuse */
    ready = OSI_PHASE_READY,
    major_asked = OSI_PHASE_MAJOR_ASKED,   /* the confirmation of a major point is awaited */
    major_due = OSI_PHASE_MAJOR_DUE,       /* the user is to confirm a major point */
    releasing = OSI_PHASE_RELEASING,       /* the answer to the release is awaited */
    release_due = OSI_PHASE_RELEASE_DUE,   /* the user is to answer the release */
    restarting = OSI_PHASE_RESTARTING,     /* the answer to the restart is awaited */
    restart_due = OSI_PHASE_RESTART_DUE,   /* the user is to answer the restart */
    aborting = OSI_PHASE_ABORTING,         /* the answer to the abort is awaited */
    ended = OSI_PHASE_ENDED,               /* the connection is gone */
};

/* What a phase is, in a few words. */
constexpr std::string_view text(phase stands) noexcept
{
    switch (stands) {
    case phase::none: return "no such connection";
    case phase::wait_transport: return "awaits the transport connection";
    case phase::wait_cn: return "awaits a CN";
    case phase::connecting: return "awaits the answer to its CN";
    case phase::answering: return "is to be accepted or refused";
    case phase::ready: return "ready";
    case phase::major_asked: return "awaits the confirmation of a major point";
    case phase::major_due: return "is to confirm a major point";
    case phase::releasing: return "awaits the answer to the release";
    case phase::release_due: return "is to answer the release";
    case phase::restarting: return "awaits the answer to the restart";
    case phase::restart_due: return "is to answer the restart";
    case phase::aborting: return "awaits the answer to the abort";
    case phase::ended: return "over";
    }
    return "a phase without a name";
}

/* A side of a byte connection that a judge is fed: left opened the byte connection, and sent the CR. */
enum class judged_side : std::uint32_t {
    left = OSI_LEFT,
    right = OSI_RIGHT,
};

/* What a verdict says. `kept` may change while octets pass. The others may change only to `none`, if the
 * other side leaves the profile. */
enum class verdict_kind : std::uint32_t {
    none = OSI_VERDICT_NONE,             /* nothing: the other side of the connection left the profile */
    kept = OSI_VERDICT_KEPT,             /* all that was judged of it is what a conforming end may send */
    broke = OSI_VERDICT_BROKE,           /* it broke the protocol: said, rule, offset */
    leaves = OSI_VERDICT_LEAVES,         /* it sent what X.225 allows and this product leaves out */
    too_many = OSI_VERDICT_TOO_MANY,     /* more than 4,096 sessions explain it: judged no further */
    not_judged = OSI_VERDICT_NOT_JUDGED, /* judged no further: rule says why */
};

/* The rule that a side broke, or why it is judged no further. */
enum class rule : std::uint32_t {
    none = OSI_RULE_NONE,
    no_such_connection = OSI_RULE_NO_SUCH_CONNECTION, /* this one and the next nine: the code of a refused call */
    ended = OSI_RULE_ENDED,
    bad_state = OSI_RULE_BAD_STATE,
    not_selected = OSI_RULE_NOT_SELECTED,
    token_not_held = OSI_RULE_TOKEN_NOT_HELD,
    token_already_held = OSI_RULE_TOKEN_ALREADY_HELD,
    bad_number = OSI_RULE_BAD_NUMBER,
    serials_used_up = OSI_RULE_SERIALS_USED_UP,
    empty = OSI_RULE_EMPTY,
    too_long = OSI_RULE_TOO_LONG,
    bad_tokens = OSI_RULE_BAD_TOKENS,
    bad_enclosure = OSI_RULE_BAD_ENCLOSURE,
    no_fault = OSI_RULE_NO_FAULT,
    nothing_to_answer = OSI_RULE_NOTHING_TO_ANSWER,
    outside = OSI_RULE_OUTSIDE,
    unknown_si = OSI_RULE_UNKNOWN_SI, /* this one and the next six: the TSDU is no session units */
    length_past_end = OSI_RULE_LENGTH_PAST_END,
    missing_parameter = OSI_RULE_MISSING_PARAMETER,
    duplicate_parameter = OSI_RULE_DUPLICATE_PARAMETER,
    bad_value = OSI_RULE_BAD_VALUE,
    bad_concatenation = OSI_RULE_BAD_CONCATENATION,
    trailing_octets = OSI_RULE_TRAILING_OCTETS,
    no_opening = OSI_RULE_NO_OPENING,             /* no break: it begins in the middle of a connection */
    bad_version = OSI_RULE_BAD_VERSION,           /* this one and the next: no packet begins there */
    bad_length = OSI_RULE_BAD_LENGTH,
    bad_li = OSI_RULE_BAD_LI,                     /* this one and the next four: no transport unit */
    unknown_code = OSI_RULE_UNKNOWN_CODE,
    bad_tpdu_parameter_length = OSI_RULE_BAD_TPDU_PARAMETER_LENGTH,
    bad_tpdu_parameter_value = OSI_RULE_BAD_TPDU_PARAMETER_VALUE,
    duplicate_tpdu_parameter = OSI_RULE_DUPLICATE_TPDU_PARAMETER,
    unexpected_unit = OSI_RULE_UNEXPECTED_UNIT,
    wrong_form = OSI_RULE_WRONG_FORM,
    tsdu_too_long = OSI_RULE_TSDU_TOO_LONG,
    limit = OSI_RULE_LIMIT,                       /* no break: more was to be kept than a judge keeps */
    too_many_connections = OSI_RULE_TOO_MANY_CONNECTIONS, /* no break: over 128 connections, or nobody can tell */
    one_connection = OSI_RULE_ONE_CONNECTION,     /* this one and the others: rules of transport */
    negotiating = OSI_RULE_NEGOTIATING,
    reference_in_use = OSI_RULE_REFERENCE_IN_USE,
    unknown_reference = OSI_RULE_UNKNOWN_REFERENCE,
    bad_answer = OSI_RULE_BAD_ANSWER,
    larger_size = OSI_RULE_LARGER_SIZE,
    closed = OSI_RULE_CLOSED,
    out_of_sequence = OSI_RULE_OUT_OF_SEQUENCE,
    no_credit = OSI_RULE_NO_CREDIT,
    size_exceeded = OSI_RULE_SIZE_EXCEEDED,
    credit_reduced = OSI_RULE_CREDIT_REDUCED,
};

/* What a side sent, by its name in X.225, or what could not be read. */
enum class said : std::uint32_t {
    nothing = OSI_SAID_NOTHING,
    cn = OSI_SAID_CN,
    ac = OSI_SAID_AC,
    rf = OSI_SAID_RF,
    dt = OSI_SAID_DT,
    gt = OSI_SAID_GT,
    pt = OSI_SAID_PT,
    mip = OSI_SAID_MIP,
    mia = OSI_SAID_MIA,
    map = OSI_SAID_MAP,
    maa = OSI_SAID_MAA,
    rs = OSI_SAID_RS,
    ra = OSI_SAID_RA,
    fn = OSI_SAID_FN,
    dn = OSI_SAID_DN,
    nf = OSI_SAID_NF,
    ab = OSI_SAID_AB,
    aa = OSI_SAID_AA,
    tsdu = OSI_SAID_TSDU,                 /* a TSDU that is no session units */
    tpkt = OSI_SAID_TPKT,                 /* octets that begin no packet */
    tpdu = OSI_SAID_TPDU,                 /* a transport unit */
    transport_dt = OSI_SAID_TRANSPORT_DT, /* a DT of the transport, by which a TSDU is too long */
    transport_dr = OSI_SAID_TRANSPORT_DR, /* a DR of the transport */
    transport_cr = OSI_SAID_TRANSPORT_CR,
    transport_cc = OSI_SAID_TRANSPORT_CC,
    transport_dc = OSI_SAID_TRANSPORT_DC,
    transport_ak = OSI_SAID_TRANSPORT_AK,
    transport_er = OSI_SAID_TRANSPORT_ER,
};

/* A verdict on a side of a byte connection. */
struct verdict {
    judged_side side = judged_side::left;
    verdict_kind kind = verdict_kind::none;
    osi::said said = osi::said::nothing;
    osi::rule rule = osi::rule::none;
    std::uint64_t offset = 0;                /* of the packet, in the direction of `by`, from 0 */
    judged_side by = judged_side::left;            /* the side that sent the packet */
    std::optional<std::uint64_t> connection; /* its number in the order of the CRs; none if it is of no single one */
    osi::reference left = 0;                 /* the reference that left gave the connection; 0 if it gave none */
    osi::reference right = 0;                /* the same of right */
};

/* A verdict as a line of text, in the words of `osi judge`, without a line feed; osi.h lists the forms. It takes no
 * memory.
 *
 *     std::cout << osi::verdict_line(verdict).text() << '\n';    // left 1 broke packet 143 Data TokenNotHeld
 */
class verdict_line {
public:
    explicit verdict_line(const verdict &v) noexcept
    {
        const osi_verdict passed = {v.offset, v.connection.value_or(OSI_NO_CONNECTION), detail::bits(v.kind),
                                    detail::bits(v.side), detail::bits(v.by), detail::bits(v.rule),
                                    detail::bits(v.said), v.left, v.right};
        length_ = osi_verdict_text(&passed, text_, sizeof text_);
    }

    /* It is valid as long as the object is. */
    std::string_view text() const noexcept { return {text_, length_}; }

private:
    char text_[OSI_VERDICT_TEXT];
    std::size_t length_;
};

/* The name of a number in osi.h, such as "OSI_BAD_STATE", and the version of the library. */
inline std::string_view name(code answer) noexcept { return osi_code_name(detail::bits(answer)); }
inline std::string_view name(tag shown) noexcept { return osi_indication_name(detail::bits(shown)); }
inline std::string_view name(phase stands) noexcept { return osi_phase_name(detail::bits(stands)); }
inline std::string_view name(ending why) noexcept { return osi_end_name(detail::bits(why)); }
inline std::string_view name(verdict_kind kind) noexcept { return osi_verdict_name(detail::bits(kind)); }
inline std::string_view name(rule broken) noexcept { return osi_rule_name(detail::bits(broken)); }
inline std::string_view name(said what) noexcept { return osi_said_name(detail::bits(what)); }
inline std::string_view version() noexcept { return osi_version(); }

/* What a trace keeps: nothing (there is none), counters, or counters and lines. */
enum class tracing : std::uint32_t {
    off = OSI_TRACE_OFF,
    counts = OSI_TRACE_COUNTS,
    lines = OSI_TRACE_LINES,
};

/* The direction of a trace. */
enum class direction : std::uint32_t {
    received = OSI_RECEIVED,
    sent = OSI_SENT,
};

/* What the trace of one direction has counted; once it has stopped, up to then, and all 0 once you were told of
 * it. */
struct tally {
    std::uint64_t octets = 0;
    std::uint64_t packets = 0;       /* RFC 1006 section 6 */
    std::uint64_t units = 0;         /* transport units (X.224 section 13) */
    std::uint64_t tsdus = 0;         /* whole TSDUs */
    std::uint64_t session_units = 0; /* X.225 section 8 */
    std::uint64_t refused = 0;       /* packets, transport units and TSDUs that break a rule of spelling */
};

/* Both directions. */
struct counters {
    tally received, sent;
};

/* What end::feed did. */
struct fed {
    std::size_t used = 0; /* how many octets of the piece were used, from the first */
    bool waits = false;   /* an indication is pending */
};

namespace detail {

constexpr side side_of(std::uint8_t number) noexcept { return static_cast<side>(number); }

constexpr sides sides_of(osi_sides s) noexcept
{
    return {side_of(s.data), side_of(s.minor), side_of(s.major), side_of(s.release)};
}

constexpr bool names_point(tag shown) noexcept
{
    switch (shown) {
    case tag::minor:
    case tag::minor_confirmed:
    case tag::major:
    case tag::restart:
    case tag::restarted: return true;
    default: return false;
    }
}

inline fault fault_of(const osi_fault &f) noexcept
{
    return {static_cast<fault_kind>(f.fault), f.si, static_cast<spelling>(f.spelling), f.parameter, f.offset};
}

inline tally tally_of(const osi_tally &t) noexcept
{
    return {t.octets, t.packets, t.units, t.tsdus, t.session_units, t.refused};
}

inline indication indication_of(const osi_indication &said) noexcept
{
    indication shown;
    shown.tag = static_cast<tag>(said.tag);
    shown.reference = said.reference;
    shown.requirements = static_cast<units>(said.requirements);
    if (said.has_number != 0 || names_point(shown.tag))
        shown.number = said.number;
    shown.confirm = said.confirm != 0;
    shown.tokens = static_cast<osi::tokens>(said.tokens);
    shown.reason = said.reason;
    shown.sides = sides_of(said.sides);
    shown.fault = fault_of(said.fault);
    shown.user_data = said.user_data;
    shown.sizes = {said.size_from_asker, said.size_from_answerer};
    return shown;
}

} // namespace detail

/* ---- an end ----------------------------------------------------------------------------------------- */

/* One end of a byte connection, or none. It frees the end that it holds; you can move it, but not copy it.
 * An object that was moved from, or default-made, holds no end: its calls answer code::slot_empty, and it
 * has nothing to send and no indications.
 *
 * No member function is const, not even one that only reads: after each of them the octets that the end
 * had lent are no longer valid. */
class end {
public:
    /* Holds no end. */
    end() noexcept = default;

    /* The calling end of a byte connection, or the called one: ok, bad_argument (terms), no_memory. */
    static result<end> caller(const terms &own = {}) noexcept { return make(osi_caller, own); }
    static result<end> called(const terms &own = {}) noexcept { return make(osi_called, own); }

    /* Whether it holds an end. */
    explicit operator bool() const noexcept { return slot_ != nullptr; }

    /* Frees the end that it holds, with all octets that it has lent. */
    void reset() noexcept { slot_.reset(); }

    /* The slot, for a function of osi.h; null if it holds no end. Don't free it. */
    osi_end *get() noexcept { return slot_ ? &slot_->of_c : nullptr; }

    /* ---- connections and calls of their users, as in osi.h (X.215 section 10) */

    /* Asks for a connection, and answers its reference. The peer's answer comes as an indication. */
    result<osi::reference> connect(const opening &asked) noexcept
    {
        const osi_opening passed = {
            detail::bits(asked.requirements), asked.serial,           asked.wishes,          asked.calling_tsap,
            asked.called_tsap,                asked.calling_selector, asked.called_selector, asked.user_data,
            asked.sizes.from_asker,           asked.sizes.from_answerer,
        };
        result<osi::reference> made;
        made.code = call(osi_connect, &passed, &made.value);
        return made;
    }

    /* Answers tag::connect: accept names the selected units, the number of the first point, and who holds
     * the tokens whose choice was left to this side; refuse refuses. */
    code accept(osi::reference of, units selected, std::uint32_t number = 0, sides holders = {},
                octets data = {}) noexcept
    {
        const osi_sides passed = holders;
        return call(osi_accept, of, detail::bits(selected), number, &passed, data.data(), data.size());
    }

    /* accept with sizes of this side's own: if tag::connect names a size, the smaller one is agreed. */
    code accept_sized(osi::reference of, units selected, std::uint32_t number, sides holders, tsdu_sizes sizes,
                      octets data = {}) noexcept
    {
        const osi_sides passed = holders;
        return call(osi_accept_sized, of, detail::bits(selected), number, &passed, sizes.from_asker,
                    sizes.from_answerer, data.data(), data.size());
    }
    code refuse(osi::reference of, octets data = {}) noexcept { return say(osi_refuse, of, data); }

    /* refuse with a reason: only refusal::with_data may have user data. */
    code refuse_with(osi::reference of, refusal reason, octets data = {}) noexcept
    {
        return call(osi_refuse_with, of, static_cast<std::uint8_t>(reason), data.data(), data.size());
    }

    /* Sends data, 1 to 1,048,572 octets. */
    code data(osi::reference of, octets all) noexcept { return say(osi_data, of, all); }

    /* Gives tokens that this side holds, or asks for tokens that it doesn't hold. */
    code give(osi::reference of, osi::tokens given) noexcept { return call(osi_give, of, detail::bits(given)); }
    code please(osi::reference of, osi::tokens asked, octets data = {}) noexcept
    {
        return call(osi_please, of, detail::bits(asked), data.data(), data.size());
    }

    /* minor_point sets a minor point, which has the number that next_serial answers before the call;
     * minor_confirm confirms all minor points up to a number. (Some systems have macros called minor and major.) */
    code minor_point(osi::reference of, bool confirm = true, octets data = {}) noexcept
    {
        return call(osi_minor, of, static_cast<std::uint8_t>(confirm), data.data(), data.size());
    }
    code minor_confirm(osi::reference of, std::uint32_t number, octets data = {}) noexcept
    {
        return call(osi_minor_confirm, of, number, data.data(), data.size());
    }

    /* major_point sets a major point; major_confirm answers tag::major. */
    code major_point(osi::reference of, octets data = {}) noexcept { return say(osi_major, of, data); }
    code major_confirm(osi::reference of, octets data = {}) noexcept { return say(osi_major_confirm, of, data); }

    /* restart restarts at this number, which the next point then has; restart_confirm answers tag::restart. */
    code restart(osi::reference of, std::uint32_t number, sides wishes = {}, octets data = {}) noexcept
    {
        const osi_sides passed = wishes;
        return call(osi_restart, of, number, &passed, data.data(), data.size());
    }
    code restart_confirm(osi::reference of, sides holders = {}, octets data = {}) noexcept
    {
        const osi_sides passed = holders;
        return call(osi_restart_confirm, of, &passed, data.data(), data.size());
    }

    /* release asks for the release; the other two answer tag::release. */
    code release(osi::reference of, octets data = {}) noexcept { return say(osi_release, of, data); }
    code release_accept(osi::reference of, octets data = {}) noexcept { return say(osi_release_accept, of, data); }
    code release_refuse(osi::reference of, octets data = {}) noexcept { return say(osi_release_refuse, of, data); }

    /* Aborts the connection. */
    code abort(osi::reference of, octets data = {}) noexcept { return say(osi_abort, of, data); }

    /* Gives up one connection at once, and drops its indications. In class 2 it sends a DR; in class 0 the
     * end ends. Other connections go on. */
    code disconnect(osi::reference of) noexcept { return call(osi_disconnect, of); }

    /* ---- octets */

    /* Feeds octets that you received from the peer, cut in any way. It stops after a packet that causes an
     * indication, and uses nothing while one is pending. Octets that feed_all keeps are fed before. */
    result<fed> feed(octets piece) noexcept
    {
        while (slot_ && slot_->keeps()) {
            const result<fed> did = feed_now(slot_->kept());
            slot_->first += did->used;
            if (did->waits)
                return {code::ok, {0, true}};
        }
        return feed_now(piece);
    }

    /* Feeds all of a piece, and passes each indication to a function, which may call this end; indications
     * that were pending before come first. Answers ok or slot_empty.
     *
     * If the function throws, the end keeps a copy of the octets that are not fed yet, and the next feed or
     * feed_all begins with them; feed_all({}, shown) goes on with these alone. If there is no memory for the
     * copy, it does what broken does, so each user receives tag::lost. */
    template <class Shown>
    code feed_all(octets piece, Shown &&shown) noexcept(noexcept(shown(std::declval<const indication &>())))
    {
        unfed rest(*this, piece);
        for (;;) {
            while (const std::optional<indication> one = next())
                shown(*one);
            if (rest.piece.empty() && !(slot_ && slot_->keeps()))
                return slot_ ? code::ok : code::slot_empty;
            const result<fed> did = feed(rest.piece);
            if (!did)
                return did.code;
            rest.piece = rest.piece.from(did->used);
        }
    }

    /* Lends the octets to send to the peer, in their order. */
    octets outgoing() noexcept
    {
        osi_octets lent = OSI_NO_OCTETS;
        if (slot_)
            osi_outgoing(&slot_->of_c, &lent);
        return lent;
    }

    /* Whether outgoing lends an octet. If so, wait until you can write to the socket. */
    bool wants_write() noexcept { return slot_ && osi_wants_write(&slot_->of_c); }

    /* Says that you have sent this many of them, from the first: ok, slot_empty, bad_argument (it lends fewer). */
    code taken(std::size_t count) noexcept { return call(osi_taken, count); }

    /* Says that the byte connection broke, or that the peer closed it: ok, slot_empty. Each user who doesn't
     * yet know that his connection is over then receives tag::lost. */
    code broken() noexcept { return call(osi_broken); }

    /* Why the end has ended; std::nullopt if it has not. If it has, send what outgoing lends, and close. */
    std::optional<osi::ended> ended() noexcept
    {
        std::uint64_t more = 0;
        const std::uint32_t why = slot_ ? osi_ended(&slot_->of_c, &more) : OSI_END_NONE;
        if (why == OSI_END_NONE)
            return std::nullopt;
        return osi::ended{static_cast<ending>(why), more};
    }

    /* Whether you may close the byte connection now: outgoing lends nothing, and either the end has ended, or
     * there were connections and none is live. */
    bool is_over() noexcept { return slot_ && osi_is_over(&slot_->of_c); }

    /* How many octets the end keeps of packets, of TSDUs and of data in parts that are not whole yet. */
    std::size_t kept() noexcept { return slot_ ? osi_kept(&slot_->of_c) : 0; }

    /* How many octets of a connection's TSDUs the peer's credit holds back, so that outgoing doesn't lend
     * them yet; and the sum over all connections. */
    std::size_t unsent(osi::reference of) noexcept { return look(osi_unsent, of); }
    std::size_t backlog() noexcept { return slot_ ? osi_backlog(&slot_->of_c) : 0; }

    /* How many connections are live: those whose transport connection is being opened, open or closing. */
    std::size_t live() noexcept { return slot_ ? osi_live(&slot_->of_c) : 0; }

    /* ---- indications */

    /* Fetches the oldest indication of the connection with the lowest reference that has one. */
    std::optional<indication> next() noexcept
    {
        if (call(osi_fetch) != code::ok)
            return std::nullopt;
        return last();
    }

    /* The indication that was fetched last; tag::none if there is none. */
    indication last() noexcept
    {
        if (!slot_)
            return {};
        osi_indication said;
        osi_last(&slot_->of_c, &said);
        return detail::indication_of(said);
    }

    /* ---- the state of a connection */

    osi::phase phase(osi::reference of) noexcept { return static_cast<osi::phase>(look(osi_phase, of)); }

    /* The tokens that this end holds. */
    osi::tokens held(osi::reference of) noexcept { return static_cast<osi::tokens>(look(osi_held, of)); }

    /* V(M), the number of the next point; V(A), below which all are confirmed; V(R), the lowest at which
     * this end may restart (X.225 section 5.9). Each is 0 for a connection that is gone or never was. */
    std::uint32_t next_serial(osi::reference of) noexcept { return look(osi_next_serial, of); }
    std::uint32_t confirmed_below(osi::reference of) noexcept { return look(osi_confirmed_below, of); }
    std::uint32_t lowest_restart(osi::reference of) noexcept { return look(osi_lowest_restart, of); }

    /* The addresses of a connection: those that you asked for, or on the called side the peer's, from the moment
     * tag::connect is pending; std::nullopt for a connection that is gone or never was. */
    std::optional<osi::addresses> addresses(osi::reference of) noexcept
    {
        osi_addressing shown;
        if (call(osi_addresses, of, &shown) != code::ok)
            return std::nullopt;
        return osi::addresses(shown);
    }

    /* ---- trace and counters */

    /* Begins a trace in both directions, and ends an earlier one: ok, slot_empty. Call it right after you have made
     * the end, because the first octet that a trace takes has to begin a packet. It never changes what the end does,
     * and its memory is bounded (osi.h). */
    code trace(tracing what) noexcept { return call(osi_trace, detail::bits(what)); }

    /* Fetches the lines of one direction that you have not fetched, and passes each, without its line feed, to
     * on_line(std::string_view), which may not call this end: ok, nothing (no lines), no_memory (this trace has
     * stopped; you are told once, after its last lines), slot_empty. If on_line throws, the lines after this one
     * are lost. */
    template <class OnLine>
    code traced(direction of, OnLine &&on_line) noexcept(noexcept(on_line(std::string_view())))
    {
        const code fetched = call(osi_trace_fetch, detail::bits(of));
        osi_octets lent = OSI_NO_OCTETS;
        if (fetched == code::ok)
            osi_trace_lines(&slot_->of_c, &lent);
        std::string_view lines = octets(lent).text();
        while (!lines.empty()) {
            const std::size_t length = lines.find('\n');
            on_line(lines.substr(0, length));
            lines.remove_prefix(length == lines.npos ? lines.size() : length + 1);
        }
        return fetched;
    }

    /* What both traces have counted: all 0 without a trace. */
    osi::counters counts() noexcept
    {
        if (!slot_)
            return {};
        osi_counters shown;
        osi_counts(&slot_->of_c, &shown);
        return {detail::tally_of(shown.received), detail::tally_of(shown.sent)};
    }

private:
    struct deleted {
        void operator()(std::uint8_t *octets) const noexcept { ::operator delete(octets); }
    };

    /* The slot of osi.h, and the octets that feed_all keeps: those from first on. */
    struct slot {
        ~slot() { osi_free(&of_c); }

        bool keeps() const noexcept { return first < length; }
        octets kept() const noexcept { return octets(copy.get(), length).from(first); }

        /* Keeps a piece too. If there is no memory, the byte connection is over. */
        void keep(octets piece) noexcept
        {
            const octets before = kept();
            const std::size_t sum = before.size() + piece.size();
            std::unique_ptr<std::uint8_t, deleted> both(static_cast<std::uint8_t *>(::operator new(sum, std::nothrow)));
            if (both) {
                std::memcpy(both.get(), before.data(), before.size());
                std::memcpy(both.get() + before.size(), piece.data(), piece.size());
            } else {
                (void)osi_broken(&of_c);
            }
            length = both ? sum : 0;
            first = 0;
            copy = std::move(both);
        }

        osi_end of_c = OSI_END;
        std::unique_ptr<std::uint8_t, deleted> copy;
        std::size_t first = 0, length = 0;
    };

    /* The rest of a piece of feed_all. At the end of its life the end keeps it. */
    struct unfed {
        unfed(end &own, octets all) noexcept : of(own), piece(all) {}
        unfed(const unfed &) = delete;
        unfed &operator=(const unfed &) = delete;
        ~unfed()
        {
            if (of.slot_ && !piece.empty())
                of.slot_->keep(piece);
        }

        end &of;
        octets piece;
    };

    result<fed> feed_now(octets piece) noexcept
    {
        osi_fed did = {0, false};
        result<fed> answer;
        answer.code = call(osi_feed, piece.data(), piece.size(), &did);
        answer.value = {did.used, did.waits};
        return answer;
    }

    using makes = std::uint32_t (*)(osi_end *, const osi_terms *);
    using says = std::uint32_t (*)(osi_end *, std::uint16_t, const std::uint8_t *, std::size_t);

    static result<end> make(makes made, const terms &own) noexcept
    {
        const osi_terms passed = {detail::bits(own.classes), own.size, own.window};
        result<end> answer;
        answer.value.slot_.reset(new (std::nothrow) slot);
        answer.code = answer.value ? static_cast<osi::code>(made(answer.value.get(), &passed)) : code::no_memory;
        if (!answer)
            answer.value.reset();
        return answer;
    }

    /* A call with the slot. */
    template <class Function, class... Arguments>
    code call(Function function, Arguments... arguments) noexcept
    {
        return slot_ ? static_cast<code>(function(&slot_->of_c, arguments...)) : code::slot_empty;
    }

    code say(says function, osi::reference of, octets data) noexcept
    {
        return call(function, of, data.data(), data.size());
    }

    template <class T>
    T look(T (*function)(osi_end *, std::uint16_t), osi::reference of) noexcept
    {
        return slot_ ? function(&slot_->of_c, of) : T{0};
    }

    std::unique_ptr<slot> slot_;
};

/* ---- the judge of a byte connection that passes ---------------------------------------------------------- */

/* Judges a byte connection between two other programs: it says which side first sent what no conforming end could
 * have sent there (docs/JUDGING.md), as `osi judge` does, while the octets pass. It judges both classes of transport
 * and any number of connections: the transport of each side, and the session of each side of each connection. You can
 * move a judge, but not copy it. An object that was moved from, or default-made, holds none: its calls answer
 * code::slot_empty.
 *
 *     osi::judge judge = *osi::judge::make();          // empty if memory ran out
 *     (void)judge.feed_all(osi::judged_side::left, piece, [](const osi::verdict &said) {
 *         std::cout << osi::verdict_line(said).text() << '\n';
 *     });
 */
class judge {
public:
    /* Holds no judge. */
    judge() noexcept = default;

    /* One on whose byte connection nothing has passed: ok, no_memory. */
    static result<judge> make() noexcept
    {
        result<judge> answer;
        answer.value.slot_.reset(new (std::nothrow) osi_judge()); /* zeros, as OSI_JUDGE */
        answer.code = answer.value ? static_cast<osi::code>(osi_judge_new(answer.value.slot_.get())) : code::no_memory;
        if (!answer)
            answer.value.reset();
        return answer;
    }

    /* Whether it holds one. */
    explicit operator bool() const noexcept { return slot_ != nullptr; }

    /* Frees what it holds. */
    void reset() noexcept { slot_.reset(); }

    /* Feeds octets of a side, in the order in which they passed, and answers how many passed: all of them
     * if the code is ok. ok, slot_empty, no_memory (the first ones have passed: feed the others again). */
    result<std::size_t> feed(judged_side side, octets piece) noexcept
    {
        result<std::size_t> answer;
        answer.code = call(osi_judge_feed, detail::bits(side), piece.data(), piece.size(), &answer.value);
        return answer;
    }

    /* Feeds octets of a side, and passes each verdict that is certain to on_verdict(const verdict &). If that throws, all
     * of the piece has passed, unless memory ran out, and the next feed_all passes the other verdicts. */
    template <class OnVerdict>
    result<std::size_t> feed_all(judged_side side, octets piece, OnVerdict &&on_verdict)
    {
        result<std::size_t> answer = feed(side, piece);
        result<verdict> certain = next();
        for (; certain; certain = next())
            on_verdict(*certain);
        if (answer && certain.code != code::nothing)
            answer.code = certain.code;
        return answer;
    }

    /* A verdict that is certain, each once, and never `kept`: ok, nothing (there is none), slot_empty, no_memory. */
    result<verdict> next() noexcept
    {
        osi_verdict shown;
        result<verdict> answer;
        answer.code = call(osi_judge_next, &shown);
        if (answer)
            answer.value = verdict_of(shown);
        return answer;
    }

    /* The verdict by what has passed so far, whether it is certain or not, on the session of a side of the connection
     * with this number: ok, slot_empty, no_memory, no_such_connection (none has this number so far). */
    result<verdict> of(std::uint64_t connection, judged_side side) noexcept
    {
        osi_verdict shown;
        result<verdict> answer;
        answer.code = call(osi_judge_verdict, connection, detail::bits(side), &shown);
        if (answer)
            answer.value = verdict_of(shown);
        return answer;
    }

    /* The same on the transport of a side: its first break, else the packet after which nothing more of it is judged,
     * else `kept`. ok, slot_empty, no_memory. */
    result<verdict> of_transport(judged_side side) noexcept { return of(OSI_NO_CONNECTION, side); }

    /* How many connections were requested so far; their numbers are 0 to one less: ok, slot_empty, no_memory. */
    result<std::uint64_t> connections() noexcept
    {
        result<std::uint64_t> answer;
        answer.code = call(osi_judge_connections, &answer.value);
        return answer;
    }

    /* The text of the verdict on all that has passed so far, which is what `osi judge` prints for it: ok, slot_empty,
     * no_memory. Its last line is "both kept the protocol" only if all that passed was judged. It is valid until the
     * next call with this judge. */
    result<std::string_view> text() noexcept
    {
        result<std::string_view> answer;
        answer.code = call(osi_judge_write);
        osi_octets lent = OSI_NO_OCTETS;
        if (answer)
            osi_judge_text(slot_.get(), &lent);
        answer.value = octets(lent).text();
        return answer;
    }

private:
    struct freed {
        void operator()(osi_judge *slot) const noexcept
        {
            osi_judge_free(slot);
            delete slot;
        }
    };

    /* A call with the slot. */
    template <class Function, class... Arguments>
    code call(Function function, Arguments... arguments) noexcept
    {
        return slot_ ? static_cast<code>(function(slot_.get(), arguments...)) : code::slot_empty;
    }

    static verdict verdict_of(const osi_verdict &v) noexcept
    {
        verdict shown{static_cast<judged_side>(v.side), static_cast<verdict_kind>(v.kind), static_cast<osi::said>(v.said),
                      static_cast<osi::rule>(v.rule), v.offset, static_cast<judged_side>(v.by), std::nullopt, v.left, v.right};
        if (v.connection != OSI_NO_CONNECTION)
            shown.connection = v.connection;
        return shown;
    }

    std::unique_ptr<osi_judge, freed> slot_;
};

} // namespace osi

#endif
