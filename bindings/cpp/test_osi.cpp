/*
 * Tests of include/osi.hpp: views of octets, ends that are made, moved and freed, codes, and each kind
 * of indication between two ends in memory. The last line is `N passed, M failed`.
 *
 *     c++ -std=c++17 -Wall -Wextra -Wold-style-cast -Wpedantic -Iinclude bindings/cpp/test_osi.cpp build/libosi-session.a
 */
#include "osi.hpp"

#include <array>
#include <cstdio>
#include <new>
#include <string>
#include <type_traits>
#include <vector>

using osi::code;
using osi::tag;

static int passed = 0, failed = 0;

#define CHECK(holds) check((holds), #holds, __LINE__)

static void check(bool holds, const char *what, int line)
{
    passed += holds;
    failed += !holds;
    if (!holds)
        std::printf("FAILED, line %d: %s\n", line, what);
}

/* If this is set, there is no memory for a slot. (Under valgrind there is, because it has its own new.) */
static bool no_slot = false;

void *operator new(std::size_t size, const std::nothrow_t &) noexcept
{
    return no_slot ? nullptr : ::operator new(size);
}

static bool is_refused()
{
    void *volatile got = ::operator new(1, std::nothrow);
    ::operator delete(got);
    return got == nullptr;
}

/* ---- what the compiler knows */

static_assert(!std::is_copy_constructible_v<osi::end> && !std::is_copy_assignable_v<osi::end>);
static_assert(std::is_nothrow_move_constructible_v<osi::end> && std::is_nothrow_move_assignable_v<osi::end>);
static_assert(std::is_nothrow_destructible_v<osi::end>);
static_assert(sizeof(osi::end) == sizeof(void *), "moving an end does not move what C was given");
static_assert(sizeof(osi::code) == sizeof(std::uint32_t) && sizeof(osi::side) == 1 && sizeof(osi::units) == 2);
static_assert(!std::is_constructible_v<osi::octets, std::nullptr_t>);
static_assert(!std::is_constructible_v<osi::octets, const std::vector<int> &>);
static_assert(osi::has(osi::units::half_duplex | osi::units::minor_sync, osi::units::minor_sync));
static_assert(!osi::has(osi::tokens::data, osi::tokens::data | osi::tokens::minor));
static_assert(osi::text(code::token_not_held) == "the other side holds a token that the call needs");
static_assert(osi::is_over(tag::lost) && !osi::is_over(tag::release));

/* ---- octets */

static void octets_are_views()
{
    const std::vector<std::uint8_t> vector = {1, 2, 3};
    const std::array<std::byte, 2> array = {std::byte{4}, std::byte{5}};
    const unsigned char raw[] = {6, 7};
    const std::string text("a\0b", 3);
    CHECK(osi::octets(vector).data() == vector.data() && osi::octets(vector).size() == 3);
    CHECK(osi::octets(array).size() == 2 && osi::octets(array)[1] == 5);
    CHECK(osi::octets(raw).size() == 2 && osi::octets(raw)[0] == 6);
    CHECK(osi::octets(text).size() == 3 && osi::octets(text).text() == text);
    CHECK(osi::octets("hello").size() == 5 && osi::octets(std::string_view("hello")) == osi::octets("hello"));
    CHECK(osi::octets("hello").first(2) == "he" && osi::octets("hello").from(2) == "llo");
    CHECK(osi::octets("hello").first(9) == "hello" && osi::octets("hello").from(9).empty());
    CHECK(osi::octets("hello") != osi::octets("help!") && osi::octets("a") != osi::octets());
}

static void no_octets_are_no_null()
{
    const std::uint8_t *null = nullptr;
    const osi_octets passed_on = osi::octets();
    CHECK(osi::octets().data() != nullptr && osi::octets().empty());
    CHECK(osi::octets(null, 0).data() != nullptr);
    CHECK(osi::octets(std::vector<std::uint8_t>()).data() != nullptr);
    CHECK(osi::octets(std::string_view()).data() != nullptr);
    CHECK(passed_on.at != nullptr && passed_on.length == 0);
}

/* ---- two ends in memory */

struct pair {
    osi::end caller, called;
    osi::reference of = 0;
    std::vector<osi::indication> by_caller, by_called; /* indications; their user data is in said */
    std::vector<std::string> said;

    void keep(std::vector<osi::indication> &all, const osi::indication &shown)
    {
        said.emplace_back(shown.user_data.text());
        all.push_back(shown);
        all.back().user_data = {};
    }

    /* Carries octets in one direction, in pieces of this size. */
    void carry(osi::end &from, osi::end &to, std::vector<osi::indication> &all, std::size_t piece)
    {
        while (!from.outgoing().empty()) {
            const std::string octets(from.outgoing().first(piece).text());
            CHECK(from.taken(octets.size()) == code::ok);
            CHECK(to.feed_all(octets, [&](const osi::indication &shown) { keep(all, shown); }) == code::ok);
        }
    }

    void carry(std::size_t piece = 7)
    {
        for (int turn = 0; turn < 3; turn++) {
            carry(caller, called, by_called, piece);
            carry(called, caller, by_caller, piece);
        }
    }

    /* The last indication of a side, if it has this tag. */
    const osi::indication &shown(const std::vector<osi::indication> &all, tag awaited)
    {
        static const osi::indication none;
        CHECK(!all.empty() && all.back().tag == awaited);
        return all.empty() ? none : all.back();
    }
};

static constexpr osi::units all_units = osi::units::half_duplex | osi::units::minor_sync | osi::units::major_sync |
                                        osi::units::resynchronize | osi::units::negotiated_release;
static constexpr osi::tokens all_tokens =
    osi::tokens::data | osi::tokens::minor | osi::tokens::major | osi::tokens::release;

static osi::terms of_class(osi::classes classes)
{
    osi::terms own;
    own.classes = classes;
    return own;
}

static osi::opening opening(osi::units units = all_units, std::uint32_t serial = 1)
{
    osi::opening asked;
    asked.requirements = units;
    asked.serial = serial;
    asked.calling_tsap = "here";
    asked.called_tsap = "there";
    asked.calling_selector = "caller";
    asked.called_selector = "called";
    asked.user_data = "who is there?";
    return asked;
}

/* Two ends that have asked for a connection. */
static pair asked(osi::classes classes, const osi::opening &wanted = opening())
{
    pair both;
    both.caller = *osi::end::caller(of_class(classes));
    both.called = *osi::end::called(of_class(classes));
    const auto connection = both.caller.connect(wanted);
    CHECK(connection && *connection == 1);
    both.of = *connection;
    CHECK(both.caller.phase(both.of) == osi::phase::wait_transport);
    both.carry();
    return both;
}

static pair opened(osi::classes classes, const osi::opening &wanted = opening())
{
    pair both = asked(classes, wanted);
    CHECK(both.called.accept(both.of, wanted.requirements, wanted.serial, {}, "a gateway") == code::ok);
    both.carry();
    return both;
}

/* ---- ends */

static void an_empty_end_does_nothing()
{
    osi::end none;
    bool was_shown = false;
    const auto shown = [&](const osi::indication &) { was_shown = true; };
    CHECK(!none && none.get() == nullptr);
    CHECK(none.connect({}).code == code::slot_empty && none.data(1, "x") == code::slot_empty);
    CHECK(none.accept(1, all_units) == code::slot_empty && none.give(1, all_tokens) == code::slot_empty);
    CHECK(none.feed("x").code == code::slot_empty && none.feed_all("x", shown) == code::slot_empty);
    CHECK(none.feed_all({}, shown) == code::slot_empty && !was_shown);
    CHECK(none.outgoing().empty() && none.outgoing().data() != nullptr);
    CHECK(none.taken(0) == code::slot_empty && none.broken() == code::slot_empty);
    CHECK(!none.ended() && !none.next() && none.last().tag == tag::none && none.kept() == 0);
    CHECK(none.phase(1) == osi::phase::none && none.held(1) == osi::tokens::none && none.next_serial(1) == 0);
    CHECK(none.unsent(1) == 0 && none.backlog() == 0 && none.live() == 0);
    none.reset();
}

static void moved_ends_are_the_ends_that_they_were()
{
    pair both = opened(osi::classes::class_0);
    osi_end *const slot = both.caller.get();
    osi::end moved = std::move(both.caller);
    CHECK(moved.get() == slot && !both.caller);
    CHECK(both.caller.data(both.of, "x") == code::slot_empty);
    CHECK(moved.phase(both.of) == osi::phase::ready && moved.data(both.of, "x") == code::ok);
    both.caller = std::move(moved);
    CHECK(!moved && both.caller.get() == slot);
    both.carry();
    both.shown(both.by_called, tag::data);
    both.caller = *osi::end::caller(); /* frees the end that it held */
    CHECK(both.caller && both.caller.phase(both.of) == osi::phase::none);
    std::vector<osi::end> many;
    for (int i = 0; i < 9; i++)
        many.push_back(*osi::end::called());
    many.erase(many.begin());
    CHECK(many.size() == 8 && many.front() && many.back());
    many.front().reset();
    CHECK(!many.front() && many.front().broken() == code::slot_empty);
}

static void ends_are_freed_at_any_time()
{
    pair waiting = asked(osi::classes::class_2);
    CHECK(waiting.caller.feed({"\x03", 1}).value.used == 1 && waiting.caller.kept() == 1);
    pair with_octets = opened(osi::classes::class_2);
    CHECK(with_octets.caller.data(1, std::string(100000, 'x')) == code::ok);
    pair with_indications = opened(osi::classes::class_0);
    CHECK(with_indications.caller.data(1, "lent") == code::ok);
    CHECK(with_indications.called.feed(with_indications.caller.outgoing())->waits);
    pair lent = opened(osi::classes::class_0);
    CHECK(lent.caller.data(1, "lent") == code::ok);
    CHECK(lent.called.feed(lent.caller.outgoing())->waits && lent.called.next()->user_data == "lent");
    CHECK(lent.called.last().user_data == "lent" && !lent.called.next() && lent.called.last().tag == tag::none);
}

/* ---- each kind of indication */

static void opening_is_shown()
{
    pair both = asked(osi::classes::both);
    const osi::indication &shown = both.shown(both.by_called, tag::connect);
    CHECK(shown.reference == 1 && shown.requirements == all_units && shown.number == 1u);
    CHECK(shown.sides.data == osi::side::asker && both.said.back() == "who is there?");
    CHECK(both.called.phase(1) == osi::phase::answering);
    CHECK(both.called.accept(1, all_units, 1, {}, "a gateway") == code::ok);
    both.carry();
    const osi::indication &answer = both.shown(both.by_caller, tag::connected);
    CHECK(answer.reference == both.of && answer.requirements == all_units && answer.number == 1u);
    CHECK(both.said.back() == "a gateway" && both.caller.held(1) == all_tokens);
    CHECK(both.called.held(1) == osi::tokens::none && both.caller.next_serial(1) == 1);
}

static void wishes_are_shown()
{
    osi::opening wanted = opening();
    wanted.wishes = {osi::side::answerer, osi::side::choice, osi::side::asker, osi::side::choice};
    pair both = asked(osi::classes::class_0, wanted);
    const osi::sides wishes = both.shown(both.by_called, tag::connect).sides;
    CHECK(wishes.data == osi::side::answerer && wishes.minor == osi::side::choice);
    CHECK(wishes.major == osi::side::asker && wishes.release == osi::side::choice);
    const osi::sides holders = {osi::side::answerer, osi::side::answerer, osi::side::asker, osi::side::asker};
    CHECK(both.called.accept(1, all_units, 7, holders) == code::ok);
    both.carry();
    CHECK(both.shown(both.by_caller, tag::connected).sides.minor == osi::side::answerer);
    CHECK(both.called.held(1) == (osi::tokens::data | osi::tokens::minor));
    CHECK(both.caller.held(1) == (osi::tokens::major | osi::tokens::release) && both.caller.next_serial(1) == 7);
}

static void sizes_are_agreed()
{
    osi::opening wanted = opening();
    wanted.sizes = {64, 200};
    pair both = asked(osi::classes::class_0, wanted);
    const osi::tsdu_sizes named = both.shown(both.by_called, tag::connect).sizes;
    CHECK(named.from_asker == 64 && named.from_answerer == 200);
    CHECK(both.called.accept_sized(1, all_units, 1, {}, {63, 0}) == code::bad_argument);
    CHECK(both.called.accept_sized(1, all_units, 1, {}, {0, 100}) == code::ok);
    both.carry();
    const osi::tsdu_sizes agreed = both.shown(both.by_caller, tag::connected).sizes;
    CHECK(agreed.from_asker == 64 && agreed.from_answerer == 100);
    const std::string long_data(61, 'x');
    CHECK(both.caller.abort(1, long_data) == code::too_long);
    CHECK(both.caller.data(1, long_data) == code::ok);
    both.carry();
    CHECK(both.shown(both.by_called, tag::data).tag == tag::data && both.said.back() == long_data);
    wanted.sizes = {0, 1};
    CHECK(osi::end::caller()->connect(wanted).code == code::bad_argument);
}

static void refusals_are_shown()
{
    pair by_user = asked(osi::classes::class_0);
    CHECK(by_user.called.refuse(1, "not now") == code::ok);
    by_user.carry();
    CHECK(by_user.shown(by_user.by_caller, tag::refused_by_session).reason == 2 && by_user.said.back() == "not now");
    pair by_transport;
    by_transport.caller = *osi::end::caller(of_class(osi::classes::both));
    by_transport.called = *osi::end::called(of_class(osi::classes::none));
    CHECK(by_transport.caller.connect(opening()).code == code::ok);
    by_transport.carry();
    CHECK(by_transport.shown(by_transport.by_caller, tag::refused_by_transport).reason == 130);
}

static void data_and_tokens_are_shown(pair &both)
{
    CHECK(both.caller.data(both.of, std::string(300, 'x')) == code::ok);
    both.carry();
    both.shown(both.by_called, tag::data);
    CHECK(both.said.back() == std::string(300, 'x'));
    CHECK(both.called.please(both.of, osi::tokens::data, "please") == code::ok);
    both.carry();
    CHECK(both.shown(both.by_caller, tag::asked).tokens == osi::tokens::data && both.said.back() == "please");
    CHECK(both.caller.give(both.of, osi::tokens::data) == code::ok);
    both.carry();
    CHECK(both.shown(both.by_called, tag::given).tokens == osi::tokens::data);
    CHECK(both.called.give(both.of, osi::tokens::data) == code::ok);
    both.carry();
}

static void points_are_shown(pair &both)
{
    CHECK(both.caller.minor_point(both.of, false) == code::ok && both.caller.minor_point(both.of, true, "m") == code::ok);
    both.carry();
    const osi::indication &minor = both.shown(both.by_called, tag::minor);
    CHECK(minor.number == 2u && minor.confirm && both.said.back() == "m");
    CHECK(both.by_called[both.by_called.size() - 2].number == 1u && !both.by_called[both.by_called.size() - 2].confirm);
    CHECK(both.called.minor_confirm(both.of, 2, "c") == code::ok);
    both.carry();
    CHECK(both.shown(both.by_caller, tag::minor_confirmed).number == 2u && both.said.back() == "c");
    CHECK(both.caller.major_point(both.of, "M") == code::ok);
    both.carry();
    CHECK(both.shown(both.by_called, tag::major).number == 3u && both.said.back() == "M");
    CHECK(both.called.phase(both.of) == osi::phase::major_due);
    CHECK(both.called.major_confirm(both.of) == code::ok);
    both.carry();
    CHECK(!both.shown(both.by_caller, tag::major_confirmed).number);
    CHECK(both.caller.confirmed_below(both.of) == 4 && both.caller.lowest_restart(both.of) == 4);
}

static void restarts_are_shown(pair &both)
{
    const osi::sides wishes = {osi::side::asker, osi::side::asker, osi::side::asker, osi::side::choice};
    CHECK(both.caller.restart(both.of, 4, wishes, "again") == code::ok);
    both.carry();
    const osi::indication &shown = both.shown(both.by_called, tag::restart);
    CHECK(shown.number == 4u && shown.sides.release == osi::side::choice && both.said.back() == "again");
    CHECK(both.called.restart_confirm(both.of, {}) == code::ok);
    both.carry();
    CHECK(both.shown(both.by_caller, tag::restarted).number == 4u && both.caller.held(both.of) == all_tokens);
}

static void the_release_is_shown(pair &both)
{
    CHECK(both.caller.release(both.of, "bye") == code::ok);
    both.carry();
    both.shown(both.by_called, tag::release);
    CHECK(both.said.back() == "bye" && both.called.release_refuse(both.of, "stay") == code::ok);
    both.carry();
    both.shown(both.by_caller, tag::release_refused);
    CHECK(both.said.back() == "stay" && both.caller.release(both.of) == code::ok);
    both.carry();
    CHECK(both.called.release_accept(both.of) == code::ok);
    both.carry();
    both.shown(both.by_caller, tag::released);
    CHECK(both.caller.phase(both.of) == osi::phase::ended);
}

static void a_connection_is_shown(osi::classes classes)
{
    pair both = opened(classes);
    data_and_tokens_are_shown(both);
    points_are_shown(both);
    restarts_are_shown(both);
    the_release_is_shown(both);
    if (classes == osi::classes::class_0)
        CHECK(both.caller.ended() && both.caller.ended()->why == osi::ending::closed);
    else
        CHECK(!both.caller.ended());
}

static void aborts_are_shown()
{
    pair both = opened(osi::classes::class_2);
    CHECK(both.called.abort(both.of, "enough") == code::ok);
    both.carry();
    both.shown(both.by_caller, tag::aborted);
    CHECK(both.said.back() == "enough");
}

static void losses_are_shown()
{
    pair both = opened(osi::classes::class_0);
    CHECK(both.caller.broken() == code::ok);
    const auto shown = both.caller.next();
    CHECK(shown && shown->tag == tag::lost && shown->reference == both.of && !both.caller.next());
    CHECK(both.caller.ended() && both.caller.ended()->why == osi::ending::broken && both.caller.ended()->detail == 0);
}

static void bad_units_are_shown()
{
    static const std::uint8_t unknown[] = {0x03, 0x00, 0x00, 0x09, 0x02, 0xf0, 0x80, 0x21, 0x00};
    pair both = opened(osi::classes::class_0);
    CHECK(both.called.feed(unknown)->waits);
    const auto shown = both.called.next();
    CHECK(shown && shown->tag == tag::bad_unit && shown->fault.kind == osi::fault_kind::spelling);
    CHECK(shown && shown->fault.spelling == osi::spelling::unknown_si && shown->fault.offset == 0);
    both.carry();
    CHECK(both.shown(both.by_caller, tag::peer_abort).reason == 5);
    pair other = opened(osi::classes::class_0);
    static const std::uint8_t unexpected[] = {0x03, 0x00, 0x00, 0x09, 0x02, 0xf0, 0x80, 0x0a, 0x00};
    CHECK(other.called.feed(unexpected)->waits);
    const auto second = other.called.next();
    CHECK(second && second->fault.kind == osi::fault_kind::unexpected && second->fault.si == 10);
}

static void what_credit_holds_back_is_unsent()
{
    const std::string message(1000, 'x');
    pair two = opened(osi::classes::class_2);
    for (int i = 0; i < 20; i++)
        CHECK(two.caller.data(two.of, message) == code::ok);
    CHECK(two.caller.unsent(two.of) == 5020 && two.caller.backlog() == 5020 && two.caller.live() == 1);
    CHECK(two.caller.unsent(2) == 0 && two.called.backlog() == 0);
    two.carry();
    CHECK(two.caller.unsent(two.of) == 0 && two.caller.backlog() == 0);
    CHECK(two.caller.abort(two.of) == code::ok);
    two.carry();
    CHECK(two.caller.live() == 0 && two.called.live() == 0);
    pair zero = opened(osi::classes::class_0);
    for (int i = 0; i < 20; i++)
        CHECK(zero.caller.data(zero.of, message) == code::ok);
    CHECK(zero.caller.unsent(zero.of) == 0 && zero.caller.backlog() == 0 && zero.caller.live() == 1);
}

static void a_connection_is_given_up_alone()
{
    pair two = opened(osi::classes::class_2);
    CHECK(!two.caller.wants_write() && !two.caller.is_over());
    CHECK(two.caller.connect(opening()).value == 2 && two.caller.disconnect(2) == code::bad_state);
    CHECK(two.caller.disconnect(3) == code::no_such_connection);
    two.carry();
    CHECK(two.called.accept(2, all_units, 1) == code::ok);
    two.carry();
    CHECK(two.caller.data(two.of, std::string(200000, 'x')) == code::ok && two.caller.backlog() > 0);
    CHECK(two.caller.disconnect(two.of) == code::ok && two.caller.backlog() == 0 && two.caller.wants_write());
    CHECK(two.caller.phase(two.of) == osi::phase::ended && two.caller.disconnect(two.of) == code::ok);
    two.carry();
    CHECK(two.shown(two.by_called, tag::lost).reference == two.of);
    CHECK(two.caller.live() == 1 && two.called.live() == 1 && !two.caller.is_over());
    CHECK(two.caller.data(2, "still here") == code::ok);
    two.carry();
    CHECK(two.shown(two.by_called, tag::data).reference == 2);
    pair zero = opened(osi::classes::class_0);
    CHECK(zero.caller.disconnect(zero.of) == code::ok && !zero.caller.next());
    CHECK(zero.caller.ended() && zero.caller.ended()->why == osi::ending::closed && zero.caller.is_over());
    osi::end none;
    CHECK(none.disconnect(1) == code::slot_empty && !none.is_over() && !none.wants_write());
}

static void connections_have_addresses()
{
    pair two = opened(osi::classes::class_2);
    osi::opening wanted;
    wanted.called_selector = "another";
    const auto second = two.caller.connect(wanted);
    CHECK(second && !two.called.addresses(*second));
    two.carry();
    for (osi::end *const end : {&two.caller, &two.called}) {
        const auto first = end->addresses(two.of), other = end->addresses(*second);
        CHECK(first && first->calling_tsap() == opening().calling_tsap && first->called_tsap() == opening().called_tsap);
        CHECK(first && first->calling_selector() == opening().calling_selector);
        CHECK(first && first->called_selector() == opening().called_selector);
        CHECK(other && other->called_selector() == "another" && other->calling_selector().empty());
        CHECK(other && other->calling_tsap().empty() && other->called_tsap().empty() && !end->addresses(3));
    }
    CHECK(two.caller.abort(two.of) == code::ok);
    two.carry();
    CHECK(!two.caller.addresses(two.of) && !two.called.addresses(two.of) && two.called.addresses(*second));
    CHECK(!osi::end().addresses(1));
}

static void data_in_parts_is_joined()
{
    static const std::uint8_t first[] = {0x03, 0x00, 0x00, 0x0f, 0x02, 0xf0, 0x80, 0x01,
                                         0x00, 0x01, 0x03, 0x19, 0x01, 0x01, 0x41};
    static const std::uint8_t last[] = {0x03, 0x00, 0x00, 0x0f, 0x02, 0xf0, 0x80, 0x01,
                                        0x00, 0x01, 0x03, 0x19, 0x01, 0x02, 0x42};
    pair both = opened(osi::classes::class_0);
    CHECK(!both.called.feed(first)->waits && both.called.kept() == 1);
    CHECK(both.called.feed(last)->waits);
    const auto shown = both.called.next();
    CHECK(shown && shown->tag == tag::data && shown->user_data == "AB");
    CHECK(both.called.kept() == 0);
    CHECK(both.called.feed(last)->waits);
    const auto second = both.called.next();
    CHECK(second && second->fault.kind == osi::fault_kind::bad_enclosure && second->fault.si == 1);
}

static void bad_packets_end_an_end()
{
    osi::end end = *osi::end::called();
    CHECK(end.feed({"\x04", 1})->used == 1);
    CHECK(end.ended() && end.ended()->why == osi::ending::bad_version && end.ended()->detail == 0);
    CHECK(osi::text(end.ended()->why) == "a packet is not of TPKT version 3");
}

static void connections_are_told_apart()
{
    pair both = opened(osi::classes::class_2);
    const auto second = both.caller.connect(opening(osi::units::duplex));
    CHECK(second && *second == 2);
    both.carry();
    CHECK(both.called.accept(2, osi::units::duplex) == code::ok);
    both.carry();
    CHECK(both.caller.data(2, "two") == code::ok && both.caller.data(1, "one") == code::ok);
    both.carry();
    const std::size_t count = both.by_called.size();
    CHECK(both.by_called[count - 2].reference == 2 && both.by_called[count - 1].reference == 1);
    CHECK(both.said[both.said.size() - 2] == "two" && both.said.back() == "one");
    CHECK(!both.by_called[count - 3].number); /* duplex alone has no points */
}

/* ---- codes */

static void numbers_have_names()
{
    CHECK(osi::version() == OSI_VERSION && osi::name(code::bad_state) == "OSI_BAD_STATE");
    CHECK(osi::name(tag::data) == "OSI_DATA" && osi::name(osi::phase::ready) == "OSI_PHASE_READY");
    CHECK(osi::name(osi::ending::closed) == "OSI_END_CLOSED" && osi::name(static_cast<code>(6)) == "unknown");
}

static void terms_are_judged()
{
    osi::terms small, wide, none;
    small.size = 6;
    wide.window = 16;
    none.classes = osi::classes::none;
    CHECK(osi::end::caller(small).code == code::bad_argument && !osi::end::caller(small).value);
    CHECK(osi::end::called(wide).code == code::bad_argument);
    CHECK(osi::end::caller(none).code == code::ok);
    no_slot = true;
    if (is_refused())
        CHECK(osi::end::caller().code == code::no_memory && !osi::end::called().value);
    no_slot = false;
    osi::end full = *osi::end::caller();
    const osi_terms again = {OSI_CLASS_0, 13, 15};
    CHECK(static_cast<code>(osi_caller(full.get(), &again)) == code::in_use && full);
}

static void connects_are_judged()
{
    pair both;
    both.caller = *osi::end::caller();
    both.called = *osi::end::called();
    CHECK(both.called.connect(opening()).code == code::not_caller);
    CHECK(both.caller.connect(opening(all_units, 1000000)).code == code::bad_argument);
    CHECK(both.caller.connect(opening(osi::units::minor_sync)).code == code::not_selected);
    osi::opening wanted = opening();
    const std::string much(10241, 'x');
    wanted.user_data = much;
    CHECK(both.caller.connect(wanted).code == code::too_long);
    CHECK(both.caller.connect(opening()).code == code::ok);
    CHECK(both.caller.connect(opening()).code == code::negotiating);
    pair zero = opened(osi::classes::class_0);
    CHECK(zero.caller.connect(opening()).code == code::one_connection);
    pair two = opened(osi::classes::class_2);
    for (int i = 1; i < 64; i++)
        CHECK(two.caller.connect(opening()).code == code::ok);
    CHECK(two.caller.connect(opening()).code == code::too_many);
    CHECK(two.caller.broken() == code::ok && two.caller.connect(opening()).code == code::ended);
}

static void calls_are_judged()
{
    pair both = opened(osi::classes::class_0);
    const std::string much(1048573, 'x');
    CHECK(both.caller.data(9, "x") == code::no_such_connection);
    CHECK(both.caller.accept(1, all_units) == code::bad_state);
    CHECK(both.caller.accept(1, all_units, 1000000) == code::bad_argument);
    CHECK(both.called.data(1, "x") == code::token_not_held);
    CHECK(both.caller.please(1, osi::tokens::data) == code::token_already_held);
    CHECK(both.called.minor_confirm(1, 5) == code::bad_number);
    CHECK(both.caller.data(1, {}) == code::empty && both.caller.give(1, osi::tokens::none) == code::empty);
    CHECK(both.caller.data(1, much) == code::too_long && both.caller.outgoing().empty());
    CHECK(both.caller.taken(1) == code::bad_argument);
    CHECK(both.caller.broken() == code::ok && both.caller.data(1, "x") == code::ended);
    pair plain = opened(osi::classes::class_0, opening(osi::units::half_duplex, 0));
    CHECK(plain.caller.major_point(1) == code::not_selected);
    pair last = opened(osi::classes::class_0, opening(all_units, 999999));
    CHECK(last.caller.minor_point(1) == code::ok && last.caller.minor_point(1) == code::serials_used_up);
}

static void codes_have_texts()
{
    for (std::uint32_t number = 0; number <= OSI_REFERENCES_USED_UP; number++) {
        const bool named = osi::text(static_cast<code>(number)) != "a code without a name";
        CHECK(named == (number <= OSI_NOTHING || number >= OSI_NO_SUCH_CONNECTION));
    }
    for (std::uint32_t number = 0; number <= OSI_BAD_UNIT + 1; number++)
        CHECK((osi::text(static_cast<tag>(number)) != "an indication without a name") == (number <= OSI_BAD_UNIT));
    for (std::uint32_t number = 0; number <= OSI_PHASE_ENDED + 1; number++)
        CHECK((osi::text(static_cast<osi::phase>(number)) != "a phase without a name") == (number <= OSI_PHASE_ENDED));
    CHECK(osi::text(osi::ending::no_memory_for_tsdu) != "a reason without a name");
}

/* ---- trace and counters */

static void an_end_is_traced()
{
    pair two = opened(osi::classes::class_0);
    CHECK(two.caller.trace(osi::tracing::lines) == code::ok);
    CHECK(two.caller.traced(osi::direction::sent, [](std::string_view) {}) == code::nothing);
    CHECK(two.caller.data(two.of, "hello") == code::ok);
    two.carry();
    std::vector<std::string> lines;
    const auto keep = [&](std::string_view line) { lines.emplace_back(line); };
    CHECK(two.caller.traced(osi::direction::sent, keep) == code::ok && lines.size() == 5);
    CHECK(lines.front() == "packet 0 length 16 code f0" && lines.back() == "    DT octets 5");
    const osi::counters seen = two.caller.counts();
    CHECK(seen.sent.packets == 1 && seen.sent.tsdus == 1 && seen.sent.session_units == 2 && seen.sent.refused == 0);
    CHECK(two.caller.trace(osi::tracing::off) == code::ok && two.caller.counts().sent.octets == 0);
    osi::end none;
    CHECK(none.trace(osi::tracing::lines) == code::slot_empty && none.counts().received.octets == 0);
    CHECK(none.traced(osi::direction::sent, keep) == code::slot_empty);
}

/* A byte connection that passes is judged; a break before the class is known ends the judgement of both sides. */
static void a_byte_connection_is_judged()
{
    static_assert(!std::is_copy_constructible_v<osi::judge> && std::is_nothrow_move_constructible_v<osi::judge>);
    const std::array<std::uint8_t, 14> cr = {3, 0, 0, 14, 9, 0xE0, 0, 0, 0, 1, 0, 0xC0, 1, 10};
    std::vector<osi::verdict> told;
    const auto keep = [&](const osi::verdict &verdict) { told.push_back(verdict); };
    osi::judge empty;
    CHECK(!empty && empty.feed(osi::judged_side::left, cr).code == code::slot_empty && empty.next().code == code::slot_empty);
    CHECK(empty.text().code == code::slot_empty && empty.of(0, osi::judged_side::left).code == code::slot_empty);
    CHECK(empty.connections().code == code::slot_empty);
    auto made = osi::judge::make();
    CHECK(made && *made);
    osi::judge judge = std::move(*made);
    CHECK(*judge.feed_all(osi::judged_side::left, cr, keep) == cr.size() && told.empty() && judge.next().code == code::nothing);
    CHECK(*judge.connections() == 1 && judge.of(1, osi::judged_side::left).code == code::no_such_connection);
    const auto kept = judge.of(0, osi::judged_side::left);
    CHECK(kept && kept->kind == osi::verdict_kind::kept && kept->left == 1 && kept->right == 0 && kept->connection == 0u);
    CHECK(osi::verdict_line(*kept).text() == "left 1 kept");
    CHECK(judge.of_transport(osi::judged_side::left)->kind == osi::verdict_kind::kept);
    CHECK(*judge.feed_all(osi::judged_side::right, "HTTP/1.1 400", keep) == 12 && told.size() == 3);
    CHECK(told[0].side == osi::judged_side::right && told[0].kind == osi::verdict_kind::broke && !told[0].connection);
    CHECK(told[0].rule == osi::rule::bad_version && told[0].said == osi::said::tpkt && told[0].offset == 0);
    CHECK(told[1].side == osi::judged_side::left && told[1].kind == osi::verdict_kind::not_judged && told[1].by == osi::judged_side::right);
    CHECK(told[2].side == osi::judged_side::right && told[2].rule == osi::rule::bad_version && told[2].said == osi::said::tpkt);
    CHECK(judge.of_transport(osi::judged_side::right)->kind == osi::verdict_kind::broke);
    CHECK(osi::verdict_line(told[0]).text() == "right broke packet 0 TPKT BadVersion");
    CHECK(osi::verdict_line(told[1]).text() == "left not judged after right packet 0 TPKT BadVersion");
    CHECK(osi::verdict_line(osi::verdict()).text().empty());
    const auto text = judge.text();
    CHECK(text && text->substr(text->find("right broke the")) == "right broke the protocol first, packet 0: TPKT BadVersion\n");
    CHECK(osi::name(told[0].rule) == "OSI_RULE_BAD_VERSION" && osi::name(told[0].said) == "OSI_SAID_TPKT");
    CHECK(osi::name(told[0].kind) == "OSI_VERDICT_BROKE");
    judge.reset();
    CHECK(!judge);
    no_slot = true;
    if (is_refused())
        CHECK(osi::judge::make().code == code::no_memory);
    no_slot = false;
}

/* ---- a function that throws */

struct thrown {};

/* What a caller sends in one piece after it is connected: data "0" to "5". */
static const std::vector<std::string> six = {"0", "1", "2", "3", "4", "5"};

static std::string six_messages(pair &both)
{
    for (const std::string &text : six)
        CHECK(both.caller.data(both.of, text) == code::ok);
    const std::string octets(both.caller.outgoing().text());
    CHECK(both.caller.taken(octets.size()) == code::ok);
    return octets;
}

/* Whatever indication the function throws at, all of them come, each once and in order. */
static void a_function_that_throws_loses_nothing()
{
    for (const osi::classes classes : {osi::classes::class_0, osi::classes::class_2})
        for (std::size_t at = 0; at <= six.size(); at++) {
            pair both = opened(classes);
            const std::string octets = six_messages(both), first = octets.substr(0, octets.size() / 2 + 3);
            std::vector<std::string> said;
            const auto keep = [&](const osi::indication &shown) {
                said.emplace_back(shown.user_data.text());
                if (said.size() == at + 1)
                    throw thrown();
            };
            bool has_thrown = false;
            for (const std::string &piece : {first, octets.substr(first.size())}) {
                try {
                    CHECK(both.called.feed_all(piece, keep) == code::ok);
                } catch (const thrown &) {
                    has_thrown = true;
                }
            }
            CHECK(both.called.feed_all({}, keep) == code::ok);
            CHECK(has_thrown == (at < six.size()) && said == six);
        }
}

/* It may throw at each of them, and the end may be moved between two. */
static void a_function_may_throw_each_time()
{
    pair both = opened(osi::classes::class_2);
    std::string octets = six_messages(both);
    std::vector<std::string> said;
    for (std::size_t turn = 0; turn <= six.size(); turn++) {
        osi::end moved = std::move(both.called);
        try {
            CHECK(moved.feed_all(octets, [&](const osi::indication &shown) {
                said.emplace_back(shown.user_data.text());
                throw thrown();
            }) == code::ok);
            CHECK(turn == six.size());
        } catch (const thrown &) {
            CHECK(turn < six.size());
        }
        octets.clear();
        both.called = std::move(moved);
    }
    CHECK(said == six);
}

/* What is kept goes before a piece that feed is given. */
static void kept_octets_are_fed_first()
{
    pair both = opened(osi::classes::class_0);
    const std::string octets = six_messages(both);
    const std::size_t half = octets.size() / 2;
    std::vector<std::string> said;
    try {
        CHECK(both.called.feed_all(octets.substr(0, half), [](const osi::indication &) { throw thrown(); }) == code::ok);
    } catch (const thrown &) {
        said.emplace_back(both.called.last().user_data.text());
    }
    std::string rest = octets.substr(half);
    for (bool goes_on = true; goes_on;) {
        const auto did = both.called.feed(rest);
        CHECK(did && (did->waits || did->used == rest.size()));
        rest.erase(0, did->used);
        while (const auto one = both.called.next())
            said.emplace_back(one->user_data.text());
        goes_on = did->waits || !rest.empty();
    }
    CHECK(said == six);
}

/* Without memory for the rest the users are told that the connection is lost. */
static void without_memory_for_the_rest_it_is_lost()
{
    pair both = opened(osi::classes::class_0);
    const std::string octets = six_messages(both);
    no_slot = true;
    const bool refused = is_refused();
    try {
        CHECK(both.called.feed_all(octets, [](const osi::indication &) { throw thrown(); }) == code::ok);
        CHECK(false);
    } catch (const thrown &) {
    }
    no_slot = false;
    std::vector<tag> shown;
    CHECK(both.called.feed_all({}, [&](const osi::indication &one) { shown.push_back(one.tag); }) == code::ok);
    if (refused)
        CHECK(shown == std::vector<tag>{tag::lost});
}

int main()
{
    octets_are_views();
    no_octets_are_no_null();
    an_empty_end_does_nothing();
    moved_ends_are_the_ends_that_they_were();
    ends_are_freed_at_any_time();
    opening_is_shown();
    wishes_are_shown();
    sizes_are_agreed();
    refusals_are_shown();
    a_connection_is_shown(osi::classes::class_0);
    a_connection_is_shown(osi::classes::class_2);
    aborts_are_shown();
    losses_are_shown();
    bad_units_are_shown();
    what_credit_holds_back_is_unsent();
    a_connection_is_given_up_alone();
    connections_have_addresses();
    data_in_parts_is_joined();
    an_end_is_traced();
    bad_packets_end_an_end();
    connections_are_told_apart();
    terms_are_judged();
    connects_are_judged();
    calls_are_judged();
    codes_have_texts();
    numbers_have_names();
    a_byte_connection_is_judged();
    a_function_that_throws_loses_nothing();
    a_function_may_throw_each_time();
    kept_octets_are_fed_first();
    without_memory_for_the_rest_it_is_lost();
    std::printf("%d passed, %d failed\n", passed, failed);
    return failed == 0 ? 0 : 1;
}
