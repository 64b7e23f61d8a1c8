/* One end over a TCP socket, in C++: what client.cpp and server.cpp have in common. */
#ifndef LINE_HPP
#define LINE_HPP

#include "osi.hpp"

#include <arpa/inet.h>
#include <netinet/in.h>
#include <netinet/tcp.h>
#include <poll.h>
#include <sys/socket.h>
#include <unistd.h>

#include <algorithm>
#include <array>
#include <cerrno>
#include <chrono>
#include <cstdio>
#include <cstring>
#include <fstream>
#include <iostream>
#include <string>
#include <utility>

/* A socket that closes itself at the end of its life. */
class connection {
public:
    explicit connection(int handle) noexcept : handle_(handle) {}
    connection(connection &&other) noexcept : handle_(std::exchange(other.handle_, -1)) {}
    connection &operator=(connection &&) = delete;
    ~connection()
    {
        if (handle_ >= 0)
            ::close(handle_);
    }

    int handle() const noexcept { return handle_; }
    explicit operator bool() const noexcept { return handle_ >= 0; }

private:
    int handle_;
};

inline sockaddr_in loopback(const std::string &port)
{
    sockaddr_in place = {};
    place.sin_family = AF_INET;
    place.sin_port = htons(static_cast<std::uint16_t>(std::stoi(port)));
    place.sin_addr.s_addr = htonl(INADDR_LOOPBACK);
    return place;
}

inline std::string option(int count, char **words, const std::string &name, std::string otherwise)
{
    for (int i = 1; i + 1 < count; i++)
        if (words[i] == name)
            return words[i + 1];
    return otherwise;
}

inline osi::terms terms_of(const std::string &classes)
{
    osi::terms own;
    own.classes = (classes.find('0') != std::string::npos ? osi::classes::class_0 : osi::classes::none) |
                  (classes.find('2') != std::string::npos ? osi::classes::class_2 : osi::classes::none);
    return own;
}

/* The largest TSDU in both directions; 0 for no limit. */
inline osi::tsdu_sizes sizes_of(const std::string &octets)
{
    const auto size = static_cast<std::uint16_t>(std::stoul(octets));
    return {size, size};
}

/* ---- the log, in the words of a transcript (docs/TOOL.md) */

inline std::string hex(osi::octets octets)
{
    static constexpr char digits[] = "0123456789abcdef";
    std::string text;
    for (const std::uint8_t octet : octets)
        text += {digits[octet >> 4], digits[octet & 15]};
    return text.empty() ? "-" : text;
}

inline std::string hex(unsigned value, int width)
{
    std::array<char, 16> text{};
    std::snprintf(text.data(), text.size(), "%0*x", width, value);
    return text.data();
}

inline std::string letters(osi::sides s)
{
    static constexpr char letter[] = "arc";
    std::string text = " sides ";
    for (const osi::side holder : {s.data, s.minor, s.major, s.release})
        text += letter[static_cast<unsigned>(holder)];
    return text;
}

inline std::string opened(const osi::indication &shown)
{
    return " units " + hex(static_cast<unsigned>(shown.requirements), 4) + " serial " +
           (shown.number ? std::to_string(*shown.number) : "-") + letters(shown.sides);
}

/* The sizes that a CN or an AC names, if one of them is not 0. */
inline std::string sizes(osi::tsdu_sizes s)
{
    if (s.from_asker == 0 && s.from_answerer == 0)
        return "";
    return " tsdu " + std::to_string(s.from_asker) + ' ' + std::to_string(s.from_answerer);
}

inline std::string words(const osi::indication &shown)
{
    static constexpr const char *faults[] = {"",          "Spelling",  "Unexpected",   "NotSelected", "TokenHeld",
                                             "BadNumber", "BadTokens", "BadEnclosure", "DataTooLong"};
    const std::string number = std::to_string(shown.number.value_or(0));
    const std::string tokens = hex(static_cast<unsigned>(shown.tokens), 2);
    const std::string data = " data " + hex(shown.user_data);
    switch (shown.tag) {
    case osi::tag::none: return "";
    case osi::tag::connect: return "Connect" + opened(shown) + data + sizes(shown.sizes);
    case osi::tag::connected: return "Connected" + opened(shown) + data + sizes(shown.sizes);
    case osi::tag::refused_by_transport: return "Refused transport " + std::to_string(shown.reason);
    case osi::tag::refused_by_session: return "Refused session " + std::to_string(shown.reason) + data;
    case osi::tag::data: return "Data " + hex(shown.user_data);
    case osi::tag::given: return "Given " + tokens;
    case osi::tag::asked: return "Asked " + tokens + data;
    case osi::tag::minor: return "Minor " + number + " confirm " + (shown.confirm ? "yes" : "no") + data;
    case osi::tag::minor_confirmed: return "MinorConfirmed " + number + data;
    case osi::tag::major: return "Major " + number + data;
    case osi::tag::major_confirmed: return "MajorConfirmed" + data;
    case osi::tag::restart: return "Restart " + number + letters(shown.sides) + data;
    case osi::tag::restarted: return "Restarted " + number + letters(shown.sides) + data;
    case osi::tag::release: return "Release" + data;
    case osi::tag::released: return "Released" + data;
    case osi::tag::release_refused: return "ReleaseRefused" + data;
    case osi::tag::aborted: return "Aborted" + data;
    case osi::tag::lost: return "ProviderAbort Lost";
    case osi::tag::peer_abort: return "ProviderAbort Peer " + hex(shown.reason, 2);
    case osi::tag::bad_unit:
        return std::string("ProviderAbort Unit ") + faults[static_cast<unsigned>(shown.fault.kind)];
    }
    return "";
}

/* ---- an end on its socket */

/* An end, its socket and its log. No call of it blocks, so one thread serves many of them, and a peer that doesn't read delays
 * nobody. A subclass overrides shown. */
class line {
public:
    line(osi::end made, connection socket, const char *side, std::ostream &log, std::chrono::seconds patience)
        : end(std::move(made)), socket_(std::move(socket)), side_(side), log_(log), patience_(patience)
    {
    }
    line(const line &) = delete;
    line &operator=(const line &) = delete;
    virtual ~line() = default;

    /* A side makes no more calls while this many octets are unsent: outgoing ones, and those that wait for credit. */
    static constexpr std::size_t most_waiting = 262144;
    /* It reads no more while this many octets are outgoing, because it answers what it reads. This bound is above that of
     * calls: otherwise two sides that both write much would stop reading, and wait for each other for ever. */
    static constexpr std::size_t most_outgoing = 524288;
    /* If a peer gives no credit for this many octets of answers, its connection is answered no more and given up. */
    static constexpr std::size_t most_unsent = 16384;
    /* The most octets that a turn reads: some 700 messages of one octet. So a peer that sends without a pause delays no other. */
    static constexpr std::size_t most_read = 8192;

    /* The events that poll has to wait for, and for how many milliseconds at most. */
    pollfd waits()
    {
        const int reads = end.outgoing().size() <= most_outgoing ? POLLIN : 0;
        return {socket_.handle(), static_cast<short>(reads | (end.wants_write() ? POLLOUT : 0)), 0};
    }
    int timeout() const
    {
        const auto left = std::chrono::ceil<std::chrono::milliseconds>(deadline() - clock::now());
        return left.count() > 0 ? static_cast<int>(left.count()) : 0;
    }

    /* One turn of the loop: reads at most most_read octets, and writes, without blocking. False once there is nothing left to
     * do, because the byte connection is over or the peer was given up; then destroy the line. */
    bool turn(short found)
    {
        now_ = clock::now();
        if (found != 0)
            moved_ = now_;
        const bool goes_on = carry(found);
        if (end.kept() == 0)
            whole_ = now_;
        if (!end.wants_write())
            written_ = now_;
        if (goes_on && now_ <= deadline())
            return true;
        if (goes_on)
            give_up(overdue());
        else
            lose();
        return false;
    }

    /* Whether this peer is less active than another one: it has no session, or has sent nothing whole for longer. */
    bool is_less_active(const line &other) const
    {
        return was_shown_ == other.was_shown_ ? shown_at_ < other.shown_at_ : !was_shown_;
    }

    /* Gives the peer up, and logs why, and the phase of each connection that had no indication yet. Then destroy the line. */
    void give_up(const char *why)
    {
        log() << "gives up: " << why << '\n';
        for (osi::reference of = 1; !was_shown_ && end.phase(of) != osi::phase::none; of++)
            log() << of << " was never shown, " << osi::name(end.phase(of)) << '\n';
        lose();
    }

protected:
    osi::end end;

    virtual void shown(const osi::indication &one) = 0;

    std::ostream &log() { return log_ << side_ << ' '; }

    /* Writes a call to the log, such as "left 1 data ok", and answers whether it was done. */
    bool did(osi::reference of, const char *call, osi::code answer)
    {
        log() << of << ' ' << call << (answer == osi::code::ok ? " ok" : " refused: ")
              << (answer == osi::code::ok ? "" : osi::text(answer)) << '\n';
        return answer == osi::code::ok;
    }

    /* Whether a connection may be answered. If its peer keeps asking and gives no credit for the answers, it is given up. */
    bool may_answer(osi::reference of)
    {
        if (end.unsent(of) <= most_unsent)
            return true;
        did(of, "disconnect", end.disconnect(of));
        return false;
    }

private:
    using clock = std::chrono::steady_clock;

    /* The byte connection is over: tells the user of each connection that isn't. */
    void lose()
    {
        (void)end.broken();
        show({});
    }

    void show(osi::octets piece)
    {
        (void)end.feed_all(piece, [this](const osi::indication &one) {
            was_shown_ = true;
            whole_ = shown_at_ = now_;
            log() << one.reference << ' ' << words(one) << '\n';
            shown(one);
        });
    }

    /* When to give the peer up, unless something happens before. */
    clock::time_point deadline() const { return std::min({was_shown_ ? moved_ : began_, whole_, written_}) + patience_; }

    /* What the peer has not done in time. */
    const char *overdue() const
    {
        if (now_ > whole_ + patience_)
            return "a packet or data is not ended";
        if (now_ > written_ + patience_)
            return "the peer does not read";
        return was_heard_ && !was_shown_ ? "nothing was shown" : "the peer is silent";
    }

    /* Reads if there is something to read, and writes if something is outgoing. Returns whether the byte connection goes on. */
    bool carry(short found)
    {
        if ((found & (POLLIN | POLLERR | POLLHUP)) != 0 && !receive())
            return false;
        return (!end.wants_write() || transmit()) && !end.is_over();
    }

    static bool comes_later() { return errno == EAGAIN || errno == EWOULDBLOCK || errno == EINTR; }

    /* Writes once, as much as the socket takes. */
    bool transmit()
    {
        const osi::octets waiting = end.outgoing();
        const ssize_t count = send(socket_.handle(), waiting.data(), waiting.size(), MSG_NOSIGNAL | MSG_DONTWAIT);
        if (count < 0)
            return comes_later();
        moved_ = written_ = now_;
        return end.taken(static_cast<std::size_t>(count)) == osi::code::ok;
    }

    /* Reads once. */
    bool receive()
    {
        static std::array<std::uint8_t, most_read> piece;
        const ssize_t count = recv(socket_.handle(), piece.data(), piece.size(), MSG_DONTWAIT);
        if (count <= 0)
            return count < 0 && comes_later();
        was_heard_ = true;
        show({piece.data(), static_cast<std::size_t>(count)});
        return true;
    }

    connection socket_;
    const char *side_;
    std::ostream &log_;
    const std::chrono::seconds patience_;
    /* The begin of the first turn and of this one, and when octets were last read or written; when no packet or data was
     * incomplete, or one was completed; when octets were last written, or none waited; and the last indication. */
    const clock::time_point began_ = clock::now();
    clock::time_point now_ = began_, moved_ = began_, whole_ = began_, written_ = began_, shown_at_ = began_;
    bool was_heard_ = false, was_shown_ = false;
};

/* The file of --log FILE|-, for the log. */
class log_file {
public:
    explicit log_file(const std::string &name)
    {
        if (name != "-")
            file_.open(name);
    }

    std::ostream &stream() { return file_.is_open() ? file_ : std::cout; }

private:
    std::ofstream file_;
};

#endif
