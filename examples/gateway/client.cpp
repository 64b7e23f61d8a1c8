/* The calling side of client.c, in C++. It sends messages, sets a minor point after each and waits for its
 * confirmation; then it gives the tokens and accepts the release.
 *
 *   client [--port 4000] [--classes 0|2|20] [--tsdu OCTETS] [--wait SECONDS] [--messages 5] [--log FILE|-]
 *          [--bulk COUNT] [--size OCTETS]
 *
 * With --bulk it sends COUNT messages of one size as fast as possible, with a point after each, and waits only for the last
 * confirmation, so that both sides write much. The status is 0 if the connection was released, and 3 if it was lost. */
#include "line.hpp"

/* What to send: how many messages, and with --bulk the size of each. */
struct plan {
    unsigned long messages = 5;
    std::optional<std::size_t> size;
};

class client final : public line {
public:
    client(osi::end made, connection socket, std::ostream &log, std::chrono::seconds patience, plan wanted)
        : line(std::move(made), std::move(socket), "left", log, patience), plan_(wanted)
    {
    }

    bool ask(osi::tsdu_sizes sizes)
    {
        osi::opening asked;
        asked.requirements = osi::units::half_duplex | osi::units::minor_sync | osi::units::negotiated_release;
        asked.user_data = "gateway";
        asked.sizes = sizes;
        const auto connection = end.connect(asked);
        if (!connection) {
            log() << "connect refused: " << osi::text(connection.code) << '\n';
            return false;
        }
        of_ = *connection;
        log() << "connect ok " << of_ << '\n';
        return true;
    }

    /* Runs until the byte connection is over. */
    void run()
    {
        pollfd ready = waits();
        while (poll(&ready, 1, has_more() ? 0 : timeout()) >= 0 || errno == EINTR) {
            if (!turn(ready.revents))
                return;
            while (has_more())
                say_one();
            ready = waits();
        }
    }

    int status() const noexcept { return lost_ ? 3 : released_ ? 0 : 2; }

private:
    /* Sends the next message, and sets a point after it. */
    void say_one()
    {
        said_++;
        did(of_, "data", end.data(of_, plan_.size ? std::string(*plan_.size, 'x') : "message " + std::to_string(said_)));
        did(of_, "minor", end.minor_point(of_));
    }

    /* Sends the next message, or gives the tokens after the last one. */
    void go_on()
    {
        if (said_ < plan_.messages)
            say_one();
        else
            did(of_, "give", end.give(of_, osi::tokens::data | osi::tokens::minor | osi::tokens::release));
    }

    /* Whether messages are sent ahead and only a few octets are unsent. */
    bool has_more()
    {
        return plan_.size && ready_ && said_ < plan_.messages && end.outgoing().size() + end.backlog() < most_waiting;
    }

    void shown(const osi::indication &one) override
    {
        switch (one.tag) {
        case osi::tag::connected:
            ready_ = true;
            if (!plan_.size)
                go_on();
            break;
        case osi::tag::minor_confirmed:
            if (!plan_.size || *one.number + 1 == plan_.messages)
                go_on();
            break;
        case osi::tag::release:
            released_ = did(one.reference, "releaseaccept", end.release_accept(one.reference));
            break;
        default: lost_ = lost_ || (osi::is_over(one.tag) && !released_);
        }
    }

    const plan plan_;
    osi::reference of_ = 0;
    unsigned long said_ = 0;
    bool ready_ = false, released_ = false, lost_ = false;
};

int main(int count, char **words)
{
    const sockaddr_in peer = loopback(option(count, words, "--port", "4000"));
    connection socket(::socket(AF_INET, SOCK_STREAM, 0));
    const int yes = 1;
    setsockopt(socket.handle(), IPPROTO_TCP, TCP_NODELAY, &yes, sizeof yes);
    if (connect(socket.handle(), reinterpret_cast<const sockaddr *>(&peer), sizeof peer) != 0) {
        std::perror("client");
        return 2;
    }
    auto made = osi::end::caller(terms_of(option(count, words, "--classes", "0")));
    if (!made) {
        std::cerr << "client: " << osi::text(made.code) << '\n';
        return 2;
    }
    const unsigned long bulk = std::stoul(option(count, words, "--bulk", "0"));
    plan wanted{std::stoul(option(count, words, "--messages", "5")), std::nullopt};
    if (bulk > 0)
        wanted = {bulk, std::stoul(option(count, words, "--size", "1000"))};
    log_file log(option(count, words, "--log", bulk > 0 ? "/dev/null" : "-"));
    const std::chrono::seconds patience(std::stoi(option(count, words, "--wait", "10")));
    client one(std::move(*made), std::move(socket), log.stream(), patience, wanted);
    if (one.ask(sizes_of(option(count, words, "--tsdu", "0"))))
        one.run();
    return one.status();
}
