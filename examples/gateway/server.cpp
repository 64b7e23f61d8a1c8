/* The called side of server.c, in C++, for many peers at once. It accepts each connection that a peer asks for, confirms each
 * point, answers after it has received the tokens, and releases the connection.
 *
 *   server [--port 4000] [--peers COUNT] [--classes 0|2|20] [--tsdu OCTETS] [--wait SECONDS] [--log FILE|-]
 *
 * It prints the port that it listens on (0 takes a free one). With --peers it ends after COUNT peers have come and gone. It
 * gives up a peer that asks for no connection within --wait seconds, that is silent for that long, that has not ended a packet
 * or data by then, or reads nothing; and if all places are taken, the least active one. It logs this. */
#include "line.hpp"

#include <fcntl.h>

#include <algorithm>
#include <limits>
#include <memory>
#include <vector>

/* A byte connection, and what it has received. */
class peer final : public line {
public:
    peer(osi::end made, connection socket, std::ostream &log, std::chrono::seconds patience, osi::tsdu_sizes sizes)
        : line(std::move(made), std::move(socket), "right", log, patience), sizes_(sizes)
    {
    }

private:
    static constexpr osi::units known =
        osi::units::half_duplex | osi::units::minor_sync | osi::units::negotiated_release;

    /* The tokens have come: sends the number of messages, and asks for the release. */
    void answer(osi::reference of)
    {
        did(of, "data", end.data(of, std::to_string(messages_) + " messages"));
        did(of, "release", end.release(of));
    }

    void shown(const osi::indication &one) override
    {
        const osi::reference of = one.reference;
        switch (one.tag) {
        case osi::tag::connect:
            did(of, "accept", end.accept_sized(of, one.requirements & known, 0, {}, sizes_));
            break;
        case osi::tag::data: messages_++; break;
        case osi::tag::minor:
            if (const std::uint32_t number = *one.number; one.confirm && may_answer(of))
                did(of, "minorconfirm", end.minor_confirm(of, number));
            break;
        case osi::tag::given:
            if (may_answer(of))
                answer(of);
            break;
        default: break;
        }
    }

    osi::tsdu_sizes sizes_;
    unsigned long messages_ = 0;
};

/* All peers, in one thread. */
class server {
public:
    server(int count, char **words)
        : log_(option(count, words, "--log", "-")), own_(terms_of(option(count, words, "--classes", "20"))),
          sizes_(sizes_of(option(count, words, "--tsdu", "0"))), patience_(std::stoi(option(count, words, "--wait", "10"))),
          awaits_(std::stoul(option(count, words, "--peers", std::to_string(std::numeric_limits<unsigned long>::max())))),
          listener_(::socket(AF_INET, SOCK_STREAM, 0))
    {
    }

    /* Whether it listens; if so, it has printed the port. */
    bool listens(const std::string &port)
    {
        sockaddr_in own = loopback(port);
        socklen_t size = sizeof own;
        const int yes = 1;
        auto *const place = reinterpret_cast<sockaddr *>(&own);
        setsockopt(listener_.handle(), SOL_SOCKET, SO_REUSEADDR, &yes, sizeof yes);
        if (bind(listener_.handle(), place, size) != 0 || listen(listener_.handle(), most_peers) != 0)
            return false;
        fcntl(listener_.handle(), F_SETFL, O_NONBLOCK);
        getsockname(listener_.handle(), place, &size);
        std::cout << "port " << ntohs(own.sin_port) << std::endl;
        return true;
    }

    /* Runs until all expected peers have come and gone. */
    void run()
    {
        while (awaits_ > 0 || !peers_.empty())
            turn();
    }

private:
    static constexpr std::size_t most_peers = 256;

    /* Waits until there is something to do, and does it. */
    void turn()
    {
        std::vector<pollfd> waits;
        int timeout = -1;
        for (const auto &one : peers_) {
            waits.push_back(one->waits());
            timeout = timeout < 0 ? one->timeout() : std::min(timeout, one->timeout());
        }
        waits.push_back({awaits_ > 0 ? listener_.handle() : -1, POLLIN, 0});
        poll(waits.data(), waits.size(), timeout);
        std::vector<std::unique_ptr<peer>> stay;
        for (std::size_t at = 0; at < peers_.size(); at++)
            if (peers_[at]->turn(waits[at].revents))
                stay.push_back(std::move(peers_[at]));
        peers_ = std::move(stay);
        for (int most = 16; waits.back().revents != 0 && most > 0 && awaits_ > 0 && take(); most--) {
        }
    }

    /* If all places are taken, gives up the least active peer. */
    void make_place()
    {
        if (peers_.size() < most_peers)
            return;
        const auto least = std::min_element(peers_.begin(), peers_.end(),
                                            [](const auto &one, const auto &other) { return one->is_less_active(*other); });
        (*least)->give_up("it gives way to another peer");
        peers_.erase(least);
    }

    /* Accepts the next peer, if there is one. If memory runs out, it closes the connection at once. */
    bool take()
    {
        connection came(accept(listener_.handle(), nullptr, nullptr));
        auto made = osi::end::called(own_);
        const int yes = 1;
        if (!came || !made)
            return false;
        setsockopt(came.handle(), IPPROTO_TCP, TCP_NODELAY, &yes, sizeof yes);
        make_place();
        peers_.push_back(std::make_unique<peer>(std::move(*made), std::move(came), log_.stream(), patience_, sizes_));
        awaits_--;
        return true;
    }

    log_file log_;
    const osi::terms own_;
    const osi::tsdu_sizes sizes_;
    const std::chrono::seconds patience_;
    unsigned long awaits_;
    connection listener_;
    std::vector<std::unique_ptr<peer>> peers_;
};

int main(int count, char **words)
{
    server one(count, words);
    if (!one.listens(option(count, words, "--port", "4000"))) {
        std::cerr << "server: " << std::strerror(errno) << '\n';
        return 2;
    }
    one.run();
    return 0;
}
