// A session of the peering core, in C++17: it closes itself, and a call that isn't done throws.
#ifndef PGPEER_HPP
#define PGPEER_HPP

#include <cstdint>
#include <stdexcept>
#include <string>
#include <string_view>
#include <utility>
#include <vector>

#include "pgpeer.h"

namespace pgpeer {

// Why a call wasn't done: its status, or the number of the refusal.
struct Fault : std::runtime_error {
    std::uint32_t status;
    explicit Fault(std::uint32_t number) : std::runtime_error(pgp_status_name(number)), status(number) {}
};

inline void done(std::uint32_t status) {
    if (status != PGP_DONE) throw Fault(status);
}

class Session {
    pgp_session session_{};
    std::string room_ = std::string(4096, '\0');
    std::size_t refused_ = 0;

    static const std::uint8_t *bytes(std::string_view text) {
        return reinterpret_cast<const std::uint8_t *>(text.empty() ? "" : text.data());
    }
    std::uint8_t *room() { return reinterpret_cast<std::uint8_t *>(room_.data()); }

public:
    // The log that these lines make.
    explicit Session(std::string_view lines = {}, std::uint32_t format = 2) {
        done(pgp_open_lines(&session_, format, bytes(lines), lines.size(), &refused_));
    }
    Session(Session &&other) noexcept
        : session_(std::exchange(other.session_, {})), room_(std::move(other.room_)), refused_(other.refused_) {}
    Session(const Session &) = delete;
    Session &operator=(const Session &) = delete;
    ~Session() { pgp_close(&session_); }

    // How many of the lines that it began with were refused.
    std::size_t refused() const { return refused_; }

    // The answer to a line, which is given without its line feed. It stays until the next line.
    std::string_view tell(std::string_view line) {
        std::size_t length;
        std::uint32_t status = pgp_line(&session_, bytes(line), line.size(), room(), room_.size(), &length);
        if (status == PGP_ROOM_TOO_SMALL) {
            room_.resize(length);
            status = pgp_answer(&session_, room(), room_.size(), &length);
        }
        done(status);
        return {room_.data(), length};
    }

    // What the session knows of its log.
    pgp_log log() {
        pgp_log log;
        done(pgp_ask_log(&session_, &log));
        return log;
    }

    // What the log says of a group.
    pgp_view ask(std::uint32_t pool, std::uint32_t pg) {
        pgp_view view;
        done(pgp_ask(&session_, pool, pg, &view));
        return view;
    }

    // The states of the group's other members that were heard.
    std::vector<pgp_peer> missing(std::uint32_t pool, std::uint32_t pg) {
        std::vector<pgp_peer> peers(ask(pool, pg).missing + 1);
        std::size_t count;
        done(pgp_missing(&session_, pool, pg, peers.data(), peers.size(), &count));
        peers.resize(count);
        return peers;
    }
};

}  // namespace pgpeer

#endif
