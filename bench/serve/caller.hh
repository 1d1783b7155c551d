// A client that calls one operation of a register, with so many calls open at a time.
#pragma once
#include <algorithm>
#include <chrono>
#include <vector>

#include "link.hh"
#include "messages.hh"

using Clock = std::chrono::steady_clock;

// What is called.
struct Target {
    uint16_t port;
    std::string key;
    std::string operation;
};

// The time in which calls are counted. No call is made behind it.
struct Span {
    Clock::time_point from, to;
};

// What came of calls: how many there were, and the sum of their values; how many had their replies in the span; and how
// long each took whose reply came in the span or behind it.
struct Calls {
    uint64_t all = 0, sum = 0, counted = 0;
    std::vector<uint32_t> nanoseconds;

    void add(const Calls& other) {
        all += other.all;
        sum += other.sum;
        counted += other.counted;
        nanoseconds.insert(nanoseconds.end(), other.nanoseconds.begin(), other.nanoseconds.end());
    }
};

class Caller {
public:
    Caller(const Target& target, uint32_t depth)
        : link(target.port),
          get(request(target.key, "get", std::nullopt)),
          call(target.operation == "add" ? request(target.key, "add", 1) : get),
          open(depth) {}

    // The value of the register.
    int64_t value() {
        char octets[reply_size];
        link.send(get);
        for (size_t have = 0; have < reply_size;) have += link.receive(octets + have, reply_size - have);
        return Reply::read(octets).value;
    }

    // Calls until the span is over. Each reply makes way for the next call.
    Calls run(const Span& span) {
        Calls calls;
        calls.nanoseconds.reserve(1 << 16);
        for (uint32_t slot = 0; slot < open.size(); slot++) begin(slot, slot);
        send(Clock::now());
        size_t left = open.size();
        while (left > 0) {
            have += link.receive(buffer + have, sizeof buffer - have);
            left -= take_replies(span, calls);
        }
        return calls;
    }

private:
    struct Open {
        uint32_t number;
        Clock::time_point since;
    };

    // A call of this number is among those that are sent next.
    void begin(uint32_t slot, uint32_t number) {
        open[slot].number = number;
        set_number(call, number);
        unsent += call;
        begun.push_back(slot);
    }

    void send(Clock::time_point now) {
        for (uint32_t slot : begun) open[slot].since = now;
        link.send(unsent);
        begun.clear();
        unsent.clear();
    }

    // Takes the replies that are there, and calls again for each. Answers how many calls were not made again.
    size_t take_replies(const Span& span, Calls& calls) {
        auto now = Clock::now();
        size_t whole = have / reply_size, last = 0;
        for (size_t at = 0; at < whole; at++) {
            Reply reply = Reply::read(buffer + at * reply_size);
            uint32_t slot = reply.number % open.size();
            if (reply.number != open[slot].number) throw std::runtime_error("a reply to no open call");
            calls.all++;
            calls.sum += reply.value;
            calls.counted += now >= span.from && now < span.to;
            std::chrono::nanoseconds took = now - open[slot].since;
            if (now >= span.from) calls.nanoseconds.push_back(std::min<int64_t>(took.count(), UINT32_MAX));
            if (now < span.to) {
                begin(slot, reply.number + open.size());
            } else {
                open[slot].number = UINT32_MAX;
                last++;
            }
        }
        have -= whole * reply_size;
        std::copy_n(buffer + whole * reply_size, have, buffer);
        send(now);
        return last;
    }

    Link link;
    std::string get, call, unsent;
    std::vector<Open> open;
    std::vector<uint32_t> begun;
    char buffer[4096];
    size_t have = 0;
};
