// Calls a register over so many connections, each in a thread with so many calls open, and prints how many calls a
// second that came to, the median and the 99th percentile of how long one took, and the processor time of the server
// for one, in microseconds. Every reply is looked at: `add` adds one, so the sum of all its values is known.
//
// load PORT KEY OPERATION CONNECTIONS DEPTH SECONDS PID
#include <time.h>

#include <cstdlib>
#include <future>
#include <iostream>
#include <memory>
#include <thread>

#include "caller.hh"

static std::string from_hex(const std::string& hex) {
    std::string octets;
    for (size_t at = 0; at + 1 < hex.size(); at += 2) octets += char(std::stoi(hex.substr(at, 2), nullptr, 16));
    return octets;
}

// How many seconds of processors a process took so far.
static double processor_seconds(pid_t process) {
    clockid_t clock;
    timespec taken;
    if (clock_getcpuclockid(process, &clock) != 0 || clock_gettime(clock, &taken) != 0)
        throw std::runtime_error("the server is gone");
    return taken.tv_sec + taken.tv_nsec / 1e9;
}

// How many processors a process takes on the average from one moment to another.
static double processors(pid_t process, const Span& span) {
    std::this_thread::sleep_until(span.from);
    auto start = Clock::now();
    double before = processor_seconds(process);
    std::this_thread::sleep_until(span.to);
    double taken = processor_seconds(process) - before;
    return taken / std::chrono::duration<double>(Clock::now() - start).count();
}

// Whether these are the values that all the calls have to give, and the register has now.
static bool are_right(const std::string& operation, uint64_t count, uint64_t sum, uint64_t before, uint64_t after) {
    if (operation == "get") return after == before && sum == count * before;
    // n(n + 1) / 2, where the product may be too large.
    uint64_t rising = count % 2 == 0 ? count / 2 * (count + 1) : (count + 1) / 2 * count;
    return after == before + count && sum == count * before + rising;
}

static double percentile(const std::vector<uint32_t>& sorted, double part) {
    return sorted.at(std::min(sorted.size() - 1, size_t(part * sorted.size()))) / 1e3;
}

static void measure(const Target& target, size_t connections, uint32_t depth, double seconds, pid_t server) {
    std::vector<std::unique_ptr<Caller>> callers;
    for (size_t at = 0; at < connections; at++) callers.push_back(std::make_unique<Caller>(target, depth));
    uint64_t before = callers[0]->value();
    auto length = std::chrono::duration_cast<Clock::duration>(std::chrono::duration<double>(seconds));
    auto from = Clock::now() + length / 5;
    Span span{from, from + length};

    std::vector<std::future<Calls>> running;
    for (auto& caller : callers) running.push_back(std::async(std::launch::async, [&] { return caller->run(span); }));
    double taken = processors(server, span);
    Calls calls;
    for (auto& caller : running) calls.add(caller.get());

    if (!are_right(target.operation, calls.all, calls.sum, before, callers[0]->value()))
        throw std::runtime_error("wrong values");
    std::sort(calls.nanoseconds.begin(), calls.nanoseconds.end());
    double rate = std::max<uint64_t>(1, calls.counted) / seconds;
    std::cout << rate << ' ' << percentile(calls.nanoseconds, 0.5) << ' ' << percentile(calls.nanoseconds, 0.99) << ' '
              << taken / rate * 1e6 << std::endl;
}

int main(int argc, char** argv) {
    if (argc != 8) {
        std::cerr << "usage: load PORT KEY OPERATION CONNECTIONS DEPTH SECONDS PID\n";
        return 2;
    }
    try {
        Target target{uint16_t(std::atoi(argv[1])), from_hex(argv[2]), argv[3]};
        measure(target, std::atoi(argv[4]), std::atoi(argv[5]), std::atof(argv[6]), std::atoi(argv[7]));
    } catch (const std::exception& fault) {
        std::cerr << "load: " << fault.what() << std::endl;
        return 1;
    }
}
