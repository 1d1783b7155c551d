// The messages of a client of registers: requests of GIOP 1.2, little-endian, and their replies.
#pragma once
#include <cstddef>
#include <cstdint>
#include <cstring>
#include <optional>
#include <stdexcept>
#include <string>
#include <string_view>

constexpr size_t header_size = 12, reply_size = 32;

// Writes the fields of a message.
class Writer {
public:
    explicit Writer(char kind) : octets(std::string("GIOP\1\2\1", 7) + kind + std::string(4, '\0')) {}

    void align(size_t boundary) { octets.append((boundary - octets.size() % boundary) % boundary, '\0'); }

    template <typename Number>
    void number(Number value) {
        align(sizeof value);
        octets.append(reinterpret_cast<const char*>(&value), sizeof value);
    }

    void sequence(std::string_view value) {
        number<uint32_t>(value.size());
        octets += value;
    }

    std::string finish() && {
        uint32_t size = octets.size() - header_size;
        std::memcpy(octets.data() + 8, &size, sizeof size);
        return std::move(octets);
    }

private:
    std::string octets;
};

// A request with the number 0, with its argument if there is one.
inline std::string request(std::string_view key, const std::string& operation, std::optional<int64_t> argument) {
    Writer writer(0);
    writer.number<uint32_t>(0);
    writer.number<uint32_t>(3);  // A reply is asked with its result.
    writer.number<uint32_t>(0);  // The target is a key.
    writer.sequence(key);
    writer.sequence({operation.c_str(), operation.size() + 1});
    writer.number<uint32_t>(0);  // No contexts.
    if (argument) {
        writer.align(8);
        writer.number(*argument);
    }
    return std::move(writer).finish();
}

// Gives a request its number.
inline void set_number(std::string& request, uint32_t number) {
    std::memcpy(request.data() + header_size, &number, sizeof number);
}

// What a reply says, which has no other form than that of a register's value.
struct Reply {
    uint32_t number;
    int64_t value;

    // Reads a whole reply.
    static Reply read(const char* octets) {
        // Its size, and behind its number no exception and no contexts.
        static const char head[] = "GIOP\1\2\1\1\24\0\0\0", rest[8] = {};
        if (std::memcmp(octets, head, header_size) != 0 || std::memcmp(octets + 16, rest, sizeof rest) != 0)
            throw std::runtime_error("no reply with a value");
        Reply reply;
        std::memcpy(&reply.number, octets + header_size, sizeof reply.number);
        std::memcpy(&reply.value, octets + 24, sizeof reply.value);
        return reply;
    }
};
