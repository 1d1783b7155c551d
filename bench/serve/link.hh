// A link to a server on this machine.
#pragma once
#include <arpa/inet.h>
#include <netinet/in.h>
#include <netinet/tcp.h>
#include <sys/socket.h>
#include <unistd.h>

#include <cerrno>
#include <string_view>
#include <system_error>

class Link {
public:
    explicit Link(uint16_t port) : socket(::socket(AF_INET, SOCK_STREAM, 0)) {
        sockaddr_in address{};
        address.sin_family = AF_INET;
        address.sin_port = htons(port);
        address.sin_addr.s_addr = htonl(INADDR_LOOPBACK);
        int yes = 1;
        check(socket);
        check(setsockopt(socket, IPPROTO_TCP, TCP_NODELAY, &yes, sizeof yes));
        check(connect(socket, reinterpret_cast<sockaddr*>(&address), sizeof address));
    }

    Link(const Link&) = delete;
    Link& operator=(const Link&) = delete;
    ~Link() { close(socket); }

    void send(std::string_view octets) {
        while (!octets.empty()) octets.remove_prefix(check(::send(socket, octets.data(), octets.size(), MSG_NOSIGNAL)));
    }

    // Waits for octets, and answers how many came.
    size_t receive(char* octets, size_t room) {
        ssize_t count = check(recv(socket, octets, room, 0));
        if (count == 0) throw std::runtime_error("the server closed the link");
        return count;
    }

private:
    static ssize_t check(ssize_t result) {
        if (result < 0) throw std::system_error(errno, std::generic_category());
        return result;
    }

    int socket;
};
