// A server for DOSBox on POSIX: c++ -O2 server.cpp libipxr.o -o server
//
//     ./server 2130          and in each DOSBox IPXNET CONNECT ADDRESS 2130
//
// All players are on one network, where a router answers what programs ask of one. It gives each a node of its own.
#include <arpa/inet.h>
#include <poll.h>
#include <sys/socket.h>

#include <cstdio>
#include <cstdlib>
#include <cstring>
#include <ctime>

#include <ipxr.hpp>

namespace {

const std::uint32_t NETWORK = 0x10;
const std::uint16_t LONGEST = 1424;
const ipx::Node NODE = {{2, 0, 0, 0, 0, 1}};

// Sixteen random bytes. (keep them, and clients find their nodes again after a restart)
std::array<std::uint8_t, 16> random_key()
{
    std::array<std::uint8_t, 16> key = {};
    std::FILE *chance = std::fopen("/dev/urandom", "rb");
    if (!chance || std::fread(key.data(), key.size(), 1, chance) != 1)
        std::abort();
    std::fclose(chance);
    return key;
}

// A tunnel and a router on its network.
class Server {
public:
    Server() : udp(socket(AF_INET, SOCK_DGRAM, 0)), keys(random_key()) {}

    bool begin(std::uint16_t number)
    {
        ipxr_port port = ipx::port(NETWORK, NODE);
        port.longest = LONGEST;
        sockaddr_in here = sockaddr_in();
        here.sin_family = AF_INET;
        here.sin_port = htons(number);
        return udp >= 0 && bind(udp, reinterpret_cast<sockaddr *>(&here), sizeof here) == 0 && router.make({port}) &&
               tunnel.make(ipx::keyed_setting(NETWORK, NODE, 64, 16, 1024, 64)) && router.start();
    }

    void serve()
    {
        for (std::time_t told = std::time(nullptr);;) {
            pollfd it = {udp, POLLIN, 0};
            send_routers();
            if (poll(&it, 1, 1000) > 0)
                hear();
            const std::time_t now = std::time(nullptr);
            if (now != told)
                second();
            told = now;
        }
    }

private:
    int udp;
    ipx::Keys keys;
    ipx::Keyed tunnel;
    ipx::Router router;

    void send(const ipx::Place &place, ipx::View bytes)
    {
        sockaddr_in to = sockaddr_in();
        to.sin_family = AF_INET;
        std::memcpy(&to.sin_addr, place.data(), 4);
        std::memcpy(&to.sin_port, place.data() + 4, 2);
        sendto(udp, bytes.at, bytes.length, 0, reinterpret_cast<sockaddr *>(&to), sizeof to); // what is lost is lost, as on a cable
    }

    void send_owns()
    {
        for (const ipxr_own &own : tunnel.owns())
            send(ipx::node_of(own.place), own.bytes);
    }

    void send_packet(ipx::View bytes)
    {
        for (const ipx::Place &place : tunnel.receivers())
            send(place, bytes);
    }

    void send_routers()
    {
        for (const ipx::Packet &packet : router.take_sent()) {
            tunnel.send(packet.node);
            send_packet(packet.bytes);
        }
    }

    void hear()
    {
        std::uint8_t bytes[LONGEST + 1];
        sockaddr_in from = sockaddr_in();
        socklen_t size = sizeof from;
        const ssize_t length = recvfrom(udp, bytes, sizeof bytes, 0, reinterpret_cast<sockaddr *>(&from), &size);
        if (length < 30 || length > LONGEST)
            return;
        ipx::Place place = {};
        std::memcpy(place.data(), &from.sin_addr, 4);
        std::memcpy(place.data() + 4, &from.sin_port, 2);
        bytes[4] = 0; // DOSBox leaves here what its program wrote
        tunnel.hear(keys.keyed_sender(place, static_cast<std::uint64_t>(std::time(nullptr))), {bytes, static_cast<std::size_t>(length)});
        send_owns();
        const ipx::View packet(bytes, tunnel.carried());
        send_packet(packet);
        if (tunnel.is_heard())
            router.packet(0, packet);
    }

    void second()
    {
        tunnel.second();
        send_owns();
        router.second();
    }
};

} // namespace

int main(int count, char **words)
{
    Server server;
    if (!server.begin(static_cast<std::uint16_t>(count > 1 ? std::atoi(words[1]) : 213))) {
        std::perror("server");
        return 1;
    }
    server.serve();
}
