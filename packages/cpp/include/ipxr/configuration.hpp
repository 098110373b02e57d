// A gateway's configuration, and its words: docs/CONFIGURATION.md tells the rules.
#ifndef IPXR_CONFIGURATION_HPP
#define IPXR_CONFIGURATION_HPP

#include <memory>

#include "ipxr_configuration.h"
#include "text.hpp"

namespace ipx {

/// What a line says, up to the first word that is wrong; what was expected there, one of IPXR_EXPECTED_.., and where. It is true if nothing
/// is wrong.
struct LineRead {
    ipxr_setting said;
    std::uint8_t expected;
    ipxr_line_wrong wrong;

    explicit operator bool() const { return expected == 0 && wrong.unlinked == 0; }
};

/// A gateway's configuration, as far as its lines were read.
///
/// ```cpp
/// ipx::Configuration all;
/// const char *const lines[] = {"internal F0", "network 10 1 1424 dosbox 2130", "clients 64 16"};
/// for (std::size_t k = 0; k < 3; k++)
///     assert(all.line(lines[k], k + 1, true));
/// std::vector<ipxr_configured> links = all.links();
/// assert(links.size() == 1 && links[0].number == 0x10 && links[0].clients == 64);
/// ipxr_internal internal;
/// assert(all.internal(internal) && internal.number == 0xF0);
/// ```
class Configuration {
public:
    /// That of no line. (it is too large for some stacks)
    Configuration() : all(new ipxr_configuration()) {}

    /// Reads the next line; `number` is its number, from 1. `has_cards` is one of `IPXR_CARDS_..`, or whether this system
    /// has all cards.
    LineRead line(const std::string &text, std::size_t number, std::uint8_t has_cards)
    {
        const View it(text);
        LineRead read = {ipxr_setting(), 0, ipxr_line_wrong()};
        read.expected = ipxr_configuration_line(all.get(), it.at, it.length, number, has_cards, &read.said, &read.wrong);
        return read;
    }

    /// The line of the last network, if that has no link though no more lines come; or 0.
    std::size_t unlinked() const { return ipxr_configuration_unlinked(all.get()); }

    /// What a line says of the router's own network. Returns whether one does.
    bool internal(ipxr_internal &internal) const { return ipxr_configuration_internal(all.get(), &internal); }

    /// The links, with all that lines say of them; those of one network stand behind each other.
    std::vector<ipxr_configured> links() const
    {
        std::vector<ipxr_configured> links;
        ipxr_configured link = ipxr_configured();
        while (ipxr_configuration_link(all.get(), links.size(), &link))
            links.push_back(link);
        return links;
    }

private:
    std::unique_ptr<ipxr_configuration> all;
};

/// Reads a line by itself: what its words say up to the first that is wrong. Returns 0 or what was expected there.
inline std::uint8_t read_line(const std::string &text, std::uint8_t has_cards, bool is_below_tunnel, std::uint16_t most_clients, ipxr_setting &said)
{
    const View it(text);
    return ipxr_settings_line(it.at, it.length, has_cards, is_below_tunnel, most_clients, &said);
}

/// The word of a line with that number, from 0; it is empty if there is none.
inline std::string line_word(const std::string &text, std::size_t number)
{
    const View it(text);
    std::size_t start = 0;
    const std::size_t length = ipxr_settings_word(it.at, it.length, number, &start);
    return text.substr(start, length);
}

/// The socket that a word of a line is, 1 to FFFF; 0 if it is none.
inline std::uint16_t line_socket(const std::string &word)
{
    const View it(word);
    return ipxr_settings_socket(it.at, it.length);
}

/// Reads a range: an address of IPv4, alone or with /BITS behind it. Returns whether it is one.
inline bool read_range(const std::string &word, ipxr_setting_range &range)
{
    const View it(word);
    return ipxr_settings_range(it.at, it.length, &range);
}

/// An address with its port, and a link, as a line has them; empty if it is no link.
///
/// ```cpp
/// ipxr_setting_host host = ipxr_setting_host();
/// host.four[0] = 10;
/// host.four[3] = 5;
/// host.port = 213;
/// assert(ipx::host_text(host) == "10.0.0.5:213");
/// ```
inline std::string host_text(const ipxr_setting_host &host)
{
    Bytes text(IPXR_LONGEST_ADDRESS);
    const std::size_t length = ipxr_settings_address_words(&host, text.data(), text.size());
    return std::string(text.begin(), text.begin() + static_cast<std::ptrdiff_t>(length));
}
inline std::string link_text(const ipxr_setting_link &link)
{
    Bytes text(IPXR_LONGEST_LINK);
    const std::size_t length = ipxr_settings_link_words(&link, text.data(), text.size());
    return std::string(text.begin(), text.begin() + static_cast<std::ptrdiff_t>(length));
}

} // namespace ipx

#endif
