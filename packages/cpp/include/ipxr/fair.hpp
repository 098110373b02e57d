// Fair shares.
#ifndef IPXR_FAIR_HPP
#define IPXR_FAIR_HPP

#include <cstdint>

#include "ipxr_fair.h"

namespace ipx {

/// How much of a limit is used: so much in so much time, and so much at once.
///
/// ```cpp
/// ipx::Meter meter;
/// assert(meter.lets(2000, 1000) && meter.lets(2000, 1000) && !meter.lets(2000, 1000));
/// meter.pass(1000);
/// assert(meter.lets(2000, 1000));
/// ```
class Meter {
public:
    Meter() : meter() {}

    /// So many nanoseconds pass: less of the limit is used.
    void pass(std::uint64_t nanoseconds) { ipxr_meter_pass(&meter, nanoseconds); }

    /// Lets something of that weight pass if no more than `burst` is used then, and counts it.
    bool lets(std::uint64_t burst, std::uint64_t weight) { return ipxr_meter_lets(&meter, burst, weight); }

    /// The same by two meters: it passes if both let it.
    bool both_let(std::uint64_t burst, std::uint64_t weight, Meter &other, std::uint64_t other_burst, std::uint64_t other_weight)
    {
        return ipxr_meter_both_let(&meter, burst, weight, &other.meter, other_burst, other_weight);
    }

    /// Nanoseconds of it that are used.
    std::uint64_t used() const { return meter.used; }

    ipxr_meter *raw() { return &meter; }

private:
    ipxr_meter meter;
};

/// Somebody who reads only so fast, and to whom many speak: whoever says less than his part loses nothing.
///
/// ```cpp
/// ipx::Fair client;
/// const ipxr_fair_setting setting = {2000000, 12000000, 100000000, 150000000};
/// if (!client.make(setting))
///     return;
/// const std::uint8_t flood = 1, player = 2;
/// while (client.says(flood, 1000000))
///     ;
/// assert(client.says(player, 1000000)); // the flood is full, the player isn't
/// ```
class Fair {
public:
    Fair() : fair() {}

    /// Makes it a receiver of that setting, for which nothing waits. Returns whether there can be one.
    bool make(const ipxr_fair_setting &setting) { return ipxr_fair_make(&fair, &setting); }

    /// The time passes that your clock shows beyond what it showed at the last look, which `clock` has; or so many nanoseconds.
    void look(std::uint64_t &clock, std::uint64_t now) { ipxr_fair_look(&fair, &clock, now); }
    void pass(std::uint64_t nanoseconds) { ipxr_fair_pass(&fair, nanoseconds); }

    /// A speaker says a packet of that weight. Returns whether it is heard: then you send it.
    bool says(std::uint8_t speaker, std::uint64_t weight) { return ipxr_fair_says(&fair, speaker, weight); }

    /// The same of a packet that two receivers must hear: both or neither do.
    bool both_hear(Fair &other, std::uint8_t speaker, std::uint64_t weight, std::uint64_t other_weight)
    {
        return ipxr_fair_both_hear(&fair, &other.fair, speaker, weight, other_weight);
    }

    /// What the library keeps of it: read it, and change it by calls alone.
    const ipxr_fair &values() const { return fair; }
    ipxr_fair *raw() { return &fair; }

private:
    ipxr_fair fair;
};

} // namespace ipx

#endif
