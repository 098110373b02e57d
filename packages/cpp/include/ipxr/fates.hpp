// What becomes of each packet that comes to a gateway: docs/FATES.md has the conditions of each fate.
#ifndef IPXR_FATES_HPP
#define IPXR_FATES_HPP

#include "answer.hpp"
#include "ipxr_fates.h"

namespace ipx {

/// The fate of a packet.
enum class Fate : std::uint8_t {
    Elsewhere = IPXR_FATE_ELSEWHERE, // a network on another cable of the interface hears the frame; it isn't counted here
    Heard = IPXR_FATE_HEARD,         // the router heard it
    Dropped = IPXR_FATE_DROPPED,     // the router drops it: the number is its answer
    HandedOn = IPXR_FATE_HANDED_ON,  // it went to others of its network alone
    Answered = IPXR_FATE_ANSWERED,   // the gateway answered it: it registers a client
    Stays = IPXR_FATE_STAYS,         // it answers a ping, and its client stays
    Awaited = IPXR_FATE_AWAITED,     // somebody who asked got it
    Probe = IPXR_FATE_PROBE,         // it is a probe of the gateway's own
    Lost = IPXR_FATE_LOST,           // it goes no further: the number is one of IPXR_LOST_..
};

/// Where a packet is on its way.
///
/// ```cpp
/// ipx::Course course = ipx::Course::of_frame();
/// while (!course.is_over())
///     course.answer(course.next() != IPXR_NEXT_FRAME_IS_FRAME); // your own: answers a question, or does a deed
/// assert(course.fate() == ipx::Fate::Lost && course.number() == IPXR_LOST_NO_IPX);
/// ipx::Counts counts;
/// counts.count(course);
/// assert(counts.values().lost[IPXR_LOST_NO_IPX] == 1);
/// ```
class Course {
public:
    /// The way of what came on a cable with frames, or at a tunnel, at its beginning.
    static Course of_frame()
    {
        Course made;
        ipxr_course_of_frame(&made.course);
        return made;
    }
    static Course of_datagram()
    {
        Course made;
        ipxr_course_of_datagram(&made.course);
        return made;
    }

    /// What is next, one of IPXR_NEXT_.., and whether that is nothing.
    std::uint8_t next() const { return course.next; }
    bool is_over() const { return course.next == IPXR_NEXT_END; }

    /// What is next was answered.
    void answer(std::uint16_t answer) { ipxr_course_answer(&course, answer); }

    /// The packet's fate, at the end of its way, and the number of its reason or of the router's drop.
    Fate fate() const { return static_cast<Fate>(course.fate); }
    std::uint16_t number() const { return course.number; }

    const ipxr_course *raw() const { return &course; }

private:
    ipxr_course course;

    Course() : course() {}
};

/// How many packets had each fate.
class Counts {
public:
    Counts() : counts() {}

    /// Counts the fate of a packet that is at the end of its way.
    void count(const Course &course) { ipxr_counts_count(&counts, course.raw()); }

    /// Counts that something is lost for a reason, one of IPXR_LOST_..: a copy, or what was to be sent.
    void lose(std::uint8_t why) { ipxr_counts_lose(&counts, why); }

    /// The counts. A drop has its place by its number: number / 100 * 10 + number % 100.
    const ipxr_counts &values() const { return counts; }

private:
    ipxr_counts counts;
};

} // namespace ipx

#endif
