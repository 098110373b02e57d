// What calls answer.
#ifndef IPXR_ANSWER_HPP
#define IPXR_ANSWER_HPP

#include <cstddef>
#include <cstdint>
#include <string>

#include "ipxr.h"

#if defined(__cpp_exceptions) || defined(__EXCEPTIONS) || defined(_CPPUNWIND)
#define IPXR_HAS_EXCEPTIONS 1
#include <stdexcept>
#endif

namespace ipx {

/// The words of an answer, such as "forwarded", "drop NoRoute" or "out of memory".
inline std::string word(std::int32_t answer)
{
    char text[IPXR_MOST_WORD];
    return std::string(text, ipxr_text(answer, text, sizeof text));
}

/// Whether the library is of the version of these headers, or of a later one that has all their calls.
///
/// ```cpp
/// assert(ipx::has_calls());
/// ```
inline bool has_calls()
{
    return ipxr_version() / 65536 == IPXR_VERSION / 65536 && ipxr_version() >= IPXR_VERSION;
}

/// What a call answered: it is true unless the call did nothing, since there was a fault.
///
/// ```cpp
/// ipx::Router router;
/// ipx::Answer answer = router.start();
/// assert(!answer && answer == IPXR_NO_ROUTER && answer.words() == "no router");
/// ```
class Answer {
public:
    Answer(std::int32_t answer) : number(answer) {}

    /// The number that C has for it, such as IPXR_FORWARDED.
    std::int32_t number;

    explicit operator bool() const { return number >= 0; }
    bool operator==(std::int32_t other) const { return number == other; }
    bool operator!=(std::int32_t other) const { return number != other; }

    /// Whether the router dropped the packet: then nothing was done, and nothing is sent.
    bool is_dropped() const { return IPXR_DROPPED(number); }

    /// Its words.
    std::string words() const { return word(number); }
};

/// What a call found or wrote, if it is true; otherwise why not.
///
/// ```cpp
/// ipx::Result<ipx::Bytes> none = ipx::write_rip(ipxr_address(), ipxr_address(), IPXR_RIP_REQUEST, {});
/// assert(!none && none.answer == IPXR_NO_ENTRIES);
/// ```
template <class Value> struct Result {
    Answer answer;
    Value value;

    explicit operator bool() const { return static_cast<bool>(answer); }
};

#ifdef IPXR_HAS_EXCEPTIONS

/// A call that did nothing, as an exception.
class Fault : public std::runtime_error {
public:
    explicit Fault(std::int32_t fault) : std::runtime_error(word(fault)), answer(fault) {}

    const std::int32_t answer;
};

/// The answer, where it is no fault; a fault is thrown.
///
/// ```cpp
/// ipx::Router router;
/// try {
///     ipx::check(router.make({}));
///     assert(false);
/// } catch (const ipx::Fault &fault) {
///     assert(fault.what() == std::string("no ports"));
/// }
/// ```
inline Answer check(Answer answer)
{
    if (!answer)
        throw Fault(answer.number);
    return answer;
}

/// The same of what a call found.
template <class Value> Value check(Result<Value> result)
{
    check(result.answer);
    return result.value;
}

#endif

} // namespace ipx

#endif
