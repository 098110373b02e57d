// What owns a handle of C.
#ifndef IPXR_OWNER_HPP
#define IPXR_OWNER_HPP

#include <cstddef>
#include <cstdint>
#include <vector>

#include "answer.hpp"

namespace ipx {

/// A handle that is freed at its end, is moved, and isn't copied. It begins without anything.
template <class Handle, void (*free_handle)(Handle *)> class Owner {
public:
    Owner() : handle() {}
    ~Owner() { free_handle(&handle); }

    Owner(const Owner &) = delete;
    Owner &operator=(const Owner &) = delete;

    Owner(Owner &&other) noexcept : handle(other.handle) { other.handle = Handle(); }

    Owner &operator=(Owner &&other) noexcept
    {
        if (this != &other) {
            free_handle(&handle);
            handle = other.handle;
            other.handle = Handle();
        }
        return *this;
    }

    /// Frees what it has; each call answers then that there is none.
    void reset() { free_handle(&handle); }

    /// The handle, for the calls of C.
    Handle *raw() { return &handle; }

protected:
    Handle handle;

    /// The list of which C tells the count, and each by its number.
    template <class Value> std::vector<Value> listed(std::size_t count, std::int32_t (*one)(Handle *, std::size_t, Value *))
    {
        std::vector<Value> values(count);
        for (std::size_t k = 0; k < values.size(); k++)
            one(&handle, k, &values[k]);
        return values;
    }
};

} // namespace ipx

#endif
