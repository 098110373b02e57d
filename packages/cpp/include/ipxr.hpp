// An IPX router, DOSBox's tunnel, and what a gateway decides: the library for C in C++, from C++11 on, with exceptions or without.
//
// What owns memory frees it: Router, Tunnel, Keyed and Segment are made by `make`, can be moved, and can't be copied. Calls return an
// Answer, or a Result with what they found; whoever likes exceptions gives either to `check`. The headers of C document each call at
// length, and their structs are used as they are. What ipxr.h says of threads holds here too.
#ifndef IPXR_HPP
#define IPXR_HPP

#include "ipxr/answer.hpp"
#include "ipxr/cable.hpp"
#include "ipxr/configuration.hpp"
#include "ipxr/edge.hpp"
#include "ipxr/fair.hpp"
#include "ipxr/fates.hpp"
#include "ipxr/frames.hpp"
#include "ipxr/keyed.hpp"
#include "ipxr/keys.hpp"
#include "ipxr/limits.hpp"
#include "ipxr/line.hpp"
#include "ipxr/packets.hpp"
#include "ipxr/plan.hpp"
#include "ipxr/router.hpp"
#include "ipxr/segment.hpp"
#include "ipxr/text.hpp"
#include "ipxr/tunnel.hpp"

#endif
