// The classes are in packages/cpp: this is a name by which programs here find them.
#include "../../../packages/cpp/include/ipxr.hpp"
