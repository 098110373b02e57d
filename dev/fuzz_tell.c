/* For afl++ alone: its counts of the places that were seen. A file of its own that another compiler makes, since afl++'s declares the
 * counts in another way. */
#include <stdint.h>

extern unsigned char *__afl_area_ptr;

void tell(uint32_t answer);

/* afl++ doesn't see into what was built without it; so an answer that is new counts as a new place. */
void tell(uint32_t answer)
{
    __afl_area_ptr[answer * 2654435761u >> 16]++;
}
