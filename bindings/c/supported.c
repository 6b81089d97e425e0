/* Whether the processor can run the calls. It is built for every processor of the architecture, and so runs where
 * they do not. NEEDS_V3 is defined for a library that has the calls for x86-64-v3 alone. */
#include "data_url.h"

#if !defined __x86_64__
bool data_url_is_supported(void) { return true; }
#else
#include "processor.h"

bool data_url_is_supported(void) {
#ifdef NEEDS_V3
    if (!has_v3()) return false;
#endif
    return has_v2();
}
#endif
