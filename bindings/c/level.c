/* Linked with a test of the library for x86-64: before main, makes it use the level that the variable DATA_URL_LEVEL
 * names, 2 or 3. If the processor does not have that level, the status is 77. */
#include <stdbool.h>
#include <stdlib.h>

bool dataurl_force_level(int level);

__attribute__((constructor)) static void force_level(void) {
    const char *level = getenv("DATA_URL_LEVEL");
    if (level && *level && !dataurl_force_level(atoi(level))) _Exit(77);
}
