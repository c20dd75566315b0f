/* Keys drawn from the system, once for each thread. Where it has no random bytes to give, they are zeros, and it is asked again at
   the next call. No answer of the library depends on them: who knows them can choose names that make reading slow. */
#define _DEFAULT_SOURCE
#include "keys.h"
#include <stdbool.h>
#include <unistd.h>

const struct keys *drawn_keys(void) {
    static _Thread_local struct keys keys;
    static _Thread_local bool are_drawn;
    if (!are_drawn) are_drawn = getentropy(&keys, sizeof keys) == 0;
    return &keys;
}
