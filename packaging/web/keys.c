/* The keys of the WebAssembly module, which the host draws: zeros until it gives some. */
#include "../../bindings/c/keys.h"

void keys_set(uint64_t first, uint64_t second);

static struct keys keys;

void keys_set(uint64_t first, uint64_t second) { keys = (struct keys){first, second}; }

const struct keys *drawn_keys(void) { return &keys; }
