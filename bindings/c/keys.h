/* Keys by which names of templates and variables are hashed: as the proved library has them. */
#ifndef TMPL_KEYS_H
#define TMPL_KEYS_H

#include <stdint.h>

struct keys {
    uint64_t first, second;
};

/* Keys that nobody outside knows, or zeros where there are none to be had. */
const struct keys *drawn_keys(void);

#endif
