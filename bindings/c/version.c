/* Which build of the library this is: TMPL_BUILD is what `packaging/pages.py --build` said when it was linked. */
#include "tmpl.h"

const char *tmpl_version(void) { return TMPL_BUILD; }
