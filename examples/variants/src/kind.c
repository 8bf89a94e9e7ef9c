#include "kind.h"

#ifdef DEBUG
const char *kind(void) { return "debug"; }
#else
const char *kind(void) { return "release"; }
#endif
