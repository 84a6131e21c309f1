#include "codec.h"

#ifdef WIDE
int machine(void) { return 64; }
#else
int machine(void) { return 32; }
#endif
