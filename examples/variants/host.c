#include "codec.h"

int machine(void) { return 1; }
