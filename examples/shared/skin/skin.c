#include "codec.h"

int skin_color(void);

int skin_color(void) { return 5 + decode(9); }
