#include "codec.h"

int decode(int level) { return level * machine(); }
