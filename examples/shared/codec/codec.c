#include "codec.h"

#include "limits.h"

int decode(int level) { return level > GREATEST_LEVEL ? GREATEST_LEVEL : level; }
