#include "codec.h"

int skin_color(void);

int main(void) { return decode(3) + skin_color() == 12 ? 0 : 1; }
