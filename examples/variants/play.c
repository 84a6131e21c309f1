#include "codec.h"

int main(void) { return decode(0); }
