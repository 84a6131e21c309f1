#include "demo.h"

extern "C" int log_number(int number);

int demo(int number) { return log_number(number); }
