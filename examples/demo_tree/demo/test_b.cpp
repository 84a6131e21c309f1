#include "demo.h"

int main() { return demo(2) == 2 ? 0 : 1; }
