#include "demo.h"

int main() { return demo(1) == 1 ? 0 : 1; }
