#include "demo.h"

int main() { return demo(0); }
