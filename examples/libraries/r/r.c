int base(void);

int r(void) { return base() + 1 - 40; }
