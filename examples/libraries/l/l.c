int base(void);

int l(void) { return base() + 1; }
