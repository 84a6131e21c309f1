int decode(int level);
int machine(void);
