int l(void);
int r(void);

int main(void) { return l() + r() - 42; }
