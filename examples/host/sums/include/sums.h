int add(int a, int b);
int twice(int n);
