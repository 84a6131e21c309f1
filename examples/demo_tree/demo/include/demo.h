int demo(int number);
