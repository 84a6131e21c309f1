int log_number(int number);

int log_number(int number) { return number; }
