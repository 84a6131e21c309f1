// The sum of the numbers in a file, or -1 where it can't be read.
int sum_of_file(const char *path);
