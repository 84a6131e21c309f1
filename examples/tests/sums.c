#include "sums.h"

#include <stdio.h>

int sum_of_file(const char *path) {
    FILE *file = fopen(path, "r");
    if (file == NULL) {
        return -1;
    }
    int sum = 0;
    for (int number; fscanf(file, "%d", &number) == 1;) {
        sum += number;
    }
    fclose(file);
    return sum;
}
