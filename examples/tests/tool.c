#include <stdio.h>

#include "sums.h"

int main(int count, char **words) {
    printf("%d\n", count == 2 ? sum_of_file(words[1]) : 0);
    return 0;
}
