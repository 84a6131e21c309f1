#include <stdio.h>

#include "sums.h"
#include "words.h"

int main(void) {
    int words = count_words("built by bpgen and ninja");
    printf("%d words, twice that is %d\n", words, twice(words));
    return 0;
}
