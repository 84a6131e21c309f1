#include <stdio.h>

// Runs the tool whose path is the first word.
int main(int count, char **words) {
    char command[500];
    int sum = 0;
    snprintf(command, sizeof command, "%s numbers.txt", count == 2 ? words[1] : "false");
    FILE *output = popen(command, "r");
    return output != NULL && fscanf(output, "%d", &sum) == 1 && sum == 42 ? 0 : 1;
}
