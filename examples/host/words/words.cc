#include "words.h"

#include <sstream>
#include <string>

int count_words(const char *text) {
    std::istringstream stream{text};
    int count = 0;
    for (std::string word; stream >> word;) {
        ++count;
    }
    return count;
}
