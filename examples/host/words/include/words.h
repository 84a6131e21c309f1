#ifdef __cplusplus
extern "C" {
#endif

// The number of words of a text, which are apart by spaces.
int count_words(const char *text);

#ifdef __cplusplus
}
#endif
