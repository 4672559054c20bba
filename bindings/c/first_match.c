#include "fancy_regex.h"
#include <stdio.h>
#include <string.h>

#define BYTES(text) (const uint8_t *)(text), strlen(text)

int main(int count, char **words) { /* first_match PATTERN TEXT */
    fancy_regex_handle regex = {0};
    fancy_regex_options options;
    fancy_regex_fault fault;
    fancy_regex_span found;
    if (count != 3) return 2;
    fancy_regex_default_options(&options);
    if (fancy_regex_new(BYTES(words[1]), &options, &regex, &fault) != FANCY_REGEX_DONE) return 2;
    fancy_regex_request whole = {0, strlen(words[2]), FANCY_REGEX_TEXT, 0};
    uint32_t answer = fancy_regex_find(&regex, BYTES(words[2]), &whole, &found);
    if (answer == FANCY_REGEX_DONE) printf("%zu..%zu\n", found.start, found.end);
    fancy_regex_free(&regex);
    return answer != FANCY_REGEX_DONE;
}
