/* Makes every call of fancy_regex.h, and compares each answer with what the rules say.
 *
 * every_call          prints the number of requests for memory, and "N answers, 0 wrong"
 * every_call K        refuses the Kth request for memory. Each answer is then the right one or FANCY_REGEX_NO_MEMORY, and no more
 *                     memory is held at the end than without it.
 * every_call -t       times: a search through the handle, and a list by one call and by many */
#define _GNU_SOURCE
#include "fancy_regex.h"
#include <stdio.h>
#include <stdlib.h>
#include <string.h>
#include <time.h>

/* The linker sends what the library asks for here (-Wl,--wrap=malloc and so on). */
void *__real_malloc(size_t size);
void *__real_realloc(void *block, size_t size);
void __real_free(void *block);
static long requests, refused = -1, held;

void *__wrap_malloc(size_t size) {
    if (requests++ == refused) return NULL;
    void *block = __real_malloc(size);
    if (block) held++;
    return block;
}

void *__wrap_realloc(void *block, size_t size) {
    if (requests++ == refused) return NULL;
    return __real_realloc(block, size);
}

void __wrap_free(void *block) {
    if (block) held--;
    __real_free(block);
}

static long answers, wrong;
static uint32_t answer;

/* The answer that was had last: the name of the call, what is wanted, and whether what the call wrote is right. */
static int was(const char *name, uint32_t wanted, int written) {
    answers++;
    if (refused >= 0 && answer == FANCY_REGEX_NO_MEMORY) return 0;
    if (answer == wanted && written) return 1;
    wrong++;
    printf("%s: answer %u, wanted %u%s\n", name, answer, wanted, written ? "" : ", and what was written is wrong");
    return 0;
}

/* Makes a call, and then looks at what it wrote. */
#define IS(name, call, wanted, written) (answer = (call), was(name, wanted, written))

#define BYTES(text) (const uint8_t *)(text), strlen(text)
#define COUNT(array) (sizeof(array) / sizeof *(array))

static fancy_regex_request text_of(const char *text) { return (fancy_regex_request){0, strlen(text), FANCY_REGEX_TEXT, 0}; }

static int same(fancy_regex_span span, size_t start, size_t end) { return span.start == start && span.end == end; }

static int says(const uint8_t *buffer, size_t length, const char *text) {
    return length == strlen(text) && memcmp(buffer, text, length) == 0;
}

static fancy_regex_options by_default(void) {
    fancy_regex_options options;
    fancy_regex_default_options(&options);
    return options;
}

static int make(fancy_regex_handle *regex, const char *pattern) {
    fancy_regex_options options = by_default();
    fancy_regex_fault fault = {0};
    return IS(pattern, fancy_regex_new(BYTES(pattern), &options, regex, &fault), FANCY_REGEX_DONE, 1);
}

static void searches(void) {
    fancy_regex_handle regex = {0};
    fancy_regex_span found = {0}, groups[3];
    const char *text = "xx ab\xC3\xA9 2026-11";
    fancy_regex_request request = text_of(text);
    IS("empty handle", fancy_regex_find(&regex, BYTES(text), &request, &found), FANCY_REGEX_NO_HANDLE, 1);
    if (!make(&regex, "(?<year>\\d{4})-(\\d\\d)")) return;
    IS("is_match", fancy_regex_is_match(&regex, BYTES(text), &request), FANCY_REGEX_DONE, 1);
    IS("find", fancy_regex_find(&regex, BYTES(text), &request, &found), FANCY_REGEX_DONE, same(found, 8, 15));
    IS("captures", fancy_regex_captures(&regex, BYTES(text), &request, groups, 3), FANCY_REGEX_DONE,
       (same(groups[0], 8, 15) && same(groups[1], 8, 12) && same(groups[2], 13, 15)));
    request.end = 12;
    IS("find within a range", fancy_regex_find(&regex, BYTES(text), &request, &found), FANCY_REGEX_NONE, 1);
    request = (fancy_regex_request){6, strlen(text), FANCY_REGEX_TEXT, 0};
    IS("start inside a character", fancy_regex_find(&regex, BYTES(text), &request, &found), FANCY_REGEX_NO_PLACE, 1);
    request.flags = 0;
    IS("the same in bytes", fancy_regex_find(&regex, BYTES(text), &request, &found), FANCY_REGEX_DONE, 1);
    request.end = 99;
    IS("end past the haystack", fancy_regex_find(&regex, BYTES(text), &request, &found), FANCY_REGEX_NO_PLACE, 1);
    request = (fancy_regex_request){0, 1, FANCY_REGEX_TEXT, 0};
    IS("no text", fancy_regex_find(&regex, BYTES("\xFF"), &request, &found), FANCY_REGEX_NOT_TEXT, 1);
    request = (fancy_regex_request){0, 7, FANCY_REGEX_TEXT | FANCY_REGEX_ANCHORED, 0};
    IS("anchored", fancy_regex_is_match(&regex, BYTES("2026-11"), &request), FANCY_REGEX_DONE, 1);
    IS("anchored elsewhere", fancy_regex_is_match(&regex, BYTES(" 2026-1"), &request), FANCY_REGEX_NONE, 1);
    fancy_regex_free(&regex);
    fancy_regex_free(&regex);
    IS("freed handle", fancy_regex_is_match(&regex, BYTES(text), &request), FANCY_REGEX_NO_HANDLE, 1);
}

static void suppressed(void) {
    fancy_regex_handle regex = {0};
    if (make(&regex, "^a$")) {
        fancy_regex_request request = text_of("a");
        IS("the whole", fancy_regex_is_match(&regex, BYTES("a"), &request), FANCY_REGEX_DONE, 1);
        request.flags = FANCY_REGEX_TEXT | FANCY_REGEX_NO_START;
        IS("no start", fancy_regex_is_match(&regex, BYTES("a"), &request), FANCY_REGEX_NONE, 1);
        request.flags = FANCY_REGEX_TEXT | FANCY_REGEX_NO_END;
        IS("no end", fancy_regex_is_match(&regex, BYTES("a"), &request), FANCY_REGEX_NONE, 1);
    }
    if (make(&regex, "\\Ga")) {
        fancy_regex_request request = {0, 1, FANCY_REGEX_TEXT | FANCY_REGEX_NOT_CONTINUED, 0};
        IS("not continued", fancy_regex_is_match(&regex, BYTES("a"), &request), FANCY_REGEX_NONE, 1);
    }
    fancy_regex_free(&regex);
}

static void names(void) {
    fancy_regex_handle regex = {0}, other = {0};
    size_t number = 9, wanted = 9;
    uint8_t buffer[8];
    if (make(&regex, "(?<year>\\d{4})-(\\d\\d)")) {
        IS("captures_len", fancy_regex_captures_len(&regex) == 3, 1, 1);
        IS("group_number", fancy_regex_group_number(&regex, BYTES("year"), &number), FANCY_REGEX_DONE, number == 1);
        IS("no such name", fancy_regex_group_number(&regex, BYTES("day"), &number), FANCY_REGEX_NONE, 1);
        IS("group_name", fancy_regex_group_name(&regex, 1, buffer, 8, &wanted), FANCY_REGEX_DONE,
           says(buffer, wanted, "year"));
        IS("a short buffer", fancy_regex_group_name(&regex, 1, buffer, 3, &wanted), FANCY_REGEX_TOO_SHORT, wanted == 4);
        IS("no name", fancy_regex_group_name(&regex, 2, buffer, 8, &wanted), FANCY_REGEX_NONE, 1);
        IS("no group", fancy_regex_group_name(&regex, 7, buffer, 8, &wanted), FANCY_REGEX_NONE, 1);
        if (IS("again", fancy_regex_again(&regex, &other), FANCY_REGEX_DONE, 1)) {
            fancy_regex_free(&regex);
            IS("the other one", fancy_regex_captures_len(&other) == 3, 1, 1);
        }
    }
    IS("again of nothing", refused < 0 ? fancy_regex_again(&regex, &other) : FANCY_REGEX_NO_HANDLE, FANCY_REGEX_NO_HANDLE, 1);
    fancy_regex_free(&regex);
    fancy_regex_free(&other);
}

static void refuse(const char *pattern, uint32_t kind, size_t place, size_t number, const char *text) {
    fancy_regex_handle regex = {0};
    fancy_regex_options options = by_default();
    fancy_regex_fault fault = {0};
    uint8_t buffer[128];
    size_t wanted = 0;
    if (!IS(pattern, fancy_regex_new(BYTES(pattern), &options, &regex, &fault), FANCY_REGEX_REFUSED,
            fault.kind == kind && fault.place == place && fault.number == number))
        return;
    IS(text, fancy_regex_explain(&fault, buffer, sizeof buffer, &wanted), FANCY_REGEX_DONE,
       says(buffer, wanted, text));
}

static void faults(void) {
    fancy_regex_handle regex = {0};
    fancy_regex_options options = by_default();
    fancy_regex_fault fault = {0};
    uint8_t buffer[64];
    size_t wanted = 0;
    refuse("(?:a", FANCY_REGEX_UNCLOSED_OPEN_PAREN, 4, 0,
           "parsing error at position 4: opening parenthesis without closing parenthesis");
    refuse("(a)\\2", FANCY_REGEX_INVALID_BACKREF, 0, 2, "error compiling regex: no group has the number 2");
    refuse("(?<=a+)b", FANCY_REGEX_LOOK_BEHIND_NOT_CONST, 0, 0, "error compiling regex: look-behind of no constant size");
    refuse("\\k<day>", FANCY_REGEX_INVALID_GROUP_NAME_BACKREF, 0, 0,
           "error compiling regex: no group has a name that the pattern refers to");
    IS("missing_name", fancy_regex_missing_name(BYTES("\\k<day>"), &options, buffer, sizeof buffer, &wanted), FANCY_REGEX_DONE,
       says(buffer, wanted, "day"));
    IS("no missing name", fancy_regex_missing_name(BYTES("a"), &options, buffer, sizeof buffer, &wanted), FANCY_REGEX_NONE, 1);
    IS("pattern that is no text", fancy_regex_new(BYTES("\xFF"), &options, &regex, &fault), FANCY_REGEX_NOT_TEXT,
       fault.kind == FANCY_REGEX_PATTERN_IS_NO_TEXT);
    options.bytes_mode = 3;
    IS("no such mode", fancy_regex_new(BYTES("a"), &options, &regex, &fault), FANCY_REGEX_NO_OPTIONS,
       fault.kind == FANCY_REGEX_WRONG_OPTIONS);
    options = by_default();
    options.size = 8;
    IS("another size", fancy_regex_new(BYTES("a"), &options, &regex, &fault), FANCY_REGEX_NO_OPTIONS, 1);
    options = by_default();
    IS("sizeof", options.size == sizeof options, 1, 1);
}

static void with_options(void) {
    fancy_regex_handle regex = {0};
    fancy_regex_options options = by_default();
    fancy_regex_fault fault = {0};
    fancy_regex_request request = text_of("xSTOP");
    options.switches = FANCY_REGEX_CASE_INSENSITIVE;
    if (IS("an option", fancy_regex_new(BYTES("stop"), &options, &regex, &fault), FANCY_REGEX_DONE, 1))
        IS("ignoring case", fancy_regex_is_match(&regex, BYTES("xSTOP"), &request), FANCY_REGEX_DONE, 1);
    options = by_default();
    options.backtrack_limit = 2;
    request = text_of("aaaaaaaa");
    if (IS("a limit", fancy_regex_new(BYTES("(?:(a|aa)+)\\1$b"), &options, &regex, &fault), FANCY_REGEX_DONE, 1))
        IS("given up", fancy_regex_is_match(&regex, BYTES("aaaaaaaa"), &request), FANCY_REGEX_BACKTRACK_LIMIT, 1);
    options = by_default();
    options.bytes_mode = 1;
    request = (fancy_regex_request){0, 3, 0, 0};
    fancy_regex_span found = {0};
    if (IS("bytes", fancy_regex_new(BYTES("\\xFF."), &options, &regex, &fault), FANCY_REGEX_DONE, 1))
        IS("in bytes", fancy_regex_find(&regex, BYTES("a\xFF\x80"), &request, &found), FANCY_REGEX_DONE,
           same(found, 1, 3));
    fancy_regex_free(&regex);
}

/* A list whose calls ask for one match and for `count` in turn, against the spans that are wanted. */
static void list(fancy_regex_handle *regex, const char *text, size_t count, const fancy_regex_span *wanted, size_t many) {
    fancy_regex_request request = text_of(text);
    fancy_regex_span spans[8];
    size_t seen = 0, written = 0, next = 1;
    uint32_t last = FANCY_REGEX_DONE;
    while (last == FANCY_REGEX_DONE && seen <= many) {
        last = fancy_regex_find_all(regex, BYTES(text), &request, spans, next, &written);
        next = count + 1 - next;
        for (size_t i = 0; i < written; i++, seen++)
            IS("an item", seen < many && same(spans[i], wanted[seen].start, wanted[seen].end), 1, 1);
    }
    IS("the end of a list", last, FANCY_REGEX_NONE, seen == many);
}

static void lists(void) {
    fancy_regex_handle regex = {0};
    const fancy_regex_span stars[] = {{0, 0}, {1, 3}, {4, 4}}, digits[] = {{0, 1}, {2, 3}, {4, 6}};
    const fancy_regex_span letters[] = {{0, 1}, {1, 2}}, kept[] = {{1, 1}, {2, 3}};
    const fancy_regex_span once[] = {{0, 0}}, first[] = {{0, 1}}, on[] = {{0, 0}, {1, 2}, {2, 3}};
    for (size_t count = 1; count <= 4; count++) {
        if (make(&regex, "a*")) list(&regex, "baab", count, stars, COUNT(stars));
        if (make(&regex, "\\d+")) list(&regex, "1 2 34", count, digits, COUNT(digits));
        if (make(&regex, "\\Ga")) list(&regex, "aab", count, letters, COUNT(letters));
        /* \\G holds after an empty match that was found past where its search began, and after no other */
        if (make(&regex, "\\G(?:a\\K|b)")) list(&regex, "aab", count, kept, COUNT(kept));
        if (make(&regex, "\\G(?:x|)")) list(&regex, "ab", count, once, COUNT(once));
        if (make(&regex, "\\G(?:a|)")) list(&regex, "ab", count, first, COUNT(first));
        if (make(&regex, "\\Gc|(?=a)|b")) list(&regex, "abc", count, on, COUNT(on));
    }
    if (make(&regex, "\\Gb|a")) {
        /* where \\G is off from the start it is off in each call */
        fancy_regex_request request = {0, 2, FANCY_REGEX_TEXT | FANCY_REGEX_NOT_CONTINUED, 0};
        fancy_regex_span span = {0};
        size_t written = 0;
        if (IS("the first one", fancy_regex_find_all(&regex, BYTES("ab"), &request, &span, 1, &written), FANCY_REGEX_DONE, same(span, 0, 1)))
            IS("\\G is off", fancy_regex_find_all(&regex, BYTES("ab"), &request, &span, 1, &written), FANCY_REGEX_NONE, written == 0);
    }
    if (make(&regex, "a(b)?")) {
        fancy_regex_request request = text_of("aab");
        fancy_regex_span groups[6];
        size_t written = 0;
        IS("captures_all", fancy_regex_captures_all(&regex, BYTES("aab"), &request, groups, 4, &written), FANCY_REGEX_DONE,
           (written == 2 && same(groups[0], 0, 1) && same(groups[1], FANCY_REGEX_ABSENT, FANCY_REGEX_ABSENT)
                           && same(groups[2], 1, 3) && same(groups[3], 2, 3)));
        if (written == 2)
            IS("no more", fancy_regex_captures_all(&regex, BYTES("aab"), &request, groups, 6, &written), FANCY_REGEX_NONE, written == 0);
    }
    fancy_regex_free(&regex);
}

static void texts(void) {
    fancy_regex_handle regex = {0};
    fancy_regex_replacing how = {BYTES("$2.$1"), 0, 0};
    uint8_t buffer[64];
    fancy_regex_span pieces[4];
    size_t wanted = 0;
    if (make(&regex, "(\\d+)-(\\d+)")) {
        IS("replace", fancy_regex_replace(&regex, BYTES("on 1-2, 3-4"), &how, buffer, 64, &wanted), FANCY_REGEX_DONE,
           says(buffer, wanted, "on 2.1, 4.3"));
        IS("a short buffer", fancy_regex_replace(&regex, BYTES("1-2"), &how, buffer, 2, &wanted),
           FANCY_REGEX_TOO_SHORT, wanted == 3);
        IS("nothing to replace", fancy_regex_replace(&regex, BYTES("12"), &how, buffer, 64, &wanted), FANCY_REGEX_NONE,
           wanted == 0);
        how.replacement_len = 2;
        how.limit = 1;
        how.literal = 1;
        IS("the first one", fancy_regex_replace(&regex, BYTES("1-2 3-4"), &how, buffer, 64, &wanted), FANCY_REGEX_DONE,
           says(buffer, wanted, "$2 3-4"));
    }
    if (make(&regex, ",")) {
        IS("split", fancy_regex_split(&regex, BYTES("1,,2"), (size_t)-1, pieces, 4, &wanted), FANCY_REGEX_DONE,
           (wanted == 3 && same(pieces[0], 0, 1) && same(pieces[1], 2, 2) && same(pieces[2], 3, 4)));
        IS("at most two", fancy_regex_split(&regex, BYTES("1,,2"), 2, pieces, 4, &wanted), FANCY_REGEX_DONE,
           (wanted == 2 && same(pieces[1], 2, 4)));
        IS("no room", fancy_regex_split(&regex, BYTES("1,,2"), 3, pieces, 1, &wanted), FANCY_REGEX_TOO_SHORT, wanted == 3);
    }
    IS("escape", fancy_regex_escape(BYTES("1.5$"), buffer, 64, &wanted), FANCY_REGEX_DONE, says(buffer, wanted, "1\\.5\\$"));
    fancy_regex_free(&regex);
}

static void sets(void) {
    fancy_regex_handle set = {0}, other = {0};
    fancy_regex_options options = by_default();
    fancy_regex_fault fault = {0};
    fancy_regex_member members[4];
    size_t wanted = 0, ends[] = {2, 8, 14, 16}, wrong_ends[] = {1, 3};
    fancy_regex_request request = text_of("$if");
    if (!IS("set_new", fancy_regex_set_new(BYTES("if[a-z]+[0-9]+ +"), ends, 4, &options, &set, &fault), FANCY_REGEX_DONE, 1)) return;
    IS("set_len", fancy_regex_set_len(&set) == 4, 1, 1);
    IS("set_find", fancy_regex_set_find(&set, BYTES("$if"), &request, members, 4, &wanted), FANCY_REGEX_DONE,
       (wanted == 2 && members[0].pattern == 0 && members[1].pattern == 1 && members[1].start == 1 && members[1].end == 3));
    request = text_of("if iffy 42!");
    IS("tokens", fancy_regex_tokens(&set, BYTES("if iffy 42!"), &request, members, 4, &wanted), FANCY_REGEX_DONE,
       (wanted == 4 && members[2].pattern == 1 && members[2].end == 7 && request.start == 8));
    if (wanted == 4)
        IS("a place without a token", fancy_regex_tokens(&set, BYTES("if iffy 42!"), &request, members, 4, &wanted), FANCY_REGEX_UNMATCHED,
           wanted == 1 && request.start == 10);
    IS("a regex is wanted", fancy_regex_is_match(&set, BYTES("a"), &request), FANCY_REGEX_NO_HANDLE, 1);
    IS("a fault in a set", fancy_regex_set_new(BYTES("a(b"), wrong_ends, 2, &options, &set, &fault), FANCY_REGEX_REFUSED,
       fault.pattern == 1);
    IS("the set is still there", fancy_regex_set_len(&set) == 4, 1, 1);
    IS("again of a set", fancy_regex_again(&set, &other), FANCY_REGEX_DONE, 1);
    fancy_regex_free(&set);
    fancy_regex_free(&other);
}

/* The next match of a list under way, which may be asked again after want of memory. */
static uint32_t next_of(fancy_regex_handle *list, fancy_regex_span *groups, size_t count) {
    uint32_t first = fancy_regex_next(list, groups, count);
    return first == FANCY_REGEX_NO_MEMORY ? fancy_regex_next(list, groups, count) : first;
}

/* A list under way, against the spans that are wanted. */
static void walk(fancy_regex_handle *regex, const char *text, const fancy_regex_span *wanted, size_t many) {
    fancy_regex_handle list = {0};
    fancy_regex_request request = text_of(text);
    fancy_regex_span groups[2];
    if (!IS("matches_new", fancy_regex_matches_new(regex, BYTES(text), &request, 0, &list), FANCY_REGEX_DONE, 1)) return;
    fancy_regex_free(regex);
    for (size_t i = 0; i < many; i++)
        IS("next", next_of(&list, groups, 2), FANCY_REGEX_DONE,
           same(groups[0], wanted[i].start, wanted[i].end) && same(groups[1], FANCY_REGEX_ABSENT, FANCY_REGEX_ABSENT));
    IS("no next", next_of(&list, groups, 2), FANCY_REGEX_NONE, 1);
    IS("none again", next_of(&list, groups, 2), FANCY_REGEX_NONE, 1);
    fancy_regex_free(&list);
}

static void under_way(void) {
    fancy_regex_handle regex = {0}, list = {0}, other = {0}, set = {0};
    fancy_regex_options options = by_default();
    fancy_regex_fault fault = {0};
    const fancy_regex_span stars[] = {{0, 0}, {1, 3}, {4, 4}};
    fancy_regex_span many[40], groups[3];
    char digits[81];
    for (size_t i = 0; i < 40; i++) {
        digits[2 * i] = '7';
        digits[2 * i + 1] = ' ';
        many[i] = (fancy_regex_span){2 * i, 2 * i + 1};
    }
    digits[80] = 0;
    if (make(&regex, "a*")) walk(&regex, "baab", stars, COUNT(stars));
    if (make(&regex, "\\d")) walk(&regex, digits, many, COUNT(many));
    if (make(&regex, "(a)(b)?")) {
        fancy_regex_request request = text_of("aab");
        if (IS("with groups", fancy_regex_matches_new(&regex, BYTES("aab"), &request, 1, &list), FANCY_REGEX_DONE, 1)) {
            IS("the first", fancy_regex_next(&list, groups, 3), FANCY_REGEX_DONE,
               same(groups[0], 0, 1) && same(groups[1], 0, 1) && same(groups[2], FANCY_REGEX_ABSENT, FANCY_REGEX_ABSENT));
            if (refused < 0)
                IS("the second", fancy_regex_next(&list, groups, 3), FANCY_REGEX_DONE, same(groups[0], 1, 3) && same(groups[2], 2, 3));
            IS("a list is not shared", fancy_regex_again(&list, &other), FANCY_REGEX_NO_HANDLE, 1);
            IS("nor is it a regex", fancy_regex_is_match(&list, BYTES("a"), &request), FANCY_REGEX_NO_HANDLE, 1);
        }
        request.end = 9;
        IS("a wrong end", fancy_regex_matches_new(&regex, BYTES("aab"), &request, 1, &list), FANCY_REGEX_NO_PLACE, 1);
        IS("no text", fancy_regex_matches_new(&regex, BYTES("\xFF"), &request, 1, &list), FANCY_REGEX_NOT_TEXT, 1);
    }
    size_t ends[] = {6, 8};
    fancy_regex_member token = {0, 0, 0};
    fancy_regex_request request = text_of("ab c!");
    if (IS("a set", fancy_regex_set_new(BYTES("[a-z]+ +"), ends, 2, &options, &set, &fault), FANCY_REGEX_DONE, 1)
        && IS("tokens_new", fancy_regex_tokens_new(&set, BYTES("ab c!"), &request, &list), FANCY_REGEX_DONE, 1)) {
        const fancy_regex_member wanted[] = {{0, 0, 2}, {1, 2, 3}, {0, 3, 4}};
        for (size_t i = 0; i < COUNT(wanted) && refused < 0; i++)
            IS("a token", fancy_regex_next_token(&list, &token), FANCY_REGEX_DONE,
               token.pattern == wanted[i].pattern && token.start == wanted[i].start && token.end == wanted[i].end);
        if (refused >= 0) IS("a token", fancy_regex_next_token(&list, &token), FANCY_REGEX_DONE, token.end == 2);
        if (refused < 0) {
            IS("unmatched", fancy_regex_next_token(&list, &token), FANCY_REGEX_UNMATCHED, token.start == 4 && token.end == 4);
            IS("the end", fancy_regex_next_token(&list, &token), FANCY_REGEX_NONE, 1);
        }
    }
    fancy_regex_free(&regex);
    fancy_regex_free(&set);
    fancy_regex_free(&list);
    fancy_regex_free(&other);
}

static double now(void) {
    struct timespec time;
    clock_gettime(CLOCK_MONOTONIC, &time);
    return (double)time.tv_sec * 1e9 + (double)time.tv_nsec;
}

/* Prints the least time of several runs. */
static void times(void) {
    fancy_regex_handle regex = {0};
    fancy_regex_span found = {0}, *spans = malloc((1 << 18) * sizeof *spans);
    const char *text = "a text of 20 bytes 7";
    fancy_regex_request request = text_of(text);
    make(&regex, "\\d\\z");
    double find = 1e99, count = 1e99;
    for (int round = 0; round < 20; round++) {
        double begun = now();
        for (int i = 0; i < 20000; i++) fancy_regex_find(&regex, BYTES(text), &request, &found);
        double done = (now() - begun) / 20000;
        if (done < find) find = done;
        begun = now();
        for (int i = 0; i < 20000; i++) fancy_regex_captures_len(&regex);
        done = (now() - begun) / 20000;
        if (done < count) count = done;
    }
    printf("find of 20 bytes: %.1f ns; a call that only asks the handle: %.1f ns\n", find, count);
    size_t length = 1 << 20;
    char *long_text = malloc(length + 1);
    for (size_t i = 0; i < length; i++) long_text[i] = i % 7 < 5 ? 'a' : ' ';
    long_text[length] = 0;
    make(&regex, "\\w+");
    for (size_t room = 1 << 18; room >= 64; room /= 16) {
        double least = 1e99;
        size_t matches = 0;
        for (int round = 0; round < 5; round++) {
            fancy_regex_request list = {0, length, FANCY_REGEX_TEXT, 0};
            size_t written = 0;
            double begun = now();
            matches = 0;
            while (fancy_regex_find_all(&regex, (const uint8_t *)long_text, length, &list, spans, room, &written) == FANCY_REGEX_DONE)
                matches += written;
            matches += written;
            double done = now() - begun;
            if (done < least) least = done;
        }
        printf("a list of %zu matches, %zu a call: %.1f ns a match\n", matches, room, least / (double)matches);
    }
    double least = 1e99;
    size_t matches = 0;
    for (int round = 0; round < 5; round++) {
        fancy_regex_handle list = {0};
        fancy_regex_request request = {0, length, FANCY_REGEX_TEXT, 0};
        double begun = now();
        matches = 0;
        fancy_regex_matches_new(&regex, (const uint8_t *)long_text, length, &request, 0, &list);
        while (fancy_regex_next(&list, spans, 1) == FANCY_REGEX_DONE) matches++;
        double done = now() - begun;
        if (done < least) least = done;
        fancy_regex_free(&list);
    }
    printf("a list of %zu matches, one a call: %.1f ns a match\n", matches, least / (double)matches);
    fancy_regex_free(&regex);
    free(spans);
    free(long_text);
}

int main(int count, char **words) {
    if (count > 1 && strcmp(words[1], "-t") == 0) {
        times();
        return 0;
    }
    if (count > 1) refused = atol(words[1]);
    long before = held;
    searches();
    suppressed();
    names();
    faults();
    with_options();
    lists();
    texts();
    sets();
    under_way();
    if (held != before) {
        wrong++;
        printf("%ld blocks of memory are still held\n", held - before);
    }
    printf("%ld requests for memory, %ld answers, %ld wrong\n", requests, answers, wrong);
    return wrong != 0;
}
