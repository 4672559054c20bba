/* Oniguruma behind four functions. Syntax: Perl with named groups, UTF-8. */
#include <oniguruma.h>
#include <stdint.h>
#include <stdlib.h>
#include <string.h>

struct re {
    regex_t *code;
    OnigRegion *region;
    size_t *spans;
    size_t groups;
};

static int ready;

void *shim_onig_compile(const unsigned char *pattern, size_t len, char *error, size_t error_len)
{
    if (!ready) {
        OnigEncoding used[] = { ONIG_ENCODING_UTF8 };
        onig_initialize(used, 1);
        ready = 1;
    }
    regex_t *code;
    OnigErrorInfo info;
    int r = onig_new(&code, pattern, pattern + len, ONIG_OPTION_CAPTURE_GROUP, ONIG_ENCODING_UTF8,
                     ONIG_SYNTAX_PERL_NG, &info);
    if (r != ONIG_NORMAL) {
        OnigUChar text[ONIG_MAX_ERROR_MESSAGE_LEN];
        onig_error_code_to_str(text, r, &info);
        strncpy(error, (char *)text, error_len - 1);
        return NULL;
    }
    struct re *re = malloc(sizeof *re);
    re->code = code;
    re->region = onig_region_new();
    re->groups = (size_t)onig_number_of_captures(code) + 1;
    re->spans = malloc(2 * re->groups * sizeof *re->spans);
    return re;
}

int shim_onig_search(struct re *re, const unsigned char *h, size_t len, size_t start)
{
    int r = onig_search(re->code, h, h + len, h + start, h + len, re->region, ONIG_OPTION_NONE);
    if (r == ONIG_MISMATCH)
        return 0;
    if (r < 0)
        return r;
    for (size_t g = 0; g < re->groups; g++) {
        int b = re->region->beg[g], e = re->region->end[g];
        re->spans[2 * g] = b < 0 ? SIZE_MAX : (size_t)b;
        re->spans[2 * g + 1] = e < 0 ? SIZE_MAX : (size_t)e;
    }
    return 1;
}

const size_t *shim_onig_spans(struct re *re, size_t *n)
{
    *n = re->groups;
    return re->spans;
}

void shim_onig_free(struct re *re)
{
    onig_region_free(re->region, 1);
    onig_free(re->code);
    free(re->spans);
    free(re);
}
