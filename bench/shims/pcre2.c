/* PCRE2 behind four functions: UTF and Unicode properties, the haystack taken as valid UTF-8.
   BENCH_INTERPRETER in the environment leaves out the JIT compiler. */
#define PCRE2_CODE_UNIT_WIDTH 8
#include <pcre2.h>
#include <stdlib.h>
#include <string.h>

struct re {
    pcre2_code *code;
    pcre2_match_data *data;
    pcre2_match_context *context;
    pcre2_jit_stack *stack;
    int jit;
};

void *shim_pcre2_compile(const unsigned char *pattern, size_t len, char *error, size_t error_len)
{
    int code_number;
    PCRE2_SIZE at;
    pcre2_code *code = pcre2_compile(pattern, len, PCRE2_UTF | PCRE2_UCP, &code_number, &at, NULL);
    if (!code) {
        pcre2_get_error_message(code_number, (PCRE2_UCHAR *)error, error_len);
        return NULL;
    }
    struct re *re = malloc(sizeof *re);
    re->jit = getenv("BENCH_INTERPRETER") == NULL;
    if (re->jit && pcre2_jit_compile(code, PCRE2_JIT_COMPLETE) != 0) {
        strncpy(error, "no JIT", error_len - 1);
        pcre2_code_free(code);
        free(re);
        return NULL;
    }
    re->code = code;
    re->data = pcre2_match_data_create_from_pattern(code, NULL);
    re->context = pcre2_match_context_create(NULL);
    re->stack = re->jit ? pcre2_jit_stack_create(32 * 1024, 16 * 1024 * 1024, NULL) : NULL;
    if (re->stack)
        pcre2_jit_stack_assign(re->context, NULL, re->stack);
    return re;
}

int shim_pcre2_search(struct re *re, const unsigned char *h, size_t len, size_t start)
{
    int r = re->jit
        ? pcre2_jit_match(re->code, h, len, start, PCRE2_NO_UTF_CHECK, re->data, re->context)
        : pcre2_match(re->code, h, len, start, PCRE2_NO_UTF_CHECK, re->data, re->context);
    if (r == PCRE2_ERROR_NOMATCH)
        return 0;
    return r < 0 ? r : 1;
}

const size_t *shim_pcre2_spans(struct re *re, size_t *n)
{
    *n = pcre2_get_ovector_count(re->data);
    return pcre2_get_ovector_pointer(re->data);
}

void shim_pcre2_free(struct re *re)
{
    if (re->stack)
        pcre2_jit_stack_free(re->stack);
    pcre2_match_context_free(re->context);
    pcre2_match_data_free(re->data);
    pcre2_code_free(re->code);
    free(re);
}
