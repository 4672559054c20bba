/* Regexes with look-around, backreferences, sets and tokens. The library is proved; crates/fancy_regex_c is its source.
 *
 * Handles. A handle owns a regex, a set, or a list under way. It begins as {0}, which is empty; a call that makes something frees what the handle
 * held and puts the new thing in. fancy_regex_free empties it, and may be called again. An empty handle, and one of another
 * kind, are answered with FANCY_REGEX_NO_HANDLE.
 *
 * Texts. A pattern is UTF-8. A haystack is bytes, and a flag says whether they are text: then they are read as UTF-8, each time,
 * and what is none is answered with FANCY_REGEX_NOT_TEXT. All offsets are byte offsets. Nothing ends with a zero byte.
 *
 * Memory comes from malloc. Where it is refused a call answers FANCY_REGEX_NO_MEMORY, and all handles stay as they were.
 *
 * What is left to the caller, and tested by no call:
 *   - each pointer points to as many things as the length beside it says, or to one where there is none; it is aligned and not null.
 *     For a length of 0 any pointer that is not null will do;
 *   - what is written to is not read or written by another parameter of the same call, and two handles of a call are two;
 *   - a handle is not copied: of two copies one would own what the other freed. fancy_regex_again makes a second handle;
 *   - one call at a time uses a handle. Several threads use handles of their own, which fancy_regex_again makes;
 *   - `full` of a handle is written by these functions alone.
 */
#ifndef FANCY_REGEX_H
#define FANCY_REGEX_H

#include <stdbool.h>
#include <stddef.h>
#include <stdint.h>

#ifdef __cplusplus
extern "C" {
#endif

/* Owns a regex, a set or a list under way, or nothing: {0}. */
typedef struct fancy_regex_handle {
    void *at;
    bool full;
} fancy_regex_handle;

/* From `start` up to `end`, the offset after the last byte. */
typedef struct fancy_regex_span {
    size_t start;
    size_t end;
} fancy_regex_span;

/* Both ends of a group that took no part. */
#define FANCY_REGEX_ABSENT ((size_t)-1)

/* A pattern of a set by its index, and what it matched. */
typedef struct fancy_regex_member {
    size_t pattern;
    size_t start;
    size_t end;
} fancy_regex_member;

/* What a call answers. */
enum fancy_regex_answer {
    FANCY_REGEX_DONE = 0,            /* done; found; yes */
    FANCY_REGEX_NONE = 1,            /* no match, no name, no further item; no */
    FANCY_REGEX_NOT_TEXT = 2,        /* what was handed in as text is no UTF-8 */
    FANCY_REGEX_NO_PLACE = 3,        /* the start or the end of the search is inside a character of a text, or the end is past the
                                        haystack; or the regex reads bytes, and the text is not ASCII */
    FANCY_REGEX_NO_MEMORY = 4,       /* memory was refused */
    FANCY_REGEX_NO_HANDLE = 5,       /* the handle is empty, or holds another kind of thing */
    FANCY_REGEX_REFUSED = 6,         /* the pattern is refused: see the fault */
    FANCY_REGEX_NO_OPTIONS = 7,      /* options of another size, or with a number that means nothing */
    FANCY_REGEX_TOO_SHORT = 8,       /* the buffer is too short; the length that is wanted is told */
    FANCY_REGEX_BACKTRACK_LIMIT = 9, /* the search was given up at `backtrack_limit` */
    FANCY_REGEX_STACK_LIMIT = 10,    /* the search was given up at `stack_limit` */
    FANCY_REGEX_STEP_LIMIT = 11,     /* the search was given up at `step_limit` */
    FANCY_REGEX_UNMATCHED = 12       /* no pattern of the set gives a token at the place where the request starts now */
};

/* Where and how a haystack is searched. Anchors and look-around see the whole haystack. */
typedef struct fancy_regex_request {
    size_t start;   /* the first position that is tried; past the end nothing is found */
    size_t end;     /* no match ends after it; at most the haystack's length */
    uint32_t flags; /* of the following, added up */
    uint32_t standing; /* where a list stands, which lists alone read: 0 at first. They set it */
} fancy_regex_request;

enum fancy_regex_flag {
    FANCY_REGEX_TEXT = 1,          /* the haystack is text */
    FANCY_REGEX_ANCHORED = 2,      /* one position alone is tried */
    FANCY_REGEX_NO_START = 4,      /* the start of the haystack is no start of a text: ^ and \A do not hold there */
    FANCY_REGEX_NO_END = 8,        /* its end is no end of a text: $ and \z do not hold there */
    FANCY_REGEX_NOT_CONTINUED = 16 /* there was no match before: \G holds nowhere */
};

/* The options of a pattern: fancy_regex_default_options sets the default ones. */
typedef struct fancy_regex_options {
    size_t size;            /* sizeof (fancy_regex_options) */
    size_t backtrack_limit; /* how many returns a hard search may take: 1,000,000 */
    size_t stack_limit;     /* how many branches it may have saved: 1,000,000 */
    size_t step_limit;      /* how much work a search may do; (size_t)-1: any */
    size_t program_limit;   /* how many instructions a hard pattern may have; (size_t)-1: any */
    uint32_t switches;      /* of the following, added up */
    uint32_t bytes_mode;    /* 0: text; 1: bytes that are ASCII; 2: bytes with the characters of Unicode */
} fancy_regex_options;

enum fancy_regex_switch {
    FANCY_REGEX_CASE_INSENSITIVE = 1,
    FANCY_REGEX_MULTI_LINE = 2,
    FANCY_REGEX_DOT_MATCHES_NEW_LINE = 4,
    FANCY_REGEX_IGNORE_WHITESPACE = 8,
    FANCY_REGEX_CRLF = 16,
    FANCY_REGEX_NO_UNICODE = 32,        /* the Unicode mode is off */
    FANCY_REGEX_ONLY_NAMED_GROUPS = 64, /* where a group has a name, those without one do not capture */
    FANCY_REGEX_FIND_NOT_EMPTY = 128,
    FANCY_REGEX_LEFTMOST_LONGEST = 256,
    FANCY_REGEX_SEEK = 512
};

/* Why a pattern is refused. */
typedef struct fancy_regex_fault {
    uint32_t kind;  /* of the following */
    size_t pattern; /* the index of the pattern in its set; 0 for a pattern alone */
    size_t place;   /* a byte offset into the pattern, for kinds from 101 to 199 */
    size_t number;  /* the number that no group has, for FANCY_REGEX_INVALID_BACKREF */
} fancy_regex_fault;

enum fancy_regex_fault_kind {
    FANCY_REGEX_NO_FAULT = 0,
    FANCY_REGEX_MEMORY = 1,
    FANCY_REGEX_PATTERN_IS_NO_TEXT = 2,
    FANCY_REGEX_WRONG_OPTIONS = 3,
    FANCY_REGEX_GENERAL_PARSE_ERROR = 101,
    FANCY_REGEX_UNCLOSED_OPEN_PAREN = 102,
    FANCY_REGEX_INVALID_REPEAT = 103,
    FANCY_REGEX_TARGET_NOT_REPEATABLE = 104,
    FANCY_REGEX_RECURSION_EXCEEDED = 105,
    FANCY_REGEX_TRAILING_BACKSLASH = 106,
    FANCY_REGEX_INVALID_ESCAPE = 107,
    FANCY_REGEX_INVALID_HEX = 108,
    FANCY_REGEX_INVALID_CODEPOINT_VALUE = 109,
    FANCY_REGEX_INVALID_CLASS = 110,
    FANCY_REGEX_UNKNOWN_FLAG = 111,
    FANCY_REGEX_INVALID_GROUP_NAME = 112,
    FANCY_REGEX_CHANGING_UNICODE_MODE = 113,
    FANCY_REGEX_NOT_IN_PROFILE = 114,
    FANCY_REGEX_INVALID_BACKREF = 201,
    FANCY_REGEX_INVALID_GROUP_NAME_BACKREF = 202,
    FANCY_REGEX_NAMED_BACKREF_ONLY = 203,
    FANCY_REGEX_LOOK_BEHIND_NOT_CONST = 204,
    FANCY_REGEX_PATTERN_CAN_NEVER_MATCH = 205,
    FANCY_REGEX_PATTERN_TOO_COMPLEX = 206
};

/* How matches are replaced. */
typedef struct fancy_regex_replacing {
    const uint8_t *replacement; /* what stands for each match, and its length */
    size_t replacement_len;
    size_t limit;     /* how many at most; 0: all */
    uint32_t literal; /* 1: by the replacement as it is; 0: it is a template, with $1, ${name} and $$ */
} fancy_regex_replacing;

/* ---- Building ---- */

void fancy_regex_default_options(fancy_regex_options *options);

/* Reads a pattern. Where it is refused `regex` keeps what it held, and `fault` says why: NO_OPTIONS; else NOT_TEXT where the pattern is
 * no UTF-8; else REFUSED or NO_MEMORY. For DONE `fault` is not written. */
uint32_t fancy_regex_new(const uint8_t *pattern, size_t pattern_len, const fancy_regex_options *options,
                         fancy_regex_handle *regex, fancy_regex_fault *fault);

/* Reads the patterns of a set, which stand one after another in `patterns`; `ends` has the offset at which each ends. As above; the
 * fault says of which pattern it is. */
uint32_t fancy_regex_set_new(const uint8_t *patterns, size_t patterns_len, const size_t *ends, size_t count,
                             const fancy_regex_options *options, fancy_regex_handle *set, fancy_regex_fault *fault);

/* Makes a second handle of the same regex or set, for another thread: DONE, NO_HANDLE, NO_MEMORY. But for DONE `out` keeps what it held. */
uint32_t fancy_regex_again(fancy_regex_handle *handle, fancy_regex_handle *out);

/* Frees what a handle owns. It is empty then. */
void fancy_regex_free(fancy_regex_handle *handle);

/* Writes the text of a fault, and tells its length: DONE, TOO_SHORT; NO_MEMORY, for which the length is 0. */
uint32_t fancy_regex_explain(const fancy_regex_fault *fault, uint8_t *buffer, size_t buffer_len, size_t *wanted);

/* Writes the name that a pattern refers to and that no group has, for FANCY_REGEX_INVALID_GROUP_NAME_BACKREF: it reads the pattern
 * once more. DONE, TOO_SHORT; NONE where it is not refused for that, and NO_MEMORY, for which the length is 0. */
uint32_t fancy_regex_missing_name(const uint8_t *pattern, size_t pattern_len, const fancy_regex_options *options,
                                  uint8_t *buffer, size_t buffer_len, size_t *wanted);

/* ---- What is known of a regex ---- */

/* How many groups there are, with group 0, the whole match. 0 where the handle holds no regex. */
size_t fancy_regex_captures_len(fancy_regex_handle *regex);

/* The number of the last group with a name, which is written for DONE alone. NONE where no group has it, or it is no UTF-8; NO_HANDLE. */
uint32_t fancy_regex_group_number(fancy_regex_handle *regex, const uint8_t *name, size_t name_len, size_t *number);

/* Writes the name of a group, and tells its length: DONE, TOO_SHORT. NONE where it has none or there is no such group, and NO_MEMORY,
 * for which the length is 0; NO_HANDLE, for which nothing is told. */
uint32_t fancy_regex_group_name(fancy_regex_handle *regex, size_t number, uint8_t *buffer, size_t buffer_len, size_t *wanted);

/* ---- Searches: DONE, NONE. NO_HANDLE comes first; then NOT_TEXT, where the request says text and the bytes are none; then NO_PLACE,
 * where they may not be searched as it asks; then NO_MEMORY and the three limits, as the search is refused. ---- */

uint32_t fancy_regex_is_match(fancy_regex_handle *regex, const uint8_t *haystack, size_t haystack_len,
                              const fancy_regex_request *request);

/* `found` is written for DONE alone. */
uint32_t fancy_regex_find(fancy_regex_handle *regex, const uint8_t *haystack, size_t haystack_len,
                          const fancy_regex_request *request, fancy_regex_span *found);

/* Writes `count` groups, from group 0 on, for DONE alone. A group that took no part, or that there is not, is absent. */
uint32_t fancy_regex_captures(fancy_regex_handle *regex, const uint8_t *haystack, size_t haystack_len,
                              const fancy_regex_request *request, fancy_regex_span *groups, size_t count);

/* ---- Lists. The next search starts at the end of the match before; after an empty match at the place after it; an empty match
 * at the end of the match before is passed over. ---- */

/* Writes the next matches of a list, at most `count`, and tells how many. DONE: all of `count` are written, there may be more, and
 * `request` says where the next call goes on, with the same regex and haystack. NONE: the list has ended. NO_MEMORY and the three limits
 * end it too. In each of these cases the matches before are written. NOT_TEXT and NO_PLACE leave `request` as it was. */
uint32_t fancy_regex_find_all(fancy_regex_handle *regex, const uint8_t *haystack, size_t haystack_len,
                              fancy_regex_request *request, fancy_regex_span *spans, size_t count, size_t *written);

/* The same with groups: fancy_regex_captures_len spans for each match. `count` is the number of spans that there is room for, and
 * `written` the number of matches. */
uint32_t fancy_regex_captures_all(fancy_regex_handle *regex, const uint8_t *haystack, size_t haystack_len,
                                  fancy_regex_request *request, fancy_regex_span *groups, size_t count, size_t *written);

/* ---- Lists under way: a handle owns a copy of the haystack, and shares the regex or the set, which may be freed before it. Its items
 * are found some at a time, at most 512. It is not for fancy_regex_again. ---- */

/* Begins a list of matches, with their groups where `has_groups` is not 0. */
uint32_t fancy_regex_matches_new(fancy_regex_handle *regex, const uint8_t *haystack, size_t haystack_len,
                                 const fancy_regex_request *request, uint32_t has_groups, fancy_regex_handle *list);

/* Writes `count` groups of the next match, as fancy_regex_captures does, or group 0 alone and others as absent. NONE: the list has
 * ended. After NO_MEMORY the list may be asked again; another refusal ends it. For all but DONE nothing is written. */
uint32_t fancy_regex_next(fancy_regex_handle *list, fancy_regex_span *groups, size_t count);

/* Begins a list of tokens. */
uint32_t fancy_regex_tokens_new(fancy_regex_handle *set, const uint8_t *haystack, size_t haystack_len,
                                const fancy_regex_request *request, fancy_regex_handle *list);

/* Writes the next token. NONE: the text has ended. UNMATCHED: no pattern gives a token at a place, which is written as the start and the
 * end of `token`; then the list has ended. */
uint32_t fancy_regex_next_token(fancy_regex_handle *list, fancy_regex_member *token);

/* ---- New texts: DONE, TOO_SHORT with the length that is wanted. NO_HANDLE comes first; then NOT_TEXT, where a text or a replacement is no
 * UTF-8; then NO_PLACE, where the regex reads bytes and the text is not ASCII; then NO_MEMORY and the three limits. For all these the
 * length is 0, but for NO_HANDLE, for which nothing is told. ---- */

/* Writes the text with its matches replaced. NONE: nothing matches, nothing is written, and the length is 0. */
uint32_t fancy_regex_replace(fancy_regex_handle *regex, const uint8_t *text, size_t text_len, const fancy_regex_replacing *how,
                             uint8_t *buffer, size_t buffer_len, size_t *wanted);

/* Writes where the pieces between the matches stand, at most `limit` pieces, whose last one is the rest of the text; (size_t)-1
 * for all pieces. Tells how many there are. Where there is room for fewer, the first ones are written. */
uint32_t fancy_regex_split(fancy_regex_handle *regex, const uint8_t *text, size_t text_len, size_t limit,
                           fancy_regex_span *pieces, size_t count, size_t *wanted);

/* Writes a pattern that finds this text and nothing else: DONE, TOO_SHORT. NOT_TEXT and NO_MEMORY, for which the length is 0. */
uint32_t fancy_regex_escape(const uint8_t *text, size_t text_len, uint8_t *buffer, size_t buffer_len, size_t *wanted);

/* ---- Sets ---- */

/* How many patterns a set has. 0 where the handle holds no set. */
size_t fancy_regex_set_len(fancy_regex_handle *set);

/* The matches at the first position where a pattern of the set matches, in the order of the patterns; tells how many there are.
 * Where there is room for fewer, the first ones are written: TOO_SHORT. */
uint32_t fancy_regex_set_find(fancy_regex_handle *set, const uint8_t *haystack, size_t haystack_len,
                              const fancy_regex_request *request, fancy_regex_member *members, size_t count, size_t *wanted);

/* Writes the next tokens, at most `count`, and tells how many: at each place the longest match that starts there. DONE: all of
 * `count` are written, and `request` says where the next one starts. NONE: the text has ended. UNMATCHED: no pattern gives a token where
 * `request` starts now. */
uint32_t fancy_regex_tokens(fancy_regex_handle *set, const uint8_t *haystack, size_t haystack_len, fancy_regex_request *request,
                            fancy_regex_member *tokens, size_t count, size_t *written);

#ifdef __cplusplus
}
#endif

#endif
