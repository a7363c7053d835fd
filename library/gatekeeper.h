/* The gatekeeper's calls for C (crates/gatekeeper_c). Every call but that for a length answers document 01's number.
 *
 * The calls are proved for any bytes and any numbers. What follows is asked of the caller, and nothing checks it here:
 *
 * - Each pointer is valid for its length: scheme and network for that many bytes, output for that many uint16_t, questions for
 *   that many gatekeeper_question (count is their length in views, and no pointer), count for one size_t, degree for one
 *   uint16_t. A length counts elements, not bytes. With length 0 the pointer may be NULL; count and degree may not.
 * - What a call may write (network in fresh, event and set; output and count in list and suggest; degree in degree; questions
 *   in views) is writable.
 * - output and degree are aligned for uint16_t, count for size_t, and questions for gatekeeper_question.
 * - What a call may write overlaps nothing else that is lent to it. What it only reads may be the same.
 * - While a call runs, no other thread writes anything lent to it, or reads a network, an output, a count, a degree or
 *   questions that it may write: one thread at a time for each network. The library itself keeps nothing between calls.
 *
 * A call needs less than 20 kilobytes of stack, allocates nothing and calls nothing outside the library but memset, the one
 * symbol that the archive leaves undefined: given that, it links with -nostdlib. */
#ifndef GATEKEEPER_H
#define GATEKEEPER_H

#include <stddef.h>
#include <stdint.h>

#ifdef __cplusplus
extern "C" {
#endif

/* Document 01's answers. A call gives the first refusal that applies. 14 and 15 are answers to logs: no call gives them. views
 * itself gives 0 to 5, and each of its questions gets what view gives: 0, 6, 7, 9 or 11. */
enum gatekeeper_answer {
    GATEKEEPER_GRANTED = 0,           /* granted */
    GATEKEEPER_SCHEME_RECORDS = 1,    /* a record of the scheme is cut, of another kind or length, or bytes follow the last */
    GATEKEEPER_SCHEME_COUNTS = 2,     /* a count of the scheme's head is outside its range */
    GATEKEEPER_SCHEME_BYTES = 3,      /* a byte inside the scheme's kinds 2 to 6 is off */
    GATEKEEPER_SCHEME_STRANGERS = 4,  /* state 0 makes friends, or the lowest search policy admits strangers */
    GATEKEEPER_NETWORK_BYTES = 5,     /* the network's length is off, or, but in fresh, one of its bytes */
    GATEKEEPER_NO_MEMBER = 6,         /* v or u, or a question's viewer or owner, is no member */
    GATEKEEPER_NO_RESOURCE = 7,       /* there is no such primitive (event), resource (set) or item (view, a question) */
    GATEKEEPER_SAME_MEMBER = 8,       /* event: v is u */
    GATEKEEPER_NOT_FOUND = 9,         /* event, find, degree, list, view, a question: v does not find u */
    GATEKEEPER_NO_NEXT_STATE = 10,    /* event: the primitive is undefined in the pair's state, for v's side */
    GATEKEEPER_NOT_ADMITTED = 11,     /* event, list, view, a question: u's setting does not admit v */
    GATEKEEPER_NOT_OFFERED = 12,      /* set: the policy may not be chosen for the resource */
    GATEKEEPER_OUTPUT_SHORT = 13      /* the output has fewer places than there are members (list), or than c (suggest) */
};

/* The scheme check: 0 to 4. A scheme has five records, and may have a sixth that says which members are groups (document 02):
 * without it all are persons. */
uint8_t gatekeeper_check(const uint8_t *scheme, size_t scheme_length);

/* How many bytes a network has under an accepted scheme; 0 under any other. */
size_t gatekeeper_network_length(const uint8_t *scheme, size_t scheme_length);

/* Makes a network fresh: 0 to 5. Its old bytes are not read, but they must be there. */
uint8_t gatekeeper_fresh(const uint8_t *scheme, size_t scheme_length, uint8_t *network, size_t network_length);

/* Member v uses primitive a towards member u. Only a grant writes: the state of their pair. */
uint8_t gatekeeper_event(const uint8_t *scheme, size_t scheme_length, uint8_t *network, size_t network_length,
                         size_t v, size_t u, size_t a);

/* Member u chooses policy p for resource r. Only a grant writes: that setting. */
uint8_t gatekeeper_set(const uint8_t *scheme, size_t scheme_length, uint8_t *network, size_t network_length,
                       size_t u, size_t r, size_t p);

/* Whether member v finds member u. */
uint8_t gatekeeper_find(const uint8_t *scheme, size_t scheme_length, const uint8_t *network, size_t network_length,
                        size_t v, size_t u);

/* The least number of friendships between members v and u, 0 to 255: 0 where v is u. It makes the checks of find. A grant
 * writes the number to degree, or GATEKEEPER_DEGREE_NONE where no walk of friendships joins the two, since search can find
 * such a member. A refusal leaves degree alone. */
#define GATEKEEPER_DEGREE_NONE 65535
uint8_t gatekeeper_degree(const uint8_t *scheme, size_t scheme_length, const uint8_t *network, size_t network_length,
                          size_t v, size_t u, uint16_t *degree);

/* Member v asks for u's friends. A grant writes them in rising order at the front of output, and their number to count;
 * the places behind them stay. A refusal writes neither. n places are always enough. */
uint8_t gatekeeper_list(const uint8_t *scheme, size_t scheme_length, const uint8_t *network, size_t network_length,
                        size_t v, size_t u, uint16_t *output, size_t output_length, size_t *count);

/* Member v asks for c members that it might know: those that v finds, who are neither v nor v's friends and share at least one
 * friend with v that is no group, most such friends first, among equals the lower member number. They may be groups. A grant
 * writes the first c of them, or all if there are fewer, at the front of output, and their number to count; the places behind
 * them stay. A refusal writes neither. There must be c places even where fewer are written. */
uint8_t gatekeeper_suggest(const uint8_t *scheme, size_t scheme_length, const uint8_t *network, size_t network_length,
                           size_t v, size_t c, uint16_t *output, size_t output_length, size_t *count);

/* Member v asks for item o of member u. */
uint8_t gatekeeper_view(const uint8_t *scheme, size_t scheme_length, const uint8_t *network, size_t network_length,
                        size_t v, size_t u, size_t o);

/* A question of views: viewer, owner and item are v, u and o of a view. */
typedef struct {
    size_t viewer, owner, item;
    uint8_t answer;
} gatekeeper_question;

/* Many views in one call. What answer held before is not read. With 0 each question has its answer, the number that view gives
 * to it, and its other fields are as they were. 1 to 5 refuse the scheme or the network for the whole list, the empty one too,
 * and leave every answer as it was: look at the number of the call first. Questions of one viewer that stand side by side
 * share what is computed for it. */
uint8_t gatekeeper_views(const uint8_t *scheme, size_t scheme_length, const uint8_t *network, size_t network_length,
                         gatekeeper_question *questions, size_t count);

#ifdef __cplusplus
}
#endif

#endif
