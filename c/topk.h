/* topk as a library: top-k queries over ranked lists, each answer with its certificate, and the judge of certificates.
 *
 * A text comes out: the certificate of an answer, or why there is none. What goes in is a bundle, which is lists and one query in a text:
 *
 *     list price
 *     7,900
 *     3,850
 *     list rating
 *     3,70
 *     7,65
 *     query top 1 by sum(price,rating) using ta
 *
 * or, for topk_answer_rows, the same lists as arrays, and the query alone.
 *
 * The calls are proved: what they say of the status and of the text below holds of every call whose caller keeps the
 * duties below, and they read and write nothing else. docs/LIBRARY.md of the repository tells more, docs/topk.1 has the formats.
 *
 * What a caller owes:
 *
 * - No pointer is null, even where its length is 0. Any byte serves there, and any array of lists or rows, aligned as such.
 * - `bundle`, `certificate` and `query` point to `.._length` bytes, `lists` to `lists_length` lists, a list's `name` to `name_length` bytes, and its `rows` to
 *   `rows_length` rows. Nobody writes any of these during the call; they may overlap one another. `out` points to `out_length`
 *   bytes, each of which has some value, and `written` to a number; nobody else reads or writes these during the call, and the two overlap
 *   nothing.
 * - No length is 2^63 or more, and no array has 2^63 bytes or more.
 * - No call is made from a signal handler, nor in the child of a fork of a process with several threads before it has called exec.
 *
 * What a caller needn't do: the library keeps nothing between calls, starts nothing and has nothing to be closed or freed.
 * Calls may run on any number of threads at once. All memory stays its owner's; what a call takes for itself, by malloc, it has given back
 * when it returns.
 */
#ifndef TOPK_H
#define TOPK_H

#include <stddef.h>
#include <stdint.h>

/* The version of this header and of the library beside it. */
#define TOPK_VERSION "1.0.0"

#ifdef __cplusplus
extern "C" {
#endif

/* How a call ended: the exit status of the program's command over the same bytes. No other number comes. */
enum topk_status {
    /* The query was answered, and the text is its certificate; or the accesses fix the answer, and the text is "fixes\n". */
    TOPK_DONE = 0,
    /* The query was refused, and the text is the line that says why; or the accesses don't fix the answer, and the text has a counterexample,
     * or the bytes are a certificate that isn't judged or none, and the text is the line that says why. */
    TOPK_REFUSED = 1,
    /* Memory was refused. There is no text: *written is 0. */
    TOPK_MEMORY = 8,
    /* The bytes are more than TOPK_MAX_INPUT. There is no text: *written is 0. topk_answer_rows never ends so. */
    TOPK_LONG = 9,
    /* The bytes, or the lists and the query, are no bundle, and the text is the line that says with which line no bundle begins.
     * topk_judge never ends so. */
    TOPK_NO_BUNDLE = 10
};

/* The most bytes of a bundle or a certificate. */
#define TOPK_MAX_INPUT 134217728u

/* Answers the query of a bundle.
 *
 * *written gets the length of the text, always. Where it is at most out_length, out begins with the whole text, and the bytes behind
 * it are as they were; where it is more, out is as it was, and a second call with so much room gives the text. The text has no zero at
 * its end. The status is the same in both cases.
 */
uint8_t topk_answer(const uint8_t *bundle, size_t bundle_length, uint8_t *out, size_t out_length, size_t *written);

/* A row of a list: an object, and its grade in the list, at most 1000000. */
struct topk_row {
    uint32_t object;
    uint32_t grade;
};

/* A list under its name: a letter, and at most 31 letters, digits and underscores, with no zero at the end. Its rows stand in their order,
 * the greatest grade first; rows of equal grades in any order. */
struct topk_list {
    const uint8_t *name;
    size_t name_length;
    const struct topk_row *rows;
    size_t rows_length;
};

/* Answers a query over lists: all that topk_answer does for the bundle that they print as, of each list the line "list NAME" and a line
 * "OBJECT,GRADE" for each row, and at the end the line "query QUERY". No such text is made, so its length has no limit. Where the lists and
 * the query make no bundle (a row out of order, a grade too high, an object that comes twice or not in all lists, a name that is none or comes
 * twice, no list or more than 64, no row or more than 200000, a query of two lines), the text names the first of these lines
 * with which none begins. The rest is as above.
 */
uint8_t topk_answer_rows(const struct topk_list *lists, size_t lists_length, const uint8_t *query, size_t query_length, uint8_t *out,
                         size_t out_length, size_t *written);

/* Judges a certificate, as topk_answer or the program wrote it: whether its accesses fix its answer. The rest is as above. */
uint8_t topk_judge(const uint8_t *certificate, size_t certificate_length, uint8_t *out, size_t out_length, size_t *written);

#ifdef __cplusplus
}
#endif

#endif
