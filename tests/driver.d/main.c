/* The driver: one way to ask the library anything. It reads one JSON object a line from standard input, and answers one
 * a line, in order, until the input ends. It adds nothing of its own: no check, no default, no repair.
 *
 * An object has the operation's name in "op" and its fields. Bytes are lower-case hexadecimal; those of a request may
 * also be {"zeros": n}, so many zeros. An absent field is absent; fields that the operation does not have are not
 * looked at. The answer has the library's number in "no"; after a refusal nothing else but "place", of the readers
 * `header`, `dict`, `lookup`, `open`, `steps` (its start), `inner` and `attachment`, and "touched": true, if a lent
 * byte, count or figure is not as it was. After a success "touched" says that bytes behind those due have changed, or
 * that a reader's place is not 0.
 * Outputs are filled with A5 before each call.
 *
 *   op           asks                                           answers on 0
 *   header       data                                           minor, cipher, length, seed, nonce, kdf, kdf_span,
 *                                                               custom_span or null
 *   list         data                                           text; an R line too
 *   dict         data
 *   lookup       data, name                                     found (true or false); where found: at, size, value
 *   composite    password, keyfile, prehash: each may be absent key
 *   rounds       composite, S, R, helpings [n, ..]              helpings [[done in all, halves], ..], T or null, T_no
 *   helpings     composite, S, R, helpings [n, ..]              started, states [bytes, ..],
 *                or state, helpings [n, ..]                     told [[done in all, halves], ..], T or null, T_no
 *   argon2       kind, composite, S, I, M, P, lent              T
 *   keys         seed, T, i                                     cipher_key, tag_base, tag_key
 *   hash         alg, parts [bytes, ..]                         feeds [no, ..], digest
 *   tag          key, data                                      tag
 *   open         data, T, lent                                  length, payload
 *   steps        data, T, lents [n, ..], file_lengths {"k": n}, steps [{no, count, bytes}, ..]
 *                numbers {"k": [blocks, place, taken]}
 *   write        minor, cipher, seed, nonce, kdf, custom, T,    length, file
 *                data, lent
 *   inner        data                                           alg, key_span, doc_start,
 *                                                               attachments [[start, length, flags], ..]
 *   attachment   data, index                                    flags, at, length, content
 *   inner_write  alg, key, run, data, lent                      length, payload
 *   stream       alg, key, position, data, lent                 bytes
 *   streams      alg, key, parts [bytes, ..]                    parts [{no, bytes}, ..]
 *   stretches    alg, key, parts [bytes, ..], lents [n, ..]     started, states [bytes, ..], parts [{no, bytes}, ..]
 *                or state, parts [bytes, ..], lents [n, ..]
 *
 * - `kdf` is {kind: "aeskdf", S, R} or {kind: "argon2d" or "argon2id", S, I, M, P}; a header's has V too. A kind that
 *   is asked for may also be a number, which is handed on as it stands.
 * - `lent` of `argon2` counts words. After a success "touched" says too that a word that was used is not zero.
 * - The number of `hash` is 0, and those of its feeds stand in "feeds": the digest is that of the parts accepted. After
 *   a refused feed the state is to be as it was, else "touched".
 * - Each of the `steps` has all three: after a refusal a count of 0 and no bytes, which is document 01's "zero in every
 *   other answer". "touched" stands in the step's own object; after 17 and 19 the state too is to be as it was. A
 *   refused start answers its number and place alone.
 * - Each part of `streams` is lent enough; a refused one has its number alone, and the state is to be as it was, else
 *   "touched" stands in the part's own object. A refused start answers its number alone.
 * - T of `rounds` and `helpings` is asked for once, behind the helpings: T_no is the number of that.
 * - `helpings` and `stretches` are `rounds` and `streams` with the state's bytes: those behind the start, or as they
 *   were handed in, and those behind each helping or part. Their number is 0. They go on behind a refused start, whose
 *   number is `started`; where a state was handed in, that is absent. Absent `lents` are enough for each part.
 * - The cipher of `write` is "aes", "chacha" or the identifier's bytes, of any length. An absent "custom" has no bytes.
 * - An absent "lent", and one past what is surely enough, means large enough.
 *
 * A line that is no JSON object, an unknown operation, and a field that is absent or not of its type (an array of 32
 * bytes, a number in its range) are answered {"error": why}: the library was not asked.
 */
#include "operations.h"

#include <stdio.h>
#include <stdlib.h>
#include <string.h>

static const struct {
    const char *name;
    void (*answer)(request *q);
} operations[] = {
    {"header", op_header},
    {"list", op_list},
    {"dict", op_dict},
    {"lookup", op_lookup},
    {"composite", op_composite},
    {"rounds", op_rounds},
    {"helpings", op_helpings},
    {"argon2", op_argon2},
    {"keys", op_keys},
    {"hash", op_hash},
    {"tag", op_tag},
    {"open", op_open},
    {"steps", op_steps},
    {"write", op_write},
    {"inner", op_inner},
    {"attachment", op_attachment},
    {"inner_write", op_inner_write},
    {"stream", op_stream},
    {"streams", op_streams},
    {"stretches", op_stretches},
};

static void answer_operation(request *q) {
    for (size_t i = 0; i < sizeof operations / sizeof *operations; i++) {
        if (!field_is(q, q->asked, "op", operations[i].name)) continue;
        json_begin(&q->answer, '{');
        operations[i].answer(q);
        if (q->touched) {
            json_key(&q->answer, "touched");
            json_bool(&q->answer, true);
        }
        json_end(&q->answer, '}');
        return;
    }
    request_fault(q, "op: unknown");
}

/* Answers what was read, or leaves the request at its fault. */
static void answer_tree(request *q, const json_tree *tree) {
    if (tree->fault) request_fault(q, "no JSON: %s", tree->fault);
    if (tree->root->kind != JSON_OBJECT) request_fault(q, "not an object");
    q->asked = tree->root;
    answer_operation(q);
}

static void answer_fault(request *q) {
    q->answer.length = 0;
    json_begin(&q->answer, '{');
    json_key(&q->answer, "error");
    json_string(&q->answer, q->fault, strlen(q->fault));
    json_end(&q->answer, '}');
}

/* Answers a line over the text of the last answer. */
static void answer_line(request *q, char *line, size_t n) {
    json_tree tree = json_read(line, n);
    q->touched = false;
    q->answer.length = 0;
    if (setjmp(q->unanswered) == 0)
        answer_tree(q, &tree);
    else
        answer_fault(q);
    request_free(q, NULL);
    json_free(&tree);
}

static bool written(const json_text *answer) {
    bool all = fwrite(answer->at, 1, answer->length, stdout) == answer->length;
    return all && putchar('\n') != EOF && fflush(stdout) == 0;
}

int main(void) {
    static request q;
    char *line = NULL;
    size_t room = 0;
    bool good = true;
    for (ssize_t n; good && (n = getline(&line, &room, stdin)) >= 0;) {
        if (n > 0 && line[n - 1] == '\n') n--;
        answer_line(&q, line, (size_t)n);
        good = written(&q.answer);
    }
    free(line);
    free(q.answer.at);
    return good && !ferror(stdin) ? 0 : 1;
}
