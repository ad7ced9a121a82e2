/* sagas.h: the C interface of libsagas.
 *
 * Overview
 *
 *   The library plans how sagas end, verifies plans, audits logs, and draws definitions and cases.
 *   It also runs sagas inside your program: see "Coordinators" below. Use it from C, or from any
 *   language that can call C. Link with -lsagas, or with libsagas.a.
 *
 *   The texts, input and output, are those of the program `sagas`. docs/FORMATS.md describes each
 *   format, and docs/reference/glossary.md defines the terms. docs/ERRORS.md lists each error, with
 *   its meaning and what to do.
 *
 *     size_t used;
 *     static uint8_t buffer[65536];
 *     uint32_t status = sagas_plan(definition, definition_size, saga_case, saga_case_size,
 *                                  buffer, sizeof buffer, &used);
 *     if (status == SAGAS_OK) fwrite(buffer, 1, used, stdout);
 *
 * Input texts
 *
 *   The caller passes an input text as a pointer and a size in bytes. The text may contain any
 *   bytes. It has no terminating NUL: a NUL byte is a byte of the text. The pointer may be NULL
 *   only if the size is 0. The library reads a text only during the call. The caller owns it.
 *
 *     Parameter       Format                                             Maximum size
 *
 *     definition      TOML                                               SAGAS_MAX_DEFINITION
 *     saga_case       JSON: the state of each step                       SAGAS_MAX_CERTIFICATE
 *     answer          JSON: a plan with its certificate, or a chain      SAGAS_MAX_CERTIFICATE
 *     log             JSON: one line for each event                      SAGAS_MAX_LOG
 *
 *   If several definitions are in one text, the maximum applies to each definition. For a longer
 *   text, the call returns SAGAS_INVALID, and the output line ends with `too-long`.
 *
 * Output buffer
 *
 *   The caller owns `buffer`, which has `buffer_size` bytes. It may be NULL if `buffer_size` is 0.
 *   The call writes the output text to the start of the buffer, without a terminating NUL, and the
 *   size of the text to *used. The rest of the buffer is unchanged. `used` must not be NULL.
 *
 * Status codes
 *
 *   Each call except sagas_close returns one of these values. The comment of a call lists only what
 *   is specific to it.
 *
 *     SAGAS_OK                The output is what the program prints with the exit status 0,
 *                             including its line feed.
 *     SAGAS_REJECTED          The output is what the program prints with the exit status 1: a
 *                             line that begins with "no", or a chain. A chain proves that no plan
 *                             is feasible. The calls of a coordinator return this status for other
 *                             reasons, which their comments list.
 *     SAGAS_INVALID           An input text is not valid. The output is the line that the program
 *                             writes to standard error.
 *     SAGAS_NO_MEMORY         malloc or realloc returned NULL. *used is 0, and the buffer is
 *                             unchanged. The same call may succeed later.
 *     SAGAS_BUFFER_TOO_SMALL  The output does not fit. *used is its size, and the buffer is
 *                             unchanged. Call again with a buffer of that size.
 *
 *   The same texts always give the same status and the same output, byte for byte, on every
 *   machine. The exceptions are SAGAS_NO_MEMORY, and SAGAS_BUFFER_TOO_SMALL for a smaller buffer.
 *
 * Threads
 *
 *   Any number of threads may call at the same time. Only one thread at a time may call with the
 *   same coordinator. Different coordinators share nothing.
 *
 *   A call starts no thread, takes no lock and uses no signal. It opens no file and prints nothing.
 *   Do not call from a signal handler.
 *
 * Memory
 *
 *   A call allocates memory with malloc and realloc. It frees all of it before it returns, and
 *   keeps no state. Only an open coordinator keeps memory, from sagas_open to sagas_close. If you
 *   compile sagas.c instead, its first comment describes how it uses memory.
 *
 *   `buffer` and *used must not overlap each other, an input text or `spans`. During the call, no
 *   other thread may write to an input text or to `spans`, or access `buffer` or *used. The rules
 *   for *used also apply to *coordinator, *log_used and *lines_used.
 *
 * Stack
 *
 *   A call needs 256 KiB of free stack.
 *
 * Time
 *
 *   The time of a verification or an audit grows in proportion to the size of the texts. sagas_plan
 *   takes some microseconds for a saga of 4 steps. It takes less than a tenth of a second for 1,024
 *   steps, which is the maximum of a definition.
 */
#ifndef SAGAS_H
#define SAGAS_H

#include <stddef.h>
#include <stdint.h>

#ifdef __cplusplus
extern "C" {
#endif

enum sagas_status {
    SAGAS_OK = 0,
    SAGAS_REJECTED = 1,
    SAGAS_INVALID = 3,
    SAGAS_NO_MEMORY = 4,
    SAGAS_BUFFER_TOO_SMALL = 5
};

/* The maximum size of each text in bytes, and the maximum number of definitions of an audit or of a
 * coordinator. */
#define SAGAS_MAX_DEFINITION 1048576
#define SAGAS_MAX_CERTIFICATE 67108864
#define SAGAS_MAX_LOG 671088640
#define SAGAS_MAX_DEFINITIONS 1000
#define SAGAS_MAX_REQUEST 65536

/* Makes a minimum-cost plan for a saga in the state of a case, as `sagas plan` does.
 *
 *   definition, saga_case   input texts
 *   buffer, used            output
 *
 * SAGAS_OK        The plan, with a certificate that proves that no feasible plan costs less.
 * SAGAS_REJECTED  A chain of steps. It proves that no plan is feasible.
 *
 * sagas_check returns SAGAS_OK for both. */
uint32_t sagas_plan(const uint8_t *definition, size_t definition_size, const uint8_t *saga_case, size_t saga_case_size, uint8_t *buffer,
                    size_t buffer_size, size_t *used);

/* Verifies an answer, from any source, as `sagas check` does.
 *
 *   definition, saga_case, answer   input texts
 *   buffer, used                    output
 *
 * SAGAS_OK        "least N": the plan is correct, it costs N, and no feasible plan costs less. Or
 *                 "blocked": the chain is correct.
 * SAGAS_REJECTED  "no FAULT": the answer is not correct. */
uint32_t sagas_check(const uint8_t *definition, size_t definition_size, const uint8_t *saga_case, size_t saga_case_size,
                     const uint8_t *answer, size_t answer_size, uint8_t *buffer, size_t buffer_size, size_t *used);

/* Audits the log of sagas of one definition, as `sagas audit` does. The audit runs on the calling
 * thread.
 *
 *   log, definition   input texts
 *   buffer, used      output
 *
 * SAGAS_OK        "yes sagas A ended B stuck C events D".
 * SAGAS_REJECTED  "no P REASON": the event with the index P, counted from 0, is the first that was
 *                 not allowed. */
uint32_t sagas_audit(const uint8_t *log, size_t log_size, const uint8_t *definition, size_t definition_size, uint8_t *buffer,
                     size_t buffer_size, size_t *used);

/* The range of a definition in a text that has several definitions. The definition begins at the
 * byte with the index `start`, counted from 0, and ends before the byte with the index `end`. The
 * library ignores the part of a range that is beyond the end of the text. */
struct sagas_span {
    size_t start;
    size_t end;
};

/* Audits a log of sagas of several definitions, as sagas_audit does for one.
 *
 *   log, definitions   input texts: all definitions are in one text
 *   spans              the range of each definition, in the order in which the log numbers them;
 *                      the ranges may be anywhere in the text
 *   span_count         the number of definitions
 *   buffer, used       output
 *
 * `spans` may be NULL if `span_count` is 0. If `span_count` is more than SAGAS_MAX_DEFINITIONS, the
 * call returns SAGAS_INVALID. */
uint32_t sagas_audit_all(const uint8_t *log, size_t log_size, const uint8_t *definitions, size_t definitions_size,
                         const struct sagas_span *spans, size_t span_count, uint8_t *buffer, size_t buffer_size, size_t *used);

/* Draws a definition, as `sagas draw` does.
 *
 *   definition     input text
 *   buffer, used   output
 *
 * SAGAS_OK        A drawing in the DOT language of Graphviz. */
uint32_t sagas_draw(const uint8_t *definition, size_t definition_size, uint8_t *buffer, size_t buffer_size, size_t *used);

/* Draws a definition with the states of a case.
 *
 *   definition, saga_case   input texts
 *   buffer, used            output
 *
 * SAGAS_OK        As of sagas_draw. */
uint32_t sagas_draw_case(const uint8_t *definition, size_t definition_size, const uint8_t *saga_case, size_t saga_case_size, uint8_t *buffer,
                         size_t buffer_size, size_t *used);

/* Draws a case with the marks of an answer.
 *
 *   definition, saga_case, answer   input texts
 *   buffer, used                    output
 *
 * SAGAS_OK        As of sagas_draw.
 * SAGAS_REJECTED  "no FAULT": the answer is not correct, so it is not drawn. */
uint32_t sagas_draw_answer(const uint8_t *definition, size_t definition_size, const uint8_t *saga_case, size_t saga_case_size,
                           const uint8_t *answer, size_t answer_size, uint8_t *buffer, size_t buffer_size, size_t *used);

/* Coordinators
 *
 *   A coordinator runs sagas of your definitions. It answers requests, one line of JSON each, as
 *   `sagas drive --lines` does. docs/reference/formats/requests.md describes the requests and the
 *   replies, and docs/reference/formats/log.md the lines of the log.
 *
 *   A coordinator writes no file: the caller stores the log. sagas_open reads the text of the log.
 *   Each answer has the lines to append to it.
 *
 *     struct sagas_coordinator it = SAGAS_CLOSED;
 *     size_t used, log_used, lines_used;
 *     status = sagas_open(&it, definition, definition_size, &span, 1, log, log_size, &log_used,
 *                         buffer, sizeof buffer, &used);
 *     (truncate the log to log_used bytes, append the `used` bytes of the buffer, and sync it)
 *     status = sagas_answer(&it, request, request_size, buffer, sizeof buffer, &used, &lines_used);
 *     (append the first lines_used bytes of the buffer to the log, and sync it;
 *      then act on the reply, which is the rest)
 *     sagas_close(&it);
 *
 *   The definitions are those that sagas_open received. The coordinator refuses the request
 *   `define` with {"refused":"fixed-shelf"}. To add a definition, close the coordinator. Then open
 *   it from the log, with more definitions.
 *
 *   Initialize a coordinator with SAGAS_CLOSED, or with zeros, before its first call. Its fields
 *   belong to the library: do not change or copy them while it is open. You may pass it to another
 *   thread if a lock, or the start or join of a thread, orders the calls. */
struct sagas_coordinator {
    void *session;
    void *definitions;
    uint32_t open;
};
#define SAGAS_CLOSED { 0, 0, 0 }

/* Opens a coordinator over definitions and the text of a log.
 *
 *   coordinator   a closed coordinator
 *   definitions   input text: all definitions
 *   spans         the range of each definition, in the order in which the log numbers them
 *   span_count    the number of definitions, at most SAGAS_MAX_DEFINITIONS
 *   log           input text: empty for a new log
 *   log_used      output: the number of bytes of the log that the coordinator continues from
 *   buffer, used  output: the lines to append after these bytes
 *
 * `spans` may be NULL if `span_count` is 0.
 *
 * Truncate the log to *log_used bytes, and append the output. The truncated bytes are a line that
 * was written only in part, or they start plans, which the coordinator makes again. The output is
 * the header of a new log, and an event for each other plan that was started and is dropped.
 *
 * SAGAS_OK                The coordinator is open.
 * SAGAS_INVALID           The definitions or the log are not valid. The output is the line that the
 *                         program writes to standard error.
 * SAGAS_REJECTED          The coordinator was open before, and is unchanged. *used is 0.
 * SAGAS_NO_MEMORY         As of every call. Call again.
 * SAGAS_BUFFER_TOO_SMALL  As of every call. Call again.
 *
 * With every status except SAGAS_OK, *log_used is 0. With every status except SAGAS_OK and
 * SAGAS_REJECTED, the coordinator is closed. */
uint32_t sagas_open(struct sagas_coordinator *coordinator, const uint8_t *definitions, size_t definitions_size, const struct sagas_span *spans,
                    size_t span_count, const uint8_t *log, size_t log_size, size_t *log_used, uint8_t *buffer, size_t buffer_size, size_t *used);

/* Answers a request.
 *
 *   coordinator   an open coordinator that keeps no reply
 *   request       input text: one line of JSON, at most SAGAS_MAX_REQUEST bytes, without a line
 *                 feed at its end
 *   buffer, used  output: the log lines of the request, then the reply
 *   lines_used    output: the size of the log lines in bytes, which may be 0
 *
 * SAGAS_OK                The output has the log lines, if there are any, and the reply, which is
 *                         one line. A reply with the key "refused" or "fault" means that nothing
 *                         happened, and there are no log lines. A lack of memory is such a fault:
 *                         {"fault":"out-of-memory"}.
 * SAGAS_BUFFER_TOO_SMALL  The request was executed, and the coordinator keeps the log lines and the
 *                         reply. *used is their size, and the buffer is unchanged. Do not send the
 *                         request again: get them with sagas_reply.
 * SAGAS_REJECTED          The coordinator is closed, or it keeps a reply. The request was not
 *                         executed. *used and *lines_used are 0. */
uint32_t sagas_answer(struct sagas_coordinator *coordinator, const uint8_t *request, size_t request_size, uint8_t *buffer, size_t buffer_size,
                      size_t *used, size_t *lines_used);

/* Returns the log lines and the reply that the coordinator keeps because a buffer was too small.
 * It executes no request.
 *
 *   coordinator   an open coordinator that keeps a reply
 *   buffer, used  output: as of sagas_answer
 *   lines_used    output: as of sagas_answer
 *
 * SAGAS_OK                As of sagas_answer. The coordinator no longer keeps them.
 * SAGAS_BUFFER_TOO_SMALL  The coordinator still keeps them. *used is their size.
 * SAGAS_REJECTED          The coordinator is closed, or it keeps no reply. *used and *lines_used
 *                         are 0. */
uint32_t sagas_reply(struct sagas_coordinator *coordinator, uint8_t *buffer, size_t buffer_size, size_t *used, size_t *lines_used);

/* Closes a coordinator, and frees all its memory, with any reply that it keeps. You may open it
 * again. If the coordinator is closed, the call does nothing. */
void sagas_close(struct sagas_coordinator *coordinator);

#ifdef __cplusplus
}
#endif

#endif
