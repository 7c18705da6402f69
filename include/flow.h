/* flow: a workflow engine whose answers are proved, as a library.
 *
 * Bytes in, bytes out. The library keeps nothing: no file, no thread, no state between two calls. Any number of threads may call at once.
 *
 * Link with -lflow, or with the archive libflow.a alone; it needs the C library and nothing else.
 *
 * What holds of every call
 *   - Bytes are given as a pointer and a length. No pointer may be NULL, not even for no bytes: give "" and 0.
 *   - `room` is memory for the answer, `room_length` bytes of it. `*length` is set to the length of the answer.
 *   - Where the room is large enough the answer stands at its front, with no zero byte behind it, and the rest of the room is as it was.
 *     Where it is not, nothing is written, and the status is FLOW_NO_ROOM: call again with a room of *length bytes.
 *   - `room`, `length` and what is given do not overlap.
 *   - Do not call from a signal handler, nor in a forked child of a process with threads before it calls exec.
 */
#ifndef FLOW_H
#define FLOW_H

#include <stddef.h>
#include <stdint.h>

#ifdef __cplusplus
extern "C" {
#endif

/* The modes of flow_answer: those of the program `flow` that start no threads and read an input. */
enum {
    FLOW_CHECK = 0,  /* whether any order of events meets the constraints */
    FLOW_VERIFY = 1, /* whether a property holds in every order of events */
    FLOW_TRACE = 2,  /* whether a journal is an execution */
    FLOW_DRIVE = 3,  /* a session, with its report */
    FLOW_DUTY = 4    /* a session of users under a policy, with its report */
};

/* Statuses of both calls. */
enum {
    FLOW_OK = 0,        /* flow_answer: as `flow` ends with 0. flow_step: the line was taken, or shows something. */
    FLOW_NO = 1,        /* flow_answer: as `flow` ends with 1. flow_step: the run or a duty refuses the line. */
    FLOW_CALL = 2,      /* flow_answer: no such mode, or steps are 0 or more than 1,000,000. The answer is empty. */
    FLOW_INPUT = 3,     /* the text, what follows it, the policy or the line is refused; the answer says why. */
    FLOW_MEMORY = 6,    /* there was not enough memory. The answer is empty. */
    FLOW_SPENT = 7,     /* flow_answer: the history of the session is as long as `steps`. */
    FLOW_NO_ROOM = 9,   /* the room is too small; *length says how much is needed. */
    FLOW_HISTORY = 10   /* flow_step: the history is not legal; the answer has the number of the first record that is not. */
};

/* The greatest number of steps, and the one that the program takes where it is given none. */
#define FLOW_MOST_STEPS 1000000
#define FLOW_USUAL_STEPS 65536

/* How many bytes an entry of a history has. */
#define FLOW_RECORD 16

/* What `flow` writes to an input, byte by byte, and its status.
 *
 *   mode     one of the modes above
 *   steps    the greatest length of a history (drive, duty), from 1 to FLOW_MOST_STEPS
 *   input    what the program reads: the text of a workflow, a line `%%`, and what the mode asks for; at most 1,048,576 bytes
 */
uint32_t flow_answer(uint32_t mode, uint32_t steps,
                     const uint8_t *input, size_t input_length,
                     uint8_t *room, size_t room_length, size_t *length);

/* One step of a case whose history the caller keeps.
 *
 *   text     the text of the workflow, at most 1,048,576 bytes
 *   policy   the text of a policy, as long at most; none where it is empty
 *   history  what happened so far: the records that earlier steps of the case wrote, one after another, and nothing else
 *   by       the number of whoever calls. Under a policy users count from 1, in the order in which they first stand there
 *   line     one command of a session: `take LEAF`, `do LEAF`, `done CLAIM`, `fail CLAIM`, `rewind`, `commit`;
 *            or a look: `next`, `enabled`, `journal`, `facts`
 *
 * The answer is one object of JSON, in ASCII, without a line feed:
 *
 *   0   {"ok":true,"entries":["01.."],"reply":"claim 1 epoch 0 attempt 1 pack","next":[1]}
 *   1   {"ok":false,"refused":"not-enabled","reply":"refused not-enabled 2","entries":[]}
 *   3   {"ok":false,"refused":"input","reply":"refused: expected name 6","entries":[]}
 *   10  {"ok":false,"refused":"history","reply":"refused: foreign 4","record":4,"entries":[]}
 *
 * `entries` has no record or one, in 32 hexadecimal digits: what is to be stored behind the history before the step counts. A step that is
 * refused has one where a result comes too late (`"refused":"late"`). `next` has the leaves that may be begun after the step. Whoever stores
 * exactly the records that come has a legal history at each moment, whatever is asked.
 */
uint32_t flow_step(const uint8_t *text, size_t text_length,
                   const uint8_t *policy, size_t policy_length,
                   const uint8_t *history, size_t history_length,
                   uint32_t by,
                   const uint8_t *line, size_t line_length,
                   uint8_t *room, size_t room_length, size_t *length);

#ifdef __cplusplus
}
#endif

#endif
