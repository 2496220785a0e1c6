/* A call that is handed on, as one run of bytes: how many bytes follow; the
 * function's number; the row; each buffer in the order of odl.h (whether it is
 * NULL, whether it is lent, its length, its bytes). A book is a buffer that is
 * lent. And its answer: the code, two results, and the bytes of each buffer that
 * was lent. Numbers are eight bytes, as both processors have them: low byte
 * first. */
#ifndef CALLS_H
#define CALLS_H

enum call { CALL_READ = 1, CALL_WRITE, CALL_TEXT, CALL_FIND, CALL_NAME, CALL_TAKE };

#define MOST_BUFFERS 3
#define ANSWER_HEAD (1 + 8 + 8)

/* How many buffers a call has. */
static const int buffers_of[] = {0, 2, 3, 3, 3, 2, 3};

#endif
