/* Two threads that write at the same time, each in its own buffer; the buffers touch. C99 and C++.
   The sanitizer watches what is compiled here, not the archive: that the archive shares nothing shows in the texts. */

#include "check.h"
#include "larguviet.h"

#include <inttypes.h>
#include <pthread.h>
#include <stdio.h>
#include <string.h>

enum { TASKS = 2, ROOM = 24, CALLS = 20000 };

struct task {
    uint8_t *out;
    uint64_t value, step;
    unsigned faults;
};

static int reads(const uint8_t *out, size_t len, const char *text)
{
    return len == strlen(text) && memcmp(out, text, len) == 0;
}

static void *work(void *given)
{
    static const lgv_options padded = {0, 1, 1, 0, 0, ROOM, 0, 0};
    struct task *task = (struct task *)given;
    unsigned call;

    for (call = 0; call < CALLS; call++) {
        char text[ROOM + 1];
        lgv_answer answer;
        size_t start;

        task->value = task->value * task->step + 1;
        snprintf(text, sizeof text, "0x%022" PRIx64, task->value);
        answer = lgv_write_u64(task->value, LGV_LOWER_HEX, padded, task->out, ROOM);
        task->faults += answer.number != LGV_DONE || !reads(task->out, (size_t)answer.value, text);

        snprintf(text, sizeof text, "%" PRId64, (int64_t)task->value);
        answer = lgv_write_short(64, 1, task->value, LGV_DECIMAL, task->out, ROOM);
        task->faults += answer.number != LGV_DONE || !reads(task->out, (size_t)answer.value, text);

        start = lgv_decimal_end_i64((int64_t)task->value, task->out, ROOM);
        task->faults += !reads(task->out + start, ROOM - start, text);
    }
    return NULL;
}

static void two_at_once(void)
{
    static uint8_t bytes[TASKS * ROOM];
    struct task tasks[TASKS] = {{bytes, 1, 6364136223846793005u, 0}, {bytes + ROOM, 2, 2862933555777941757u, 0}};
    pthread_t threads[TASKS];
    size_t at;

    for (at = 0; at < TASKS; at++)
        check(pthread_create(&threads[at], NULL, work, &tasks[at]) == 0, "thread %zu does not start", at);
    for (at = 0; at < TASKS; at++) {
        check(pthread_join(threads[at], NULL) == 0, "thread %zu does not end", at);
        check(tasks[at].faults == 0, "thread %zu: %u texts are wrong", at, tasks[at].faults);
    }
}

int main(void)
{
    run("two threads, a buffer each", two_at_once);
    return close_tests("threads");
}
