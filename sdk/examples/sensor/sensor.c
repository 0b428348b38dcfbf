/* An instrument interrupts with each sample. One task filters the samples, one reports the filtered levels, and one watches for
 * samples out of range. */
#include "ucos3.h"

/* Tasks and objects by their numbers: the order of their lines in sensor.lines. */
enum { FILTER, REPORT, MONITOR };
enum { SAMPLES, ALARMS };

enum { CHANNELS = 2, SLOTS = 8, SAMPLES_PER_REPORT = 4, GREATEST_VALUE = 1000 };

struct sample {
    CPU_INT32U channel;
    CPU_INT32U value;
};

struct frame {
    CPU_INT32U number;
    CPU_INT32U level[CHANNELS];
};

OS_STACK(filter_stack, 256);
OS_STACK(report_stack, 256);
OS_STACK(monitor_stack, 256);
OS_STACK(sample_stack, 128);

static struct sample slots[SLOTS];
static CPU_INT32U samples_taken;
static CPU_INT32U level[CHANNELS];

struct frame telemetry;
CPU_INT32U alarms[CHANNELS];

/* The data-ready interrupt: the words that come with it are the channel and the value. */
void sample_ready(CPU_INT32U channel, CPU_INT32U value)
{
    struct sample *slot = &slots[samples_taken++ % SLOTS];
    slot->channel = channel;
    slot->value = value;
    OSQPost(SAMPLES, slot, sizeof *slot, OS_OPT_POST_FIFO, 0);
}

/* Each level moves by a quarter of the distance to the new sample. */
void filter(void)
{
    CPU_INT32U accepted = 0;
    for (;;) {
        OS_ERR err;
        OS_MSG_SIZE size;
        const struct sample *sample = OSQPend(SAMPLES, 0, OS_OPT_PEND_BLOCKING, &size, &err);
        if (err != OS_ERR_NONE || size != sizeof *sample || sample->channel >= CHANNELS)
            continue;
        if (sample->value > GREATEST_VALUE) {
            OSFlagPost(ALARMS, 1u << sample->channel, OS_OPT_POST_FLAG_SET, &err);
            continue;
        }
        level[sample->channel] = (3 * level[sample->channel] + sample->value) / 4;
        if (++accepted % SAMPLES_PER_REPORT == 0)
            OSTaskSemPost(REPORT, OS_OPT_POST_NONE, &err);
    }
}

/* The levels of one frame belong together: no other task runs while they are copied. */
void report(void)
{
    for (;;) {
        OS_ERR err;
        OSTaskSemPend(0, OS_OPT_PEND_BLOCKING, &err);
        OSSchedLock(&err);
        telemetry.number++;
        for (int channel = 0; channel < CHANNELS; channel++)
            telemetry.level[channel] = level[channel];
        OSSchedUnlock(&err);
    }
}

/* Counts the samples out of range, channel by channel. */
void monitor(void)
{
    for (;;) {
        OS_ERR err;
        OS_FLAGS raised = OSFlagPend(ALARMS, 3, 0, OS_OPT_PEND_FLAG_SET_ANY + OS_OPT_PEND_FLAG_CONSUME, &err);
        for (int channel = 0; channel < CHANNELS; channel++)
            if (raised & (1u << channel))
                alarms[channel]++;
    }
}
