/* A spacecraft's executive: it takes telecommands and changes what the other tasks do. The downlink sends when it is armed and
 * the link is there, the heater rests between its pulses until it is woken, and the instrument stops for good in safe mode. */
#include "ucos3.h"

/* Tasks and objects by their numbers: the order of their lines in modes.lines. */
enum { EXECUTIVE, DOWNLINK, HEATER, INSTRUMENT };
enum { TRIGGER, CONDITIONS, FRAMES };

enum command { ARM = 1, LINK = 2, HEAT = 3, MEASURE = 4, SKIP = 5, SAFE = 6 };

#define CONDITION_ARMED 1u
#define CONDITION_LINK 2u

OS_STACK(executive_stack, 256);
OS_STACK(downlink_stack, 256);
OS_STACK(heater_stack, 256);
OS_STACK(instrument_stack, 256);
OS_STACK(receiver_stack, 128);

CPU_INT32U frames_sent;
CPU_INT32U heater_pulses;
CPU_INT32U measurements, measurements_skipped;
CPU_INT32U commands_refused;

/* The receiver's interrupt: the word that comes with it is the command, and is the message itself. */
void command_received(CPU_INT32U command)
{
    OSTaskQPost(EXECUTIVE, (void *)command, sizeof command, OS_OPT_POST_FIFO, 0);
}

/* Safe mode: nothing is armed, and who waits for a trigger or a frame is told that these are gone. */
static void enter_safe_mode(void)
{
    OS_ERR err;
    OSFlagPost(CONDITIONS, CONDITION_ARMED, OS_OPT_POST_FLAG_CLR, &err);
    OSSemDel(TRIGGER, OS_OPT_DEL_ALWAYS, &err);
    OSQDel(FRAMES, OS_OPT_DEL_ALWAYS, &err);
}

static OS_ERR carry_out(CPU_INT32U command)
{
    OS_ERR err = OS_ERR_NONE;
    switch (command) {
    case ARM:
        OSFlagPost(CONDITIONS, CONDITION_ARMED, OS_OPT_POST_FLAG_SET, &err);
        break;
    case LINK:
        OSFlagPost(CONDITIONS, CONDITION_LINK, OS_OPT_POST_FLAG_SET, &err);
        break;
    case HEAT:
        OSTimeDlyResume(HEATER, &err);
        break;
    case MEASURE:
        OSSemPost(TRIGGER, OS_OPT_POST_1, &err);
        break;
    case SKIP:
        OSSemPendAbort(TRIGGER, OS_OPT_PEND_ABORT_1, &err);
        break;
    case SAFE:
        enter_safe_mode();
        break;
    default:
        err = OS_ERR_OPT_INVALID;
        break;
    }
    return err;
}

void executive(void)
{
    for (;;) {
        OS_ERR err;
        CPU_INT32U command = (CPU_INT32U)OSTaskQPend(0, OS_OPT_PEND_BLOCKING, 0, &err);
        if (err != OS_ERR_NONE || carry_out(command) != OS_ERR_NONE)
            commands_refused++;
    }
}

/* Sends a frame each time the downlink is armed and the link is there; both are used up. */
void downlink(void)
{
    const OS_FLAGS both = CONDITION_ARMED + CONDITION_LINK;
    for (;;) {
        OS_ERR err;
        OSFlagPend(CONDITIONS, both, 0, OS_OPT_PEND_FLAG_SET_ALL + OS_OPT_PEND_FLAG_CONSUME, &err);
        OS_MSG_SIZE size;
        OSQPend(FRAMES, 0, OS_OPT_PEND_NON_BLOCKING, &size, &err);
        if (err == OS_ERR_NONE)
            frames_sent++;
    }
}

/* Rests for 1,000 ticks, or until the executive ends the rest. */
void heater(void)
{
    for (;;) {
        OS_ERR err;
        heater_pulses++;
        OSTimeDly(1000, OS_OPT_TIME_DLY, &err);
    }
}

/* Measures at each trigger. A frame has the measurement's number. Behind the end of the semaphore it waits for good. */
void instrument(void)
{
    OS_ERR err;
    for (;;) {
        OSSemPend(TRIGGER, 0, OS_OPT_PEND_BLOCKING, &err);
        if (err == OS_ERR_PEND_ABORT) {
            measurements_skipped++;
        } else if (err == OS_ERR_NONE) {
            measurements++;
            OSQPost(FRAMES, (void *)measurements, sizeof measurements, OS_OPT_POST_FIFO, &err);
        } else {
            break;
        }
    }
    for (;;)
        OSTaskSemPend(0, OS_OPT_PEND_BLOCKING, &err);
}
