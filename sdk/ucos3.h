/* The services of the kernel machine for applications in C: each of the 39 as an inline function over ECALL.
 *
 * Names, the order of arguments and the last argument `OS_ERR *p_err` are those of the µC/OS-III book (V3.03). What differs:
 *
 * - Objects and tasks are numbers. They are declared by the lines behind the executable (`.sem`, `.task`, ..), and their numbers
 *   count from 0 in the order of those lines: tasks by themselves, and all objects together, of whatever kind. An enum in
 *   the same order names them in C. The kernel answers OS_ERR_OBJ_TYPE where an object of another kind has the number.
 * - There is nothing to create and nothing to start: no OSInit, OSStart, OSIntEnter, OSIntExit, no OSxxxCreate.
 * - There are no time stamps: the argument `CPU_TS *p_ts` of the pends is left out. OSTmrStop has no `p_callback_arg`.
 * - The numbers of options and errors are this machine's own. Take the names, and no numbers out of another os.h or os_cfg.h.
 * - `p_err` and `p_msg_size` may be null: then nothing is written there.
 * - Some services that are void in the book have a value here; it stands at each function.
 *
 * A call puts the service's number into a7 and its arguments into a0 up. The answer is the error in a0 and the value in a1;
 * OSQPend and OSTaskQPend also give the size of the message in a2. No other register changes. A call of OSPendMulti also writes
 * its table.
 *
 * A task is a function `void f(void)` that never returns: it starts with all registers 0 but its stack pointer and its return
 * address, so a parameter `void *p_arg` would be null. A task that returns traps, and stops for good (the printed run then has
 * `trap NAME fetch 4294967280`).
 *
 * An interrupt routine is an ordinary function `void f(CPU_INT32U, CPU_INT32U, CPU_INT32U, CPU_INT32U)` that returns; it may have
 * fewer parameters. They are the words that come with the interrupt. Its registers are its own, so it needs no attribute.
 * It may call OSSemPost, OSQPost, OSFlagPost, OSTaskSemPost, OSTaskQPost and OSTimeTick alone, runs at most
 * `isr_limit` instructions, and should give a null `p_err`: what a post answers there depends on the method of posting.
 *
 * A timer's callback is an ordinary function `void f(CPU_INT32U timer, CPU_INT32U argument)` that returns: it is given the number
 * of the timer and the argument of its declaration, and runs as code of the timer task with the scheduler locked.
 *
 * Compile with optimization (-O1 or more). Without it a call is as right, but the compiler stores every answer to the stack,
 * also in interrupt routines. */
#ifndef UCOS3_H
#define UCOS3_H

#include <stdint.h>

/* ------------------------------------------------------------------------------------------------------------------- types */

typedef uint8_t CPU_INT08U;
typedef uint16_t CPU_INT16U;
typedef uint32_t CPU_INT32U;
typedef int8_t CPU_INT08S;
typedef int16_t CPU_INT16S;
typedef int32_t CPU_INT32S;
typedef CPU_INT08U CPU_BOOLEAN;

typedef CPU_INT32U OS_SEM;       /* the number of a semaphore */
typedef CPU_INT32U OS_Q;         /* .. of a message queue */
typedef CPU_INT32U OS_FLAG_GRP;  /* .. of an event flag group */
typedef CPU_INT32U OS_MUTEX;     /* .. of a mutual exclusion semaphore */
typedef CPU_INT32U OS_TMR;       /* .. of a timer */
typedef CPU_INT32U OS_TCB;       /* the number of a task */

typedef CPU_INT32U OS_OPT;
typedef CPU_INT32U OS_TICK;
typedef CPU_INT32U OS_FLAGS;
typedef CPU_INT32U OS_SEM_CTR;
typedef CPU_INT32U OS_MSG_SIZE;
typedef CPU_INT32U OS_OBJ_QTY;
typedef CPU_INT32U OS_NESTING_CTR;
typedef CPU_INT32U OS_STATE;
typedef CPU_INT32U OS_PRIO;

/* An entry of the table of OSPendMulti: 16 bytes. The caller writes the first word, the kernel the other three. */
typedef struct os_pend_data {
    CPU_INT32U PendObj;      /* the number of a semaphore or a queue; none may stand twice */
    CPU_INT32U RdyObj;       /* 1: this object was taken from; 0: it was not, and the next two are 0 */
    void *RdyMsgPtr;         /* the message of a queue; of a semaphore 0 */
    OS_MSG_SIZE RdyMsgSize;  /* its size */
} OS_PEND_DATA;

_Static_assert(sizeof(OS_PEND_DATA) == 16, "an entry of the table of OSPendMulti has 16 bytes");

/* The caller, where the number of a task is wanted (in the book a null `OS_TCB *`). In interrupt code there is none. */
#define OS_TASK_SELF 0xFFFFFFFFu

/* ----------------------------------------------------------------------------------------------------------------- options */

#define OS_OPT_PEND_BLOCKING 0u
#define OS_OPT_PEND_NON_BLOCKING 8u  /* bit 3 of OSFlagPend; every other pend passes it on as 1 */

#define OS_OPT_PEND_FLAG_SET_ALL 0u  /* OSFlagPend: one of these four, */
#define OS_OPT_PEND_FLAG_SET_ANY 1u
#define OS_OPT_PEND_FLAG_CLR_ALL 2u
#define OS_OPT_PEND_FLAG_CLR_ANY 3u
#define OS_OPT_PEND_FLAG_CONSUME 4u  /* with this or without, and with OS_OPT_PEND_NON_BLOCKING or without */

#define OS_OPT_POST_NONE 0u          /* OSTaskSemPost, OSMutexPost */
#define OS_OPT_POST_1 0u             /* OSSemPost: the first waiter */
#define OS_OPT_POST_FIFO 0u          /* OSQPost, OSTaskQPost: behind the stored messages */
#define OS_OPT_POST_LIFO 1u          /* .. before them */
#define OS_OPT_POST_ALL 2u           /* OSSemPost, and OSQPost with FIFO or LIFO: all waiters */
#define OS_OPT_POST_FLAG_SET 0u      /* OSFlagPost */
#define OS_OPT_POST_FLAG_CLR 1u

#define OS_OPT_PEND_ABORT_1 0u       /* the aborts: the first waiter; of a task's own objects this alone */
#define OS_OPT_PEND_ABORT_ALL 1u
#define OS_OPT_DEL_NO_PEND 0u        /* the deletions: only where nobody waits */
#define OS_OPT_DEL_ALWAYS 1u
#define OS_OPT_TIME_DLY 0u           /* OSTimeDly: so many ticks, */
#define OS_OPT_TIME_MATCH 1u         /* .. or until the tick counter has this value */
#define OS_OPT_TMR_NONE 0u           /* OSTmrStop */

#define OS_TMR_STATE_STOPPED 1u      /* OSTmrStateGet */
#define OS_TMR_STATE_RUNNING 2u
#define OS_TMR_STATE_COMPLETED 3u

/* ------------------------------------------------------------------------------------------------------------------ errors */

/* Names without OS_ are this machine's own: ERR_CALL_ISR, ERR_CALL_UNKNOWN, ERR_TABLE, ERR_DEPTH. */
typedef enum os_err {
    OS_ERR_NONE = 0,
    OS_ERR_OPT_INVALID = 1,
    OS_ERR_OBJ_TYPE = 2,
    OS_ERR_TASK_INVALID = 3,
    OS_ERR_TASK_NOT_EXIST = 4,
    OS_ERR_PEND_WOULD_BLOCK = 5,
    OS_ERR_SCHED_LOCKED = 6,
    OS_ERR_TIMEOUT = 7,
    OS_ERR_PEND_ABORT = 8,
    OS_ERR_OBJ_DEL = 9,
    OS_ERR_PEND_ABORT_NONE = 10,
    OS_ERR_SEM_OVF = 11,
    OS_ERR_Q_MAX = 12,
    OS_ERR_MSG_POOL_EMPTY = 13,
    OS_ERR_MUTEX_NOT_OWNER = 14,
    OS_ERR_MUTEX_OWNER = 15,
    OS_ERR_MUTEX_NESTING = 16,
    OS_ERR_TASK_WAITING = 17,
    OS_ERR_TIME_ZERO_DLY = 18,
    OS_ERR_TASK_NOT_DLY = 19,
    OS_ERR_TASK_RESUME_SELF = 20,
    OS_ERR_TASK_NOT_SUSPENDED = 21,
    OS_ERR_ROUND_ROBIN_DISABLED = 22,
    OS_ERR_ROUND_ROBIN_1 = 23,
    OS_ERR_LOCK_NESTING_OVF = 24,
    OS_ERR_SCHED_NOT_LOCKED = 25,
    OS_ERR_TMR_STOPPED = 26,
    OS_ERR_INT_Q_FULL = 27,
    OS_ERR_PEND_ISR = 28,
    OS_ERR_PEND_ABORT_ISR = 29,
    OS_ERR_POST_ISR = 30,
    OS_ERR_DEL_ISR = 31,
    OS_ERR_TIME_DLY_ISR = 32,
    OS_ERR_TIME_DLY_RESUME_ISR = 33,
    OS_ERR_TASK_SUSPEND_ISR = 34,
    OS_ERR_TASK_RESUME_ISR = 35,
    OS_ERR_TASK_DEL_ISR = 36,
    OS_ERR_YIELD_ISR = 37,
    OS_ERR_SCHED_LOCK_ISR = 38,
    OS_ERR_SCHED_UNLOCK_ISR = 39,
    OS_ERR_TMR_ISR = 40,
    ERR_CALL_ISR = 41,
    ERR_CALL_UNKNOWN = 42,
    ERR_TABLE = 43,
    ERR_DEPTH = 44,
    OS_ERR_PEND_ABORT_SELF = 45,
    OS_ERR_TASK_SUSPENDED = 46,
    OS_ERR_TASK_CHANGE_PRIO_ISR = 47,
    OS_ERR_PRIO_INVALID = 48
} OS_ERR;

/* ------------------------------------------------------------------------------------------------------------------ stacks */

/* Reserves a stack of so many bytes in RAM, and makes NAME a label for its top, which `.task` and `.vector` take as the stack
 * pointer: OS_STACK(filter_stack, 512); at the top level of a file. NAME is no variable of C. The bytes
 * are a number, a multiple of 16, without a suffix such as `u`. */
#define OS_STACK(name, bytes) OS_STACK_OF(name, bytes)
#define OS_STACK_OF(name, bytes)                                                                       \
    _Static_assert((bytes) > 0 && (bytes) % 16 == 0, "the size of a stack is a multiple of 16 bytes"); \
    __asm__(".pushsection .stacks, \"aw\", @nobits\n\t"                                                \
            ".space " #bytes "\n\t"                                                                    \
            ".globl " #name "\n"                                                                       \
            #name ":\n\t"                                                                              \
            ".popsection")

/* ------------------------------------------------------------------------------------------------- calls: nothing to use here */

#define OS_CALL static inline __attribute__((always_inline))

OS_CALL CPU_INT32U os_answer(CPU_INT32U err, CPU_INT32U value, OS_ERR *p_err)
{
    if (p_err)
        *p_err = (OS_ERR)err;
    return value;
}

OS_CALL CPU_INT32U os_call0(CPU_INT32U service, OS_ERR *p_err)
{
    register CPU_INT32U a7 __asm__("a7") = service;
    register CPU_INT32U a0 __asm__("a0");
    register CPU_INT32U a1 __asm__("a1");
    __asm__ volatile("ecall" : "=r"(a0), "=r"(a1) : "r"(a7) : "memory");
    return os_answer(a0, a1, p_err);
}

OS_CALL CPU_INT32U os_call1(CPU_INT32U service, CPU_INT32U first, OS_ERR *p_err)
{
    register CPU_INT32U a7 __asm__("a7") = service;
    register CPU_INT32U a0 __asm__("a0") = first;
    register CPU_INT32U a1 __asm__("a1");
    __asm__ volatile("ecall" : "+r"(a0), "=r"(a1) : "r"(a7) : "memory");
    return os_answer(a0, a1, p_err);
}

OS_CALL CPU_INT32U os_call2(CPU_INT32U service, CPU_INT32U first, CPU_INT32U second, OS_ERR *p_err)
{
    register CPU_INT32U a7 __asm__("a7") = service;
    register CPU_INT32U a0 __asm__("a0") = first;
    register CPU_INT32U a1 __asm__("a1") = second;
    __asm__ volatile("ecall" : "+r"(a0), "+r"(a1) : "r"(a7) : "memory");
    return os_answer(a0, a1, p_err);
}

OS_CALL CPU_INT32U os_call3(CPU_INT32U service, CPU_INT32U first, CPU_INT32U second, CPU_INT32U third, OS_ERR *p_err)
{
    register CPU_INT32U a7 __asm__("a7") = service;
    register CPU_INT32U a0 __asm__("a0") = first;
    register CPU_INT32U a1 __asm__("a1") = second;
    register CPU_INT32U a2 __asm__("a2") = third;
    __asm__ volatile("ecall" : "+r"(a0), "+r"(a1) : "r"(a2), "r"(a7) : "memory");
    return os_answer(a0, a1, p_err);
}

OS_CALL CPU_INT32U os_call4(CPU_INT32U service, CPU_INT32U first, CPU_INT32U second, CPU_INT32U third, CPU_INT32U fourth,
                            OS_ERR *p_err)
{
    register CPU_INT32U a7 __asm__("a7") = service;
    register CPU_INT32U a0 __asm__("a0") = first;
    register CPU_INT32U a1 __asm__("a1") = second;
    register CPU_INT32U a2 __asm__("a2") = third;
    register CPU_INT32U a3 __asm__("a3") = fourth;
    __asm__ volatile("ecall" : "+r"(a0), "+r"(a1) : "r"(a2), "r"(a3), "r"(a7) : "memory");
    return os_answer(a0, a1, p_err);
}

/* Calls that also give the size of a message. */
OS_CALL void *os_take2(CPU_INT32U service, CPU_INT32U first, CPU_INT32U second, OS_MSG_SIZE *p_msg_size, OS_ERR *p_err)
{
    register CPU_INT32U a7 __asm__("a7") = service;
    register CPU_INT32U a0 __asm__("a0") = first;
    register CPU_INT32U a1 __asm__("a1") = second;
    register CPU_INT32U a2 __asm__("a2");
    __asm__ volatile("ecall" : "+r"(a0), "+r"(a1), "=r"(a2) : "r"(a7) : "memory");
    if (p_msg_size)
        *p_msg_size = a2;
    return (void *)os_answer(a0, a1, p_err);
}

OS_CALL void *os_take3(CPU_INT32U service, CPU_INT32U first, CPU_INT32U second, CPU_INT32U third, OS_MSG_SIZE *p_msg_size,
                       OS_ERR *p_err)
{
    register CPU_INT32U a7 __asm__("a7") = service;
    register CPU_INT32U a0 __asm__("a0") = first;
    register CPU_INT32U a1 __asm__("a1") = second;
    register CPU_INT32U a2 __asm__("a2") = third;
    __asm__ volatile("ecall" : "+r"(a0), "+r"(a1), "+r"(a2) : "r"(a7) : "memory");
    if (p_msg_size)
        *p_msg_size = a2;
    return (void *)os_answer(a0, a1, p_err);
}

/* The option of every pend but OSFlagPend. */
OS_CALL OS_OPT os_pend_option(OS_OPT opt)
{
    return opt == OS_OPT_PEND_NON_BLOCKING ? 1u : opt;
}

OS_CALL CPU_INT32U os_word(const void *address)
{
    return (CPU_INT32U)(uintptr_t)address;
}

/* ------------------------------------------------------------------------------------------------ posts: tasks and interrupts */

/* The count that the semaphore has then; 0 where a task was woken. */
OS_CALL OS_SEM_CTR OSSemPost(OS_SEM sem, OS_OPT opt, OS_ERR *p_err)
{
    return os_call2(1, sem, opt, p_err);
}

/* A message is an address, or any word, and a size; what stands at the address is not copied. */
OS_CALL void OSQPost(OS_Q q, void *p_void, OS_MSG_SIZE msg_size, OS_OPT opt, OS_ERR *p_err)
{
    os_call4(2, q, os_word(p_void), msg_size, opt, p_err);
}

/* The new flags. */
OS_CALL OS_FLAGS OSFlagPost(OS_FLAG_GRP grp, OS_FLAGS flags, OS_OPT opt, OS_ERR *p_err)
{
    return os_call3(3, grp, flags, opt, p_err);
}

OS_CALL OS_SEM_CTR OSTaskSemPost(OS_TCB task, OS_OPT opt, OS_ERR *p_err)
{
    return os_call2(4, task, opt, p_err);
}

OS_CALL void OSTaskQPost(OS_TCB task, void *p_void, OS_MSG_SIZE msg_size, OS_OPT opt, OS_ERR *p_err)
{
    os_call4(5, task, os_word(p_void), msg_size, opt, p_err);
}

/* A tick: from the routine of a clock's interrupt, or from a task. Its answer is not given. */
OS_CALL void OSTimeTick(void)
{
    os_call0(6, (OS_ERR *)0);
}

/* --------------------------------------------------------------------------------------------------------- waits: tasks alone */

/* The count that is left. A timeout counts ticks; 0 waits without one. */
OS_CALL OS_SEM_CTR OSSemPend(OS_SEM sem, OS_TICK timeout, OS_OPT opt, OS_ERR *p_err)
{
    return os_call3(7, sem, timeout, os_pend_option(opt), p_err);
}

/* The message, and its size where p_msg_size says; 0 and 0 after an error. */
OS_CALL void *OSQPend(OS_Q q, OS_TICK timeout, OS_OPT opt, OS_MSG_SIZE *p_msg_size, OS_ERR *p_err)
{
    return os_take3(8, q, timeout, os_pend_option(opt), p_msg_size, p_err);
}

/* The bits of `flags` that were ready. */
OS_CALL OS_FLAGS OSFlagPend(OS_FLAG_GRP grp, OS_FLAGS flags, OS_TICK timeout, OS_OPT opt, OS_ERR *p_err)
{
    return os_call4(9, grp, flags, timeout, opt, p_err);
}

/* How often the caller then owns it, with OS_ERR_NONE 1 (void in the book). */
OS_CALL OS_NESTING_CTR OSMutexPend(OS_MUTEX mutex, OS_TICK timeout, OS_OPT opt, OS_ERR *p_err)
{
    return os_call3(10, mutex, timeout, os_pend_option(opt), p_err);
}

OS_CALL OS_SEM_CTR OSTaskSemPend(OS_TICK timeout, OS_OPT opt, OS_ERR *p_err)
{
    return os_call2(11, timeout, os_pend_option(opt), p_err);
}

OS_CALL void *OSTaskQPend(OS_TICK timeout, OS_OPT opt, OS_MSG_SIZE *p_msg_size, OS_ERR *p_err)
{
    return os_take2(12, timeout, os_pend_option(opt), p_msg_size, p_err);
}

/* How many of the table's 1 to 8 objects were taken from; the table says which. The table lies in RAM, at a multiple of 4. */
OS_CALL OS_OBJ_QTY OSPendMulti(OS_PEND_DATA *p_pend_data_tbl, OS_OBJ_QTY tbl_size, OS_TICK timeout, OS_OPT opt, OS_ERR *p_err)
{
    return os_call4(13, os_word(p_pend_data_tbl), tbl_size, timeout, os_pend_option(opt), p_err);
}

/* How often the caller owns it still, with OS_ERR_MUTEX_NESTING; else 0 (void in the book). */
OS_CALL OS_NESTING_CTR OSMutexPost(OS_MUTEX mutex, OS_OPT opt, OS_ERR *p_err)
{
    return os_call2(14, mutex, opt, p_err);
}

/* ----------------------------------------------------------------------------- aborts and deletions: how many tasks they woke */

OS_CALL OS_OBJ_QTY OSSemPendAbort(OS_SEM sem, OS_OPT opt, OS_ERR *p_err)
{
    return os_call2(15, sem, opt, p_err);
}

OS_CALL OS_OBJ_QTY OSQPendAbort(OS_Q q, OS_OPT opt, OS_ERR *p_err)
{
    return os_call2(16, q, opt, p_err);
}

OS_CALL OS_OBJ_QTY OSFlagPendAbort(OS_FLAG_GRP grp, OS_OPT opt, OS_ERR *p_err)
{
    return os_call2(17, grp, opt, p_err);
}

OS_CALL OS_OBJ_QTY OSMutexPendAbort(OS_MUTEX mutex, OS_OPT opt, OS_ERR *p_err)
{
    return os_call2(18, mutex, opt, p_err);
}

/* 1 where the task was woken, else 0. */
OS_CALL CPU_BOOLEAN OSTaskSemPendAbort(OS_TCB task, OS_OPT opt, OS_ERR *p_err)
{
    return (CPU_BOOLEAN)os_call2(19, task, opt, p_err);
}

OS_CALL CPU_BOOLEAN OSTaskQPendAbort(OS_TCB task, OS_OPT opt, OS_ERR *p_err)
{
    return (CPU_BOOLEAN)os_call2(20, task, opt, p_err);
}

OS_CALL OS_OBJ_QTY OSSemDel(OS_SEM sem, OS_OPT opt, OS_ERR *p_err)
{
    return os_call2(21, sem, opt, p_err);
}

OS_CALL OS_OBJ_QTY OSQDel(OS_Q q, OS_OPT opt, OS_ERR *p_err)
{
    return os_call2(22, q, opt, p_err);
}

OS_CALL OS_OBJ_QTY OSFlagDel(OS_FLAG_GRP grp, OS_OPT opt, OS_ERR *p_err)
{
    return os_call2(23, grp, opt, p_err);
}

OS_CALL OS_OBJ_QTY OSMutexDel(OS_MUTEX mutex, OS_OPT opt, OS_ERR *p_err)
{
    return os_call2(24, mutex, opt, p_err);
}

/* -------------------------------------------------------------------------------------------------------------------- time */

OS_CALL void OSTimeDly(OS_TICK dly, OS_OPT opt, OS_ERR *p_err)
{
    os_call2(25, dly, opt, p_err);
}

OS_CALL void OSTimeDlyResume(OS_TCB task, OS_ERR *p_err)
{
    os_call1(26, task, p_err);
}

OS_CALL OS_TICK OSTimeGet(OS_ERR *p_err)
{
    return os_call0(27, p_err);
}

/* ---------------------------------------------------------------------------------------------------- tasks and the scheduler */

OS_CALL void OSTaskSuspend(OS_TCB task, OS_ERR *p_err)
{
    os_call1(28, task, p_err);
}

OS_CALL void OSTaskResume(OS_TCB task, OS_ERR *p_err)
{
    os_call1(29, task, p_err);
}

/* It does not return where the caller deletes itself. */
OS_CALL void OSTaskDel(OS_TCB task, OS_ERR *p_err)
{
    os_call1(30, task, p_err);
}

OS_CALL void OSSchedRoundRobinYield(OS_ERR *p_err)
{
    os_call0(31, p_err);
}

/* How often the scheduler is then locked (void in the book). */
OS_CALL OS_NESTING_CTR OSSchedLock(OS_ERR *p_err)
{
    return os_call0(32, p_err);
}

/* Likewise; where it stays locked the error is OS_ERR_SCHED_LOCKED. */
OS_CALL OS_NESTING_CTR OSSchedUnlock(OS_ERR *p_err)
{
    return os_call0(33, p_err);
}

/* ------------------------------------------------------------------------------------------------------------------ timers */

/* 1 where it was started, else 0. */
OS_CALL CPU_BOOLEAN OSTmrStart(OS_TMR tmr, OS_ERR *p_err)
{
    OS_ERR err;
    os_call1(34, tmr, &err);
    os_answer(err, 0, p_err);
    return err == OS_ERR_NONE;
}

/* 1 where it was stopped, else 0; a timer that does not run is OS_ERR_TMR_STOPPED. Its callback is not called. */
OS_CALL CPU_BOOLEAN OSTmrStop(OS_TMR tmr, OS_OPT opt, OS_ERR *p_err)
{
    OS_ERR err;
    os_call2(35, tmr, opt, &err);
    os_answer(err, 0, p_err);
    return err == OS_ERR_NONE;
}

OS_CALL OS_TICK OSTmrRemainGet(OS_TMR tmr, OS_ERR *p_err)
{
    return os_call1(36, tmr, p_err);
}

OS_CALL OS_STATE OSTmrStateGet(OS_TMR tmr, OS_ERR *p_err)
{
    return os_call1(37, tmr, p_err);
}

/* 1 where it was deleted, else 0. */
OS_CALL CPU_BOOLEAN OSTmrDel(OS_TMR tmr, OS_ERR *p_err)
{
    OS_ERR err;
    os_call1(38, tmr, &err);
    os_answer(err, 0, p_err);
    return err == OS_ERR_NONE;
}

/* A new base priority, 1 to 62. */
OS_CALL void OSTaskChangePrio(OS_TCB task, OS_PRIO prio_new, OS_ERR *p_err)
{
    os_call2(39, task, prio_new, p_err);
}

#endif
