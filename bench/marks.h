/* A measured program says which part of its work begins: it makes a system call that Linux does not have. The plugin (count.c) sees the call; the kernel, or
 * the emulator in its place, answers "no such call", so that a marked program runs everywhere and the mark costs a handful of instructions. */
#ifndef BENCH_MARKS_H
#define BENCH_MARKS_H

enum part { BETWEEN, OPENING, ADDITION, REMOVAL, LISTING, PARTS };
enum { MARK_CALL = 31337 };

#ifdef __x86_64__
static inline void mark(enum part begins)
{
    long call = MARK_CALL;
    __asm__ volatile("syscall" : "+a"(call) : "D"((long)begins) : "rcx", "r11", "memory");
}
#endif

#endif
