/* The kernel calls of a node, as C functions. A call is the instruction ecall, with the call's number in register a7,
   its arguments in a0 to a2, and the answer in a0. */
#ifndef RK_H
#define RK_H

#define HOST 0xffffffffu   /* the node number of the user's side, whose process number is 0 */

static inline unsigned rk_call(unsigned number, unsigned first, unsigned second, unsigned third)
{
    register unsigned a0 __asm__("a0") = first;
    register unsigned a1 __asm__("a1") = second;
    register unsigned a2 __asm__("a2") = third;
    register unsigned a7 __asm__("a7") = number;
    __asm__ volatile("ecall" : "+r"(a0) : "r"(a1), "r"(a2), "r"(a7) : "memory");
    return a0;
}

/* A place of xmsend's list. */
struct place { unsigned node, pid; };

/* A block of that many bytes, all zero; 0 where len is over 4096, the node has no block left, or all windows of the
   process were used. */
static inline void *xmalloc(unsigned len) { return (void *)rk_call(1, len, 0, 0); }
/* Gives the block back to the node. */
static inline void xfree(void *block) { rk_call(2, (unsigned)block, 0, 0); }
/* How many bytes the block has. */
static inline unsigned xlength(const void *block) { return rk_call(3, (unsigned)block, 0, 0); }
/* Gives the block to a process or to the host; 1 where there is no such place, and then the block stays. */
static inline unsigned xsend(void *block, unsigned node, unsigned pid) { return rk_call(4, (unsigned)block, node, pid); }
/* Gives the block to the first place, and copies of it to the others: 0, or 1 where a place is none, 2 where the node
   has too few blocks, 3 where count is over 64. */
static inline unsigned xmsend(void *block, unsigned count, const struct place *to)
{
    return rk_call(5, (unsigned)block, count, (unsigned)to);
}
/* The next message's block, or 0 where none has come by the next dispatch. */
static inline void *xrecv(void) { return (void *)rk_call(6, 0, 0, 0); }
/* Waits for the next message, and gives its block. */
static inline void *xrecvb(void) { return (void *)rk_call(7, 0, 0, 0); }
/* Starts a process: 0, or 1 where there is no such place, 2 where its number was used, 3 where there is no such image. */
static inline unsigned spawn(unsigned image, unsigned node, unsigned pid) { return rk_call(8, image, node, pid); }
/* Ends a process: 0, or 1 where there is no such place, 2 where it was never started, 3 where a kill was accepted. */
static inline unsigned ckill(unsigned node, unsigned pid) { return rk_call(9, node, pid, 0); }
/* This node's number, this process's number, and how many nodes the cube has. */
static inline unsigned mynode(void) { return rk_call(10, 0, 0, 0); }
static inline unsigned mypid(void) { return rk_call(11, 0, 0, 0); }
static inline unsigned nnodes(void) { return rk_call(12, 0, 0, 0); }
/* Ends this process; the start code does so with what main returns. */
static inline _Noreturn void leave(unsigned code) { rk_call(13, code, 0, 0); __builtin_unreachable(); }
/* Puts a word into the trace. */
static inline void note(unsigned word) { rk_call(14, word, 0, 0); }

#endif
