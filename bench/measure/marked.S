/* void call_between_marks(const struct invocation *invocation, void *stack_top, uintptr_t *result)

   Between the marks there is the call instruction, and what it calls. */
#include "marks.h"

        .text
        .globl  call_between_marks
        .type   call_between_marks, @function
call_between_marks:
        push    %rbp
        push    %rbx
        mov     %rsp, %rbp
        mov     %rdx, %rbx
        mov     %rsi, %rsp
        mov     (%rdi), %rax
        mov     16(%rdi), %rsi
        mov     24(%rdi), %rdx
        mov     32(%rdi), %rcx
        mov     40(%rdi), %r8
        mov     8(%rdi), %rdi
        .byte   MARK_BYTES(MARK_BEGINS)
        call    *%rax
        .byte   MARK_BYTES(MARK_ENDS)
        mov     %rbp, %rsp
        mov     %rax, (%rbx)
        mov     %rdx, 8(%rbx)
        pop     %rbx
        pop     %rbp
        ret
        .size   call_between_marks, . - call_between_marks

        .globl  return_at_once
        .type   return_at_once, @function
return_at_once:
        ret
        .size   return_at_once, . - return_at_once

        .section .note.GNU-stack, "", @progbits
