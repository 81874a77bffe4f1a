/* SPDX-License-Identifier: BSL-1.0
 *
 * The proved code and its public names. A public name may be reached by an indirect branch: through
 * the table of a shared library, or by a pointer to a function. So each begins with the instruction
 * that marks such a place, and goes on to the proved code. That is hidden, and reached by direct
 * branches alone; it makes no indirect one, but for its returns. So the notes at the end are true.
 */
#if defined(__x86_64__) && (defined(__LP64__) || defined(_WIN32))
#define MARK endbr64
#define GO jmp
#elif defined(__aarch64__) && defined(__LP64__)
#define MARK hint 34
#define GO b
#else
#error "kundratu_pool has proved code for x86-64, and for AArch64 on Linux and macOS, with pointers of 64 bits"
#endif

#if defined(_WIN32)
        .include "x86_64_windows.s"
.macro ENTRY call
        .section .text$kdr_\call, "xr"
        .p2align 4
        .globl kdr_\call
kdr_\call:
        MARK
        GO kdr_0_1_0_\call
.endm
#elif defined(__APPLE__)
#if defined(__x86_64__)
        .include "x86_64_macos.s"
#else
        .include "aarch64_macos.s"
#endif
.macro ENTRY call
        .section __TEXT,__text,regular,pure_instructions
        .p2align 4
        .globl _kdr_\call
_kdr_\call:
        .cfi_startproc
        MARK
        GO _kdr_0_1_0_\call
        .cfi_endproc
.endm
#else
#if defined(__x86_64__)
        .include "x86_64.s"
#else
        .include "aarch64.s"
#endif
.macro ENTRY call
        .section .text.kdr_\call, "ax", %progbits
        .p2align 4
        .globl kdr_\call
        .type kdr_\call, %function
kdr_\call:
        .cfi_startproc
        MARK
        GO kdr_0_1_0_\call
        .cfi_endproc
        .size kdr_\call, . - kdr_\call
.endm
#endif

        ENTRY pool_pull
        ENTRY pool_pull_near
        ENTRY pool_return
        ENTRY pool_drop
        ENTRY place_pull
        ENTRY place_return
        ENTRY cache_pull
        ENTRY cache_return
        ENTRY cache_flush
        ENTRY cache_drop

#if defined(__ELF__)
/* Of this file: x86-64's indirect branch tracking and shadow stack, or AArch64's branch targets. */
#if defined(__x86_64__)
#define FEATURES 0xc0000002, 4, 3
#else
#define FEATURES 0xc0000000, 4, 1
#endif
        .section .note.gnu.property, "a", %note
        .p2align 3
        .long 4, 16, 5
        .asciz "GNU"
        .long FEATURES, 0
        .section .note.GNU-stack, "", %progbits
#endif
