/* How much stack each call of niranbok.h takes.
 *
 * A program that is linked with this file, in front of the archive with its functions renamed (scripts/stack.sh does both), makes each call on
 * a stack of its own. The stack is painted before the call. After the call, the lowest byte that changed shows how deep it went. The
 * return address is counted, and so is whatever the functions below save and use; arguments that the caller puts on the stack are not. At
 * the end a line for each call and answer goes to the file that NIRANBOK_STACK names: the call, its answer, and the most bytes that it took.
 *
 * For x86-64 and one thread. */
#include <stdint.h>
#include <stdio.h>
#include <stdlib.h>
#include <string.h>

/* The painted bytes, and the words above them for what a caller passes on the stack. The copies of those are in `painted_call`. */
#define PAINTED 16384
#define PASSED 6

/* Refusals are numbers below this. What a call answers that cannot refuse counts as 0. */
#define ANSWERS 32

struct stack {
    uint8_t painted[PAINTED];
    uint64_t passed[PASSED];
};

static _Alignas(16) struct stack stack;
static uint8_t paint[PAINTED];

/* Each function of niranbok.h: whether it answers a refusal's number, its name, and where it is. calls.inc has a line for each. */
#define CALL(at, is_number, name) void renamed_##name(void);
#include "calls.inc"
#undef CALL

static const struct {
    int is_number;
    const char *name;
} calls[] = {
#define CALL(at, is_number, name) {is_number, #name},
#include "calls.inc"
#undef CALL
};

#define CALLS (sizeof calls / sizeof calls[0])

void (*const painted_functions[])(void) = {
#define CALL(at, is_number, name) renamed_##name,
#include "calls.inc"
#undef CALL
};

void *const painted_top = stack.passed;

static size_t most[CALLS][ANSWERS];

/* The paint differs from byte to byte, so that what a call writes seldom looks like paint. */
__attribute__((constructor)) static void mix_paint(void) {
    for (size_t i = 0; i < PAINTED; i++)
        paint[i] = (uint8_t)(i * 167 + (i >> 8) * 59 + 0x5B);
}

void painted_begin(void) { memcpy(stack.painted, paint, PAINTED); }

uint64_t painted_end(uint64_t call, uint64_t answer) {
    size_t lowest = 0;
    while (lowest < PAINTED && memcmp(stack.painted + lowest, paint + lowest, 64) == 0)
        lowest += 64;
    while (lowest < PAINTED && stack.painted[lowest] == paint[lowest])
        lowest++;
    uint8_t number = calls[call].is_number ? (uint8_t)answer : 0;
    if (lowest == 0 || number >= ANSWERS) {
        fprintf(stderr, "%s: %s\n", calls[call].name, lowest == 0 ? "the painted stack is too short" : "an unknown refusal");
        exit(1);
    }
    if (most[call][number] < PAINTED - lowest)
        most[call][number] = PAINTED - lowest;
    return answer;
}

__attribute__((destructor)) static void tell(void) {
    const char *name = getenv("NIRANBOK_STACK");
    FILE *file = name ? fopen(name, "w") : NULL;
    if (!file)
        return;
    for (size_t call = 0; call < CALLS; call++)
        for (size_t answer = 0; answer < ANSWERS; answer++)
            if (most[call][answer])
                fprintf(file, "%s %zu %zu\n", calls[call].name, answer, most[call][answer]);
    fclose(file);
}

/* A function of niranbok.h, in its own name: its number, and on to the painted stack. */
#define CALL(at, is_number, name) \
    __asm__(".globl niranbok_" #name "\nniranbok_" #name ":\n\tmov $" #at ", %eax\n\tjmp painted_call\n");
__asm__(".text");
#include "calls.inc"

/* rax has the call's number; the arguments stand where C passes them, in registers and behind the return address. */
__asm__("painted_call:\n"
        "\tpush %rbp\n\tmov %rsp, %rbp\n"
        "\tpush %rdi\n\tpush %rsi\n\tpush %rdx\n\tpush %rcx\n\tpush %r8\n\tpush %r9\n\tpush %rax\n\tpush %rax\n"
        "\tcall painted_begin\n"
        "\tmov painted_top(%rip), %r11\n"
        "\tmov 16(%rbp), %rax\n\tmov %rax, (%r11)\n\tmov 24(%rbp), %rax\n\tmov %rax, 8(%r11)\n"
        "\tmov 32(%rbp), %rax\n\tmov %rax, 16(%r11)\n\tmov 40(%rbp), %rax\n\tmov %rax, 24(%r11)\n"
        "\tmov 48(%rbp), %rax\n\tmov %rax, 32(%r11)\n\tmov 56(%rbp), %rax\n\tmov %rax, 40(%r11)\n"
        "\tpop %rax\n\tpop %rax\n\tpop %r9\n\tpop %r8\n\tpop %rcx\n\tpop %rdx\n\tpop %rsi\n\tpop %rdi\n"
        "\tpush %rax\n\tpush %rax\n"
        "\tlea painted_functions(%rip), %r10\n\tmov (%r10,%rax,8), %r10\n"
        "\tmov %r11, %rsp\n\tcall *%r10\n"
        "\tlea -16(%rbp), %rsp\n\tpop %rdi\n\tmov %rax, %rsi\n\tpop %rax\n"
        "\tcall painted_end\n"
        "\tpop %rbp\n\tret\n");
