#!/usr/bin/env python3
"""Puts a call of `access` before each instruction of an assembly file that accesses memory.

    bench/simulate/instrument.py IN.s OUT.s

The call has the address in %rdi and in %esi the kind of access, above it how many instructions there were since the last call
(8 times that; see simulate.h). What is addressed by %rsp, or by %rbp in a function that has a frame, is on the stack, where
no other thread comes; it counts as an instruction, as do segments, prefetches and string instructions.
"""
import re
import sys

READ, WRITE, CHANGE, LOCKED, FENCE, PAUSE = range(6)
MEMORY = re.compile(r"(%[cdefgs]s:)?[-\w.$@+]*\(([^)]*)\)")
INSTRUCTION = re.compile(r"((?:(?:lock|rep|repz|repnz|notrack)[\s;]+)*)([a-z]\w*)\s*(.*)$")
NO_ACCESS = re.compile(r"lea|nop|jmp|call|ret|prefetch(?!w)|(movs|stos)[bwlq]$")
READS = re.compile(r"(cmp|test|push|mul|imul|div|idiv|u?comis)|bt[lqw]?$")
WRITES = re.compile(r"mov|set|pop|vmov")


def operands(text):
    """The operands of an instruction: commas within parentheses part none."""
    return [part.strip() for part in re.split(r",(?![^()]*\))", text)] if text else []


def kind_of(name, is_locked, is_last):
    """What an instruction with this name does to memory, which is its last operand or another one."""
    if is_locked or name.startswith("xchg"):
        return LOCKED
    if name == "prefetchw":
        return CHANGE
    if not is_last or READS.match(name):
        return READ
    return WRITE if WRITES.match(name) else CHANGE


class Function:
    """What is known so far of the function that is being read."""

    def __init__(self):
        self.has_frame = False
        self.since = 0  # instructions since the last call of `access`
        self.is_locked = False  # `lock` stood on a line of its own

    def on_stack(self, registers):
        return "%rsp" in registers or (self.has_frame and registers.startswith("%rbp"))

    def accesses(self, prefix, name, rest):
        """The address, or "", and the kind of an access; None if the instruction makes none."""
        if name == "pause" or (name == "nop" and "rep" in prefix):
            return "", PAUSE
        if name == "mfence":
            return "", FENCE
        is_locked = "lock" in prefix or self.is_locked
        all_of_it = operands(rest)
        for at, operand in enumerate(all_of_it):
            found = MEMORY.match(operand.lstrip("*"))
            if not found or NO_ACCESS.match(name):
                continue
            if self.on_stack(found[2]):
                return ("", FENCE) if is_locked else None
            if found[1] or re.search("@(gottpoff|GOTPCREL|tpoff)", operand):
                return None
            return operand.lstrip("*"), kind_of(name, is_locked, at == len(all_of_it) - 1)
        return None

    def call(self, address, kind):
        """The call, below the 128 bytes under %rsp that a function may use."""
        code, self.since = 8 * self.since + kind, 0
        lines = ["leaq -128(%rsp), %rsp", "pushq %rdi", "pushq %rsi"]
        if address:
            lines.append(f"leaq {address}, %rdi")
        lines += [f"movl ${code}, %esi", "call sim_hook", "popq %rsi", "popq %rdi", "leaq 128(%rsp), %rsp"]
        return "".join(f"\t{line}\n" for line in lines)


def instrumented(lines):
    in_code, function, held = True, Function(), ""
    for line in lines:
        text = line.split("#")[0].strip()
        if re.match(r"\.(section|text|data|bss)", text):
            in_code = ".text" in text
        if re.match(r"\.type\s+\S+,\s*@function", text):
            function.has_frame = False
        if re.search(r"movq\s+%rsp,\s*%rbp", text):
            function.has_frame = True
        found = INSTRUCTION.match(text) if in_code and not text.endswith(":") else None
        if text == "lock":
            function.is_locked, held = True, line
            continue
        if found:
            function.since += 1
            access = function.accesses(*found.groups())
            if access:
                yield function.call(*access)
        yield held + line
        function.is_locked, held = False, ""


def main():
    with open(sys.argv[1]) as read, open(sys.argv[2], "w") as written:
        written.writelines(instrumented(read))


main()
