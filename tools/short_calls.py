#!/usr/bin/env python3
"""Runs a program in which one call of the system moves fewer bytes than it was asked to.

    tools/short_calls.py NAME WHEN COUNT COMMAND ..

The call is the one of this NAME (`read`, `write`, `pread64` or `pwrite64`) that is made as the WHEN-th, from 1, and is
asked to move COUNT bytes. The system does what it was asked, so all that the program sees is a true answer that it may
have at any time. The program goes on in this process's streams; how it ends is the status, and 125 where the call
didn't come. It is for x86-64, one thread, and `check-faults`: `strace` can let calls fail, but not let them do a part.
"""

import ctypes
import os
import signal
import sys

NUMBERS = {"read": 0, "write": 1, "pread64": 17, "pwrite64": 18}
TRACEME, GETREGS, SETREGS, SYSCALL, SETOPTIONS = 0, 12, 13, 24, 0x4200
# calls are told from signals, and the program doesn't outlive its tracer
OPTIONS, AT_CALL = 0x1 | 0x100000, signal.SIGTRAP | 0x80
# the registers of a stopped program: how many, and where those of a call's count and of its number are
COUNT_OF_REGISTERS, RDX, NUMBER = 27, 12, 15

libc = ctypes.CDLL(None, use_errno=True)
libc.ptrace.argtypes = [ctypes.c_ulong, ctypes.c_long, ctypes.c_void_p, ctypes.c_void_p]
libc.ptrace.restype = ctypes.c_long


def ptrace(request, pid, data=None):
    if libc.ptrace(request, pid, None, data) < 0:
        raise OSError(ctypes.get_errno(), f"ptrace {request}")


class Program:
    """A program that is stopped at each of its calls of the system."""

    def __init__(self, command):
        self.pid = os.fork()
        if self.pid == 0:
            ptrace(TRACEME, 0)
            os.execvp(command[0], command)
        self.status = os.waitpid(self.pid, 0)[1]
        ptrace(SETOPTIONS, self.pid, OPTIONS)

    def to_call(self):
        """Goes on to where the next call begins or ends; whether there is one."""
        passed = None
        while True:
            ptrace(SYSCALL, self.pid, passed)
            self.status = os.waitpid(self.pid, 0)[1]
            if not os.WIFSTOPPED(self.status):
                return False
            if os.WSTOPSIG(self.status) == AT_CALL:
                return True
            passed = os.WSTOPSIG(self.status)

    def registers(self):
        registers = (ctypes.c_ulonglong * COUNT_OF_REGISTERS)()
        ptrace(GETREGS, self.pid, ctypes.addressof(registers))
        return registers

    def put(self, registers):
        ptrace(SETREGS, self.pid, ctypes.addressof(registers))


def run(number, when, count, command):
    """Runs the command to its end; whether the call came."""
    program, seen = Program(command), 0
    while program.to_call():
        registers = program.registers()
        seen += registers[NUMBER] == number
        short = registers[NUMBER] == number and seen == when and count < registers[RDX]
        asked = registers[RDX]
        if short:
            registers[RDX] = count
            program.put(registers)
        if not program.to_call():
            break
        if short:
            # the program may count on it that a call leaves this register
            registers = program.registers()
            registers[RDX] = asked
            program.put(registers)
    return program.status, seen >= when


def main():
    name, when, count, *command = sys.argv[1:]
    status, came = run(NUMBERS[name], int(when), int(count), command)
    if not came:
        sys.exit(125)
    if os.WIFSIGNALED(status):
        os.kill(os.getpid(), os.WTERMSIG(status))
    sys.exit(os.WEXITSTATUS(status))


main()
