"""Pointers of the library that threads share, and how a thread reads the fault of its own call."""
import ctypes
import os
import threading
from typing import Any, Callable, List, Optional

from . import _library
from ._faults import fault_of
from ._library import DONE, MISUSE, NOT_FOUND, FaultStruct


class Caller:
    """A thread that calls the library, with its fault, where the library has it."""

    def __init__(self, fault: FaultStruct) -> None:
        self.fault = fault


class _Thread(threading.local):
    def __init__(self) -> None:
        self.caller = Caller(FaultStruct.from_address(_library.last_fault()))


_this = _Thread()

# Callers whose call was interrupted by a close, in which their thread waits. So they are outside of the library.
_interrupted: List[Caller] = []


def this_caller() -> Caller:
    return _this.caller


def waiting(work: Callable[[], None]) -> None:
    """Does the work of a close that waits.

    It may stand in a finalizer or a signal handler that has interrupted a call of this thread. No other close waits for that call: so two
    that would wait for each other both end.
    """
    before = _this.caller
    try:
        _interrupted.append(before)
        _this.caller = Caller(before.fault)
        work()
    finally:
        _this.caller = before
        _interrupted.remove(before)


def _in_child() -> None:
    """Of the parent's threads the child has this one alone."""
    _interrupted[:] = [caller for caller in _interrupted if caller.fault is _this.caller.fault]


os.register_at_fork(after_in_child=_in_child)


def _read(fault: FaultStruct, before: Optional[bytes]) -> FaultStruct:
    """A copy of this thread's fault, which is put back to what it was before the call."""
    told = FaultStruct.from_buffer_copy(fault)
    if before is None:
        fault.status = 0
    else:
        ctypes.memmove(ctypes.byref(fault), before, len(before))
    return told


class Held:
    """A pointer of the library, with its callers: the threads that call with it now.

    The library is told the pointer as a call begins, and null once it was withdrawn. So if a signal handler closes the index in the
    middle of a call, this call reaches no memory that is free.
    """

    def __init__(self, path: Any) -> None:
        self.path = path
        self.at = ctypes.c_void_p()
        self.number: Optional[int] = None
        self.callers: List[Caller] = []
        self._to_free = [True]

    def ask(self, function: Callable[..., int], *arguments: Any) -> int:
        """Calls the library, and answers 0, DONE, NOT_FOUND or MISUSE. Else it raises the fault, which is this very call's.

        A signal handler or a finalizer may run before the fault is read, and make a call that is refused too. This one then finds a fault
        that was not read, and puts it back.
        """
        caller, callers = _this.caller, self.callers
        fault = caller.fault
        before = bytes(fault) if fault.status else None
        try:
            callers.append(caller)
            status = function(*arguments)
        finally:
            callers.remove(caller)
        if not status or status == DONE:
            return status
        told = _read(fault, before)
        if status == NOT_FOUND or status == MISUSE:
            return status
        raise fault_of(status, told if told.status == status else None, self.path)

    def during(self, work: Callable[[], None]) -> None:
        """Does work that may call the library with the pointer."""
        caller, callers = _this.caller, self.callers
        try:
            callers.append(caller)
            work()
        finally:
            callers.remove(caller)

    def withdraw(self) -> None:
        """Calls that begin from now on are told null."""
        number = self.at.value
        if number:
            self.number, self.at.value = number, None

    def is_called_elsewhere(self) -> bool:
        """Whether another thread may be inside the library with the pointer."""
        mine = _this.caller.fault
        return any(caller.fault is not mine and caller not in _interrupted for caller in list(self.callers))

    def is_to_free(self) -> bool:
        return bool(self._to_free) and bool(self.number or self.at)

    def free(self, function: Callable[[int], Any]) -> Any:
        """Frees the pointer by a call, of which the answer is answered; 0 if that was done before."""
        self.withdraw()
        try:
            self._to_free.pop()
        except IndexError:
            return 0
        except BaseException:
            # A signal handler's, which came at the end of the pop: so the pointer is still to be freed.
            self._to_free.append(True)
            raise
        return function(self.number) if self.number else 0
