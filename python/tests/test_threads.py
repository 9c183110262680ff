"""Threads at once, and threads with too little stack."""

from __future__ import annotations

import threading
from concurrent.futures import ThreadPoolExecutor

import pytest
from noskjerf import run
from noskjerf._library import STACK

from .cases import CASES, T


def test_many_threads_run_at_once() -> None:
    """Each of 8 threads runs all texts, from another one on, and none sees anything of the others."""
    start = threading.Barrier(8)

    def wrong(first: int) -> list[str]:
        start.wait()
        turned = CASES[first:] + CASES[:first]
        return [case.name for case in turned if run(case.text).printed != case.printed]

    with ThreadPoolExecutor(8) as pool:
        assert list(pool.map(wrong, range(0, 151, 19))) == [[]] * 8


def ends(stack: int) -> str:
    """How a run ends in a thread with a stack of so many bytes."""
    said = []

    def answer() -> None:
        try:
            said.append("accepted" if run(T).refusal is None else "refused")
        except RuntimeError as error:
            said.append(str(error))

    before = threading.stack_size(stack)
    try:
        thread = threading.Thread(target=answer)
        thread.start()
    finally:
        threading.stack_size(before)
    thread.join()
    return said[0]


@pytest.mark.parametrize("stack", [0, STACK, 64 << 20])
def test_a_thread_with_enough_stack_runs(stack: int) -> None:
    assert ends(stack) == "accepted"


@pytest.mark.parametrize("stack", [32 << 10, 256 << 10, STACK - 4096])
def test_a_thread_with_too_little_stack_is_an_error_and_no_crash(stack: int) -> None:
    assert ends(stack) == f"this thread has a stack of {stack >> 10} KiB and the engine wants 1024: call threading.stack_size(1048576) before the thread is started"
