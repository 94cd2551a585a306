"""What the commands answer where there is less stack than the programs may need, before anything is built or read."""

import resource

import pytest
from launched import heed_signals

NEEDED = 1 << 20
TOLD = "the stack has {} KiB, and the program may need 1024; ulimit -s 8192 gives it what is usual; nothing was run\n"


def with_stack(bytes_of_stack):
    def limit():
        heed_signals()
        resource.setrlimit(resource.RLIMIT_STACK, (bytes_of_stack, resource.RLIM_INFINITY))
    return {"preexec_fn": limit}


@pytest.mark.parametrize("command, words", [("ctm", ["run"]), ("ctm-wait", ["2"])])
@pytest.mark.parametrize("has", [256 << 10, NEEDED - 1024])
def test_with_too_little_stack_a_command_says_so_and_runs_nothing(without_rt, command, words, has):
    assert without_rt.call(*words, command=command, **with_stack(has)) == (125, "", f"./{command}: {TOLD.format(has >> 10)}")


@pytest.mark.parametrize("has", [NEEDED, resource.RLIM_INFINITY])
def test_with_enough_the_program_is_run(built, has):
    assert built.call("run", given=b"a\n", **with_stack(has)) == (0, "a\ndone\n", "")


def test_help_and_refused_words_need_none(built):
    assert built.call("--help", **with_stack(256 << 10))[0] == 0
    assert built.call("drive", **with_stack(256 << 10))[0] == 2
