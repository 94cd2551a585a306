"""./ctm --try: the program's own answer, or none."""

import subprocess
import time

import pytest


ENDED = "echo 'checked: ended status=%d' >&2; echo 'run=ended status=%d runners=1 races=unchecked proved=no' >&2; exit %d"


def test_a_trial_ends_as_the_program_does(repository):
    repository.trial.write_text("cat; echo \"$@\"; pwd; " + ENDED % (0, 0, 0))
    status, out, err = repository.call("--try", "run", "--regions", "3", given=b"network\n")
    assert (status, out) == (0, "network\ntry --seconds 600 -- run --regions 3\n"
                                f"{repository.top}/crates/ctm_program\n")
    told = err.splitlines()
    assert "not the proved program's result" in told[0] and "./ctm run --regions 3 proves" in told[0]
    assert "1 MiB" in told[1] and "10 min" in told[1]
    assert len(told) == 2
    assert repository.events() == []


@pytest.mark.parametrize("status", [3, 4, 5, 6])
def test_a_trial_has_the_status_and_the_line_of_the_program(repository, status):
    """Some of these numbers are rt's own too, for trials that have no result."""
    repository.trial.write_text("echo 'ctm: told' >&2; " + ENDED % (status, status, status))
    assert repository.call("--try", "run")[0] == status
    assert repository.call("--try", "run")[2].splitlines()[2:] == ["ctm: told"]


def test_a_text_that_is_cut_off_is_no_result(repository):
    limit = "the program wrote more than 1048576 bytes to standard output or to standard error, the limit on each"
    repository.trial.write_text(f"echo half; echo 'checked: no-answer: {limit}' >&2; "
                                "echo 'run=no-answer proved=no' >&2; exit 6")
    status, out, err = repository.call("--try", "run")
    assert (status, out) == (125, "")
    assert err.splitlines()[-1] == f"./ctm: the trial has no result: {limit}"


def test_a_trial_that_breaks_off_is_no_result(repository):
    repository.trial.write_text("echo half; echo broken >&2; exit 0")
    status, out, err = repository.call("--try", "run")
    assert (status, out) == (125, "")
    assert err.splitlines()[-2:] == ["broken", "./ctm: the trial has no result"]


def test_an_input_that_pauses_is_read_whole(repository):
    """rt itself takes an input for ended that is silent for two seconds, so it is begun when all is there."""
    begun = repository.top.parent / "begun"
    repository.trial.write_text(f"touch {begun}; cat; " + ENDED % (0, 0, 0))
    process = repository.start("--try", "run", stdin=subprocess.PIPE)
    process.stdin.write(b"one\n")
    process.stdin.flush()
    time.sleep(1)
    assert not begun.exists()
    out, _ = process.communicate(b"two\n")
    assert (process.returncode, out) == (0, b"one\ntwo\n") and begun.exists()


@pytest.mark.parametrize("mode, read", [("run", b"16777217\n"), ("resume", b"67108865\n")])
def test_an_input_without_end_is_read_to_the_limit_of_the_program(repository, mode, read):
    repository.trial.write_text("wc -c; " + ENDED % (4, 4, 4))
    with open("/dev/zero", "rb") as endless:
        process = repository.start("--try", mode, stdin=endless)
        assert process.communicate()[0] == read


def test_a_made_network_reads_nothing(repository):
    repository.trial.write_text("cat; " + ENDED % (0, 0, 0))
    assert repository.call("--try", "sample", given=b"network\n")[:2] == (0, "")


def test_refused_words_are_not_tried(repository):
    repository.trial.write_text("exit 1")
    status, out, err = repository.call("--try", "run", "--regions", "513")
    assert (status, out, err.count("\n")) == (2, "", 1)
    assert "from 1 to 512" in err


def test_a_trial_on_a_full_device_is_told(repository):
    repository.trial.write_text("echo text; " + ENDED % (0, 0, 0))
    with open("/dev/full", "wb") as full:
        process = repository.start("--try", "run", stdout=full)
        assert b"the text can't be written" in process.communicate()[1]
    assert process.returncode == 125
