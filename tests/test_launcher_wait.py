"""How ./ctm-wait builds and runs its program: as ./ctm does, over the same crates."""

import pytest


def test_the_first_call_builds_and_runs(repository):
    status, out, err = repository.call("2", given=b"a\n", command="ctm-wait")
    assert (status, out) == (0, "a\nby 2\n")
    first, second, *_ = err.splitlines()
    assert first.startswith("./ctm-wait: the program isn't built of the sources that stand here")
    assert second.startswith("./ctm-wait: proving and building the program from 5 crates")
    assert "5 of 5: ctm_wait" in err
    assert repository.call("2", given=b"b\n", command="ctm-wait") == (0, "b\nby 2\n", "")


def test_what_one_command_has_proved_the_other_takes_as_it_is(repository):
    assert repository.call("run")[0] == 0
    repository.events()
    assert repository.call("16", command="ctm-wait")[0] == 0
    assert repository.proved() == ["ctm_wait"]
    assert repository.call("run")[2] == ""


def test_a_source_that_was_changed_builds_it_again(repository):
    repository.call("1", command="ctm-wait")
    repository.edit("top")
    repository.events()
    assert repository.call("1", command="ctm-wait")[0] == 0
    assert repository.proved() == ["top", "ctm_wait"]


def test_the_path_of_the_program(repository):
    status, out, _ = repository.call("--path", command="ctm-wait")
    assert (status, out) == (0, f"{repository.top}/crates/ctm_wait/out/ctm_wait\n")


@pytest.mark.parametrize("words", [(), ("",), ("0",), ("17",), ("-1",), ("2.0",), ("run",), ("2", "2"), ("0000000002",)])
def test_words_that_are_no_number_of_workers_build_nothing(repository, words):
    status, out, err = repository.call(*words, command="ctm-wait")
    assert (status, out, err.count("\n")) == (2, "", 1)
    assert "from 1 to 16" in err and "nothing was built or run" in err
    assert repository.events() == []


def test_the_page_of_the_command(repository):
    assert repository.call("--help", command="ctm-wait")[1].startswith("usage: ./ctm-wait WORKERS < FILE")
    assert repository.events() == []
