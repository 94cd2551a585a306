"""Chains of what follows each other."""

from ctmtools.chains import chains


def test_what_follows_nothing_begins_a_chain_and_a_ring_begins_with_its_first():
    following = {"s": "r", "r": "s", "b": None, "a": "b", "alone": None, "round": "round"}
    assert chains(following, following.get) == [["a", "b"], ["alone"], ["s", "r"], ["round"]]


def test_two_that_are_followed_by_one_have_it_in_the_first_chain():
    following = {"a": "c", "b": "c", "c": "d", "d": None}
    assert chains(following, following.get) == [["a", "c", "d"], ["b"]]
