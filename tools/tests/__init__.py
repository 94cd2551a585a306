"""The tests of ctm-tools."""
