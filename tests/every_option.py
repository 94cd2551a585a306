"""Words that give a mode every option that it has, none of them with the value that holds where it isn't given."""

EVERY_OPTION = {
    "run": ["run", "--regions", "2", "--cut", "grown", "--workers", "2", "--every", "2"],
    "watch": ["watch", "--regions", "3", "--cut", "grown", "--workers", "2", "--every", "5", "--shots", "8"],
    "sample": ["sample", "--regions", "32", "--workers", "8", "--size", "1", "--seed", "0"],
    "save": ["save", "--regions", "3", "--cut", "grown", "--workers", "2", "--until", "3"],
    "resume": ["resume", "--workers", "2"],
    "choose": ["choose"],
    "recut": ["recut", "--regions", "2", "--workers", "2", "--parts", "2"],
    "cut": ["cut", "--regions", "3"],
    "check": ["check"],
    "convert": ["convert"],
}
