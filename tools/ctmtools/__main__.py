"""`python3 -m ctmtools`, which ./ctm-tools calls, and the command that a wheel installs."""

import sys


def begin() -> None:
    """Runs a command on the words; where packages without which there is none are missing, a line says which."""
    try:
        from .command_line import main
    except KeyboardInterrupt:  # while the packages were loaded
        print("ctm-tools: interrupted", file=sys.stderr)
        sys.exit(130)
    except ModuleNotFoundError as error:
        name = (error.name or "").partition(".")[0]
        print(f"ctm-tools: the Python package {name} is missing: pip install {name}, or Debian's python3-{name}", file=sys.stderr)
        sys.exit(2)
    main()


if __name__ == "__main__":
    begin()
