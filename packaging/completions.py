"""Completions of ctm for bash, zsh and fish, made of the table of words."""

from collections.abc import Iterable

from word_table import Mode, Option, WordTable

COMMAND = "ctm"


def bash_completion(table: WordTable) -> str:
    """A function that offers modes, the options of the mode that stands there, words among an option's values, and files where
    the input comes from one or the text goes to one."""
    options = "\n".join(f"    [{mode.word}]='{_dashed(mode.options)}'" for mode in table.modes.values())
    values = "\n".join(f"    --{option.word}) offered='{' '.join(option.words)}' ;;" for option in table.options.values())
    return f"""\
# Completions of {COMMAND} for bash.

_{COMMAND}() {{
  local word=${{COMP_WORDS[COMP_CWORD]}} before=${{COMP_WORDS[COMP_CWORD - 1]}} given mode='' offered=''
  local -A options=(
{options}
  )
  # An equals sign is a word of its own here.
  [ "$before" != = ] || before=${{COMP_WORDS[COMP_CWORD - 2]}}
  if [ "$word" = = ]; then word=''; fi
  for given in "${{COMP_WORDS[@]:1:COMP_CWORD-1}}"; do
    [ -z "${{options[$given]+mode}}" ] || mode=$given
  done
  case $before in
    '<' | '>' | '>>')
      compopt -o filenames
      mapfile -t COMPREPLY < <(compgen -f -- "$word")
      return
      ;;
{values}
    *)
      if [ -n "$mode" ]; then
        offered=${{options[$mode]}}
      else
        offered='{' '.join(table.modes)} {_dashed(table.options)}'
        [ "$COMP_CWORD" -ne 1 ] || offered+=' {' '.join(table.own_spellings(COMMAND))}'
      fi
      ;;
  esac
  mapfile -t COMPREPLY < <(compgen -W "$offered" -- "$word")
}}
complete -F _{COMMAND} {COMMAND}
"""


def zsh_completion(table: WordTable) -> str:
    """A function for the folder of zsh's completions."""
    modes = "\n".join(f"  '{mode.word}:{mode.says}'" for mode in table.modes.values())
    arms = "\n".join(f"  {mode.word}) options=({' '.join(_zsh_option(table.options[it]) for it in mode.options)}) ;;"
                     for mode in table.modes.values())
    return f"""\
#compdef {COMMAND}
# Completions of {COMMAND} for zsh.

local -a modes options
modes=(
{modes}
)
case ${{words[(r)({'|'.join(table.modes)})]}} in
{arms}
  *) options=({' '.join(_zsh_option(it) for it in table.options.values())} {_zsh_own(table)}) ;;
esac
_arguments -S $options '1: :{{_describe mode modes}}'
"""


def _zsh_option(option: Option) -> str:
    return f"'--{option.word}=[{option.says}]:{option.letter}:({' '.join(option.words)})'"


def _zsh_own(table: WordTable) -> str:
    return " ".join(f"'(- 1)'{spelling}'[{word.says}]'" for word in table.own if COMMAND in word.commands
                    for spelling in word.spellings if spelling.startswith("-"))


def fish_completion(table: WordTable) -> str:
    """Lines of fish's command complete."""
    modes = " ".join(table.modes)
    none_yet = f"-n 'not __fish_seen_subcommand_from {modes}'"
    lines = [f"# Completions of {COMMAND} for fish.", f"complete -c {COMMAND} -f"]
    lines += [f"complete -c {COMMAND} {none_yet} -a {mode.word} -d '{mode.says}'" for mode in table.modes.values()]
    lines += [_fish_option(option, table.modes.values()) for option in table.options.values()]
    lines += [f"complete -c {COMMAND} {none_yet} {_fish_spelled(spelling)} -d '{word.says}'" for word in table.own
              if COMMAND in word.commands for spelling in word.spellings]
    return "\n".join(lines) + "\n"


def _fish_option(option: Option, modes: Iterable[Mode]) -> str:
    having = " ".join(mode.word for mode in modes if option.word in mode.options)
    values = f" -a '{' '.join(option.words)}'" if option.words else ""
    return (f"complete -c {COMMAND} -n '__fish_seen_subcommand_from {having}' -l {option.word} -x{values} "
            f"-d '{option.says}'")


def _fish_spelled(spelling: str) -> str:
    if spelling.startswith("--"):
        return f"-l {spelling[2:]}"
    return f"-s {spelling[1:]}" if spelling.startswith("-") else f"-a {spelling}"


def _dashed(words: Iterable[str]) -> str:
    return " ".join(f"--{word}" for word in words)


BY_SHELL = {"bash": bash_completion, "zsh": zsh_completion, "fish": fish_completion}
