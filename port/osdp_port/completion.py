"""What a shell offers for `osdp-port`, for bash and for zsh, made of its words. tools/completion puts it into
the files of release."""
from .serial_port import RATES
from .words import COMMANDS, OPTIONS, TESTS

BASH = """_osdp_port() {{
  local word=${{COMP_WORDS[COMP_CWORD]}} before=${{COMP_WORDS[COMP_CWORD - 1]}} command= each
  for each in "${{COMP_WORDS[@]:1:COMP_CWORD - 1}}"; do
    case $each in {commands}) command=${{command:-$each}} ;; esac
  done
  case $before in
    {files}) COMPREPLY=($(compgen -f -- "$word")); return ;;
    {values}) COMPREPLY=(); return ;;
  esac
  if [[ $word == -* ]]; then
    case $command in
{options}
    esac
    COMPREPLY=($(compgen -W "$each" -- "$word"))
  elif [[ $before == test ]]; then
    COMPREPLY=($(compgen -W '{tests}' -- "$word"))
  elif [[ $command == trace || $before == script ]]; then
    COMPREPLY=($(compgen -f -- "$word"))
  elif [[ $before == /dev/* || $before == *://* ]]; then
    COMPREPLY=($(compgen -W '{rates}' -- "$word"))
  elif [[ $command == '' && ( $before =~ ^[0-9]+$ || $before == help ) ]]; then
    COMPREPLY=($(compgen -W '{words}' -- "$word"))
  elif [[ $command == '' ]]; then
    each=$(compgen -G '/dev/ttyUSB*'; compgen -G '/dev/ttyACM*'; compgen -G '/dev/serial/by-id/*')
    COMPREPLY=($(compgen -W "$each" -- "$word"))
  else
    COMPREPLY=()
  fi
}}
"""
ZSH = """_osdp_at_port() {{
  local command each
  for each in ${{words[2,CURRENT-1]}}; do
    case $each in {commands}) command=${{command:-$each}} ;; esac
  done
  case $words[CURRENT-1] in
    {files}) _files; return ;;
    {values}) return ;;
  esac
  if [[ $words[CURRENT] == -* ]]; then
    case $command in
{options}
    esac
    compadd -- ${{=each}}
  elif [[ $words[CURRENT-1] == test ]]; then
    compadd {tests}
  elif [[ $command == trace || $words[CURRENT-1] == script ]]; then
    _files
  elif [[ $words[CURRENT-1] == /dev/* || $words[CURRENT-1] == *://* ]]; then
    compadd {rates}
  elif [[ -z $command && ( $words[CURRENT-1] == <-> || $words[CURRENT-1] == help ) ]]; then
    compadd {words}
  elif [[ -z $command ]]; then
    compadd /dev/ttyUSB*(N) /dev/ttyACM*(N) /dev/serial/by-id/*(N)
  fi
}}
"""


def options_of(command):
    """The options of a command; of `test` those of each test. Where no command stands yet, all."""
    names = [
        option.name
        for option in OPTIONS
        if not command or any(each == command or each.startswith(f"{command} ") for each in option.commands)
    ]
    return " ".join(names if command else [*names, "--help", "--version"])


def made(template):
    """The function for a shell."""
    cases = [f"      {command or repr('')}) each='{options_of(command)}' ;;" for command in ("", *COMMANDS)]
    values = [option.name for option in OPTIONS if option.value and not option.is_file]
    return template.format(
        commands=" | ".join(COMMANDS),
        files=" | ".join(option.name for option in OPTIONS if option.is_file),
        values=" | ".join(values),
        options="\n".join(cases),
        tests=" ".join(TESTS),
        rates=" ".join(map(str, RATES)),
        words=" ".join(COMMANDS),
    )
