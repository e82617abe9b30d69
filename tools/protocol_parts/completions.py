"""The completions of the program's words in bash and zsh."""
from .parts import WRITTEN, Whole

BASH, ZSH = "packaging/completions/jpstore.bash", "packaging/completions/_jpstore"


def _flag(option):
    return "--" + option.get("flag", option["name"])


def _in_bash(table):
    words = " ".join(table.programs)
    lines = ["# bash completion for jpstore, " + WRITTEN, "", "_jpstore() {", "    local cur prev words cword",
             "    _init_completion || return", "    if ((cword == 1)); then",
             f'        COMPREPLY=($(compgen -W "{words} help --help --version" -- "$cur"))', "        return", "    fi",
             "    case $prev in"]
    valued = dict.fromkeys(_flag(option) for option in table.options.values() if "value" in option)
    lines += [f"    {' | '.join(valued)}) return ;;", "    esac", "    case ${words[1]}$cur in"]
    for word, row in table.programs.items():
        flags = " ".join(_flag(table.options[name]) for name in row["options"])
        lines.append(f'    {word}-*) COMPREPLY=($(compgen -W "{flags} --help" -- "$cur")) ;;')
    lines.append(f'    help*) COMPREPLY=($(compgen -W "{words}" -- "$cur")) ;;')
    with_files = " | ".join(word + "*" for word, row in table.programs.items() if row["files"])
    return "\n".join(lines + [f"    {with_files}) _filedir ;;", "    esac", "}", "complete -F _jpstore jpstore", ""])


def _quoted(text):
    return f'"{text}"' if "'" in text else f"'{text}'"


def _argument(option):
    choices = f":{option['value']}:{'(' + ' '.join(option['one_of']) + ')' if 'one_of' in option else ''}" if "value" in option else ""
    return _quoted(f"{_flag(option)}[{option['says']}]{choices}")


def _in_zsh(table):
    lines = ["#compdef jpstore", "# " + WRITTEN, "", "_jpstore() {", "  local -a commands", "  commands=("]
    lines += [f"    {_quoted(word + ':' + row['does'])}" for word, row in table.programs.items()]
    lines += ["    'help:show help'", "  )", "  if (( CURRENT == 2 )); then", "    _describe 'command' commands", "    return", "  fi",
              "  local command=$words[2]", "  shift words", "  (( CURRENT-- ))", "  case $command in"]
    for word, row in table.programs.items():
        files = [f"'{place}:{what}:_files'" for place, what in enumerate(row["files"], 1)]
        arguments = [_argument(table.options[name]) for name in row["options"]]
        lines.append(f"    {word}) _arguments {' '.join(arguments + files)} ;;")
    return "\n".join(lines + ["    help) _describe 'command' commands ;;", "  esac", "}", "", '_jpstore "$@"', ""])


def parts(table):
    """The completions."""
    return [Whole(BASH, _in_bash(table)), Whole(ZSH, _in_zsh(table))]
