"""Completions for bash, zsh and fish, made from the form of the command line."""

import form

# the ending of the files that an argument or an option's value names
ENDINGS = {"IMAGE": "image", "SCRIPT": "script", "TEXT": "aom", "SOURCE": "ao"}
MADE = "made by tools/manual"


def quoted(text):
    """A word for a shell, between single quotes."""
    return "'" + text.replace("'", "'\\''") + "'"


def valued(command):
    """The options of a command that take a value."""
    return [it for it in command.options if it.value]


# bash

BASH = """\
# completion of aom for bash, {made}

_aom_files() {{
  local ending=$1
  compopt -o filenames 2>/dev/null
  mapfile -t COMPREPLY < <(compgen -f -X "!*.$ending" -- "$current"; compgen -d -- "$current")
}}

_aom_words() {{
  mapfile -t COMPREPLY < <(compgen -W "$1" -- "$current")
}}

# the argument of that number of a command, or its options
_aom_argument() {{
  case $1:$2 in
{arguments}
  esac
}}

_aom() {{
  local current=${{COMP_WORDS[COMP_CWORD]}} before=${{COMP_WORDS[COMP_CWORD - 1]}} command=${{COMP_WORDS[1]}}
  local at=2 number=0 ended=0 image={image}
  COMPREPLY=()
  if [ "$COMP_CWORD" -eq 1 ]; then
    _aom_words "{commands} help --help --version"
    return
  fi
  # an equals sign is a word of its own here
  [ "$current" = '=' ] && current=
  [ "$before" = '=' ] && before=${{COMP_WORDS[COMP_CWORD - 2]}}
  while [ "$at" -lt "$COMP_CWORD" ]; do
    case $ended:${{COMP_WORDS[at]}} in
      0:--) ended=1 ;;
      0:--asm) image={text} ;;
      0:--source) image={source} ;;
      {values})
        at=$((at + 1))
        [ "${{COMP_WORDS[at]}}" = '=' ] && at=$((at + 1))
        ;;
      0:-*) ;;
      *) number=$((number + 1)) ;;
    esac
    at=$((at + 1))
  done
  case $ended:$before in
    0:--text) _aom_files {text} ;;
    {numbers}) ;;
    *)
      case $ended:$current in
        0:-*) _aom_argument "$command" options ;;
        *) _aom_argument "$command" "$number" ;;
      esac
      ;;
  esac
}}

complete -F _aom aom
"""


def bash_argument(command, number, argument):
    if argument.many:
        return f'    {command.name}:*) _aom_words "{" ".join(form.natives())}" ;;'
    # with --asm a text stands in the place of an image, with --source a source
    ending = "$image" if argument.name == "IMAGE" else ENDINGS[argument.name]
    return f"    {command.name}:{number}) _aom_files {ending} ;;"


def bash_command(command):
    options = " ".join(f"--{it.name}" for it in command.options)
    yield f'    {command.name}:options) _aom_words "{f"{options} --help".strip()}" ;;'
    for number, argument in enumerate(command.arguments):
        yield bash_argument(command, number, argument)


def bash():
    commands = form.commands()
    names = " ".join(it.name for it in commands)
    options = sorted({it.name: it for command in commands for it in valued(command)}.items())
    return BASH.format(
        made=MADE,
        commands=names,
        text=ENDINGS["TEXT"],
        image=ENDINGS["IMAGE"],
        source=ENDINGS["SOURCE"],
        arguments="\n".join([line for it in commands for line in bash_command(it)] + [f'    help:0) _aom_words "{names}" ;;']),
        values=" | ".join(f"0:--{name}" for name, _ in options),
        numbers=" | ".join(f"0:--{name}" for name, it in options if it.value not in ENDINGS),
    )


# zsh

ZSH = """\
#compdef aom
# completion of aom for zsh, {made}

_aom() {{
  local context state state_descr line
  typeset -A opt_args
  _arguments -C '(- *)'{{-h,--help}}'[print help]' '(- *)'{{-V,--version}}'[print version]' '1:command:->command' '*::argument:->argument'
  case $state in
    command)
      local -a commands=(
{commands}
        'help:Print the help of a command'
      )
      _describe command commands
      ;;
    argument)
      case $words[1] in
{arguments}
        help) _values command {names} ;;
      esac
      ;;
  esac
}}

_aom "$@"
"""


def bracketed(text):
    """Text within the brackets of an option of `_arguments`, or behind its colon."""
    return text.replace("[", "\\[").replace("]", "\\]").replace(":", "\\:")


def zsh_value(name):
    return f"_files -g \"*.{ENDINGS[name]}\"" if name in ENDINGS else " "


def zsh_option(option):
    value = f":{option.value}:{zsh_value(option.value)}" if option.value else ""
    return quoted(f"{'*' if option.many else ''}--{option.name}[{bracketed(option.help)}]{value}")


# what may stand in the place of an image, by the option that says so
IN_PLACE = {"asm": "TEXT", "source": "SOURCE"}


def in_place(command):
    """The options by which another file may stand in the place of a command's image."""
    return [it.name for it in command.options if it.name in IN_PLACE]


def zsh_argument(command, argument):
    if argument.many:
        return quoted(f"*:{bracketed(argument.help)}:({' '.join(form.natives())})")
    endings = "|".join(ENDINGS[it] for it in ["IMAGE", *(IN_PLACE[name] for name in in_place(command))])
    value = f'_files -g "*.({endings})"' if argument.name == "IMAGE" and in_place(command) else zsh_value(argument.name)
    return quoted(f":{bracketed(argument.help)}:{value}")


def zsh():
    commands = form.commands()
    told = [" ".join([f"        {it.name}) _arguments", *map(zsh_option, it.options), *(zsh_argument(it, one) for one in it.arguments), ";;"]) for it in commands]
    listed = [f"        {quoted(f'{it.name}:{bracketed(it.about)}')}" for it in commands]
    return ZSH.format(made=MADE, commands="\n".join(listed), arguments="\n".join(told), names=" ".join(it.name for it in commands))


# fish

FISH = """\
# completion of aom for fish, {made}

# how many arguments of the command stand before the cursor, without options and their values
function __aom_arguments
    set -l words (commandline -opc)
    set -l count 0
    set -e words[1 2]
    while set -q words[1]
        switch $words[1]
            case {values}
                set -e words[1]
            case '-*'
            case '*'
                set count (math $count + 1)
        end
        set -e words[1]
    end
    echo $count
end

function __aom_at
    __fish_seen_subcommand_from $argv[1]; and test (__aom_arguments) -eq $argv[2]
end

function __aom_from
    __fish_seen_subcommand_from $argv[1]; and test (__aom_arguments) -ge $argv[2]
end

complete -c aom -f
complete -c aom -n __fish_use_subcommand -s h -l help -d 'Print help'
complete -c aom -n __fish_use_subcommand -s V -l version -d 'Print version'
{commands}
complete -c aom -n '__aom_at help 0' -a '{names}'
"""


def fish_option(command, option):
    head = f"complete -c aom -n '__fish_seen_subcommand_from {command.name}' -l {option.name} -d {quoted(option.help)}"
    if option.value in ENDINGS:
        return f"{head} -r -k -a '(__fish_complete_suffix .{ENDINGS[option.value]})'"
    return f"{head} -x" if option.value else head


def fish_argument(command, number, argument):
    if argument.many:
        return f"complete -c aom -n '__aom_from {command.name} {number}' -a '{' '.join(form.natives())}' -d native"
    head = f"complete -c aom -n '__aom_at {command.name} {number}"
    options = in_place(command) if argument.name == "IMAGE" else []

    def files(kind, conditions):
        tests = "".join(f"; and {it}" for it in conditions)
        return f"{head}{tests}' -k -a '(__fish_complete_suffix .{ENDINGS[kind]})' -d {quoted(argument.help)}"

    lines = [files(argument.name, [f"not __fish_contains_opt {it}" for it in options])]
    return "\n".join(lines + [files(IN_PLACE[it], [f"__fish_contains_opt {it}"]) for it in options])


def fish_command(command):
    yield f"complete -c aom -n __fish_use_subcommand -a {command.name} -d {quoted(command.about)}"
    yield from (fish_option(command, it) for it in command.options)
    yield from (fish_argument(command, number, it) for number, it in enumerate(command.arguments))


def fish():
    commands = form.commands()
    values = sorted({f"--{it.name}" for command in commands for it in valued(command)})
    lines = [line for it in commands for line in fish_command(it)]
    return FISH.format(made=MADE, values=" ".join(values), commands="\n".join(lines), names=" ".join(it.name for it in commands))
