"""The help of the program, as the program itself would write it, from the form of its command line: for `./aom` where no program is built."""

import form

PRINTED = "Print this message or the help of the given subcommand(s)"
# what is said of a call without words
NO_COMMAND = [
    "error: 'aom' requires a subcommand but one was not provided",
    f"  [subcommands: {', '.join([*(it.name for it in form.commands()), 'help'])}]",
    "",
    "Usage: aom <COMMAND>",
    "",
    "For more information, try '--help'.",
]


def rows(pairs, indent="  "):
    """Two columns, as wide as the widest of the first."""
    wide = max(len(head) for head, _ in pairs)
    return [f"{indent}{head:<{wide}}  {says}" for head, says in pairs]


def program_help():
    commands = rows([*((it.name, it.about) for it in form.commands()), ("help", PRINTED)])
    options = rows([("-h, --help", "Print help"), ("-V, --version", "Print version")])
    return [form.about(), "", "Usage: aom <COMMAND>", "", "Commands:", *commands, "", "Options:", *options, "", *form.below()]


def argument_rows(command):
    return rows([(f"[{it.name}]..." if it.many else f"<{it.name}>", it.help) for it in command.arguments])


def option_rows(command):
    own = [(f"    --{it.name} <{it.value}>" if it.value else f"    --{it.name}", it.help + (f" [default: {it.standard}]" if it.standard else "")) for it in command.options]
    return rows([*own, ("-h, --help", "Print help")])


def command_help(command):
    words = "".join(f" {f'[{it.name}]...' if it.many else f'<{it.name}>'}" for it in command.arguments)
    options = " [OPTIONS]" if command.options else ""
    arguments = ["", "Arguments:", *argument_rows(command)] if command.arguments else []
    return [command.about, "", f"Usage: aom {command.name}{options}{words}", *arguments, "", "Options:", *option_rows(command)]


def help_asked(words):
    """The lines of help, or of the version, that these words of a call ask for; None where they ask for something else."""
    commands = {it.name: it for it in form.commands()}
    if words in (["help"], ["--help"], ["-h"]):
        return program_help()
    if words in (["--version"], ["-V"]):
        return [f"aom {form.version()}"]
    named = [] if not words else words[1:2] if words[0] == "help" else words[:1] if words[1:] in (["--help"], ["-h"]) else []
    return command_help(commands[named[0]]) if named and named[0] in commands and len(words) == 2 else None
