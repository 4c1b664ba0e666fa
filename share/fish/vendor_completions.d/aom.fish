# completion of aom for fish, made by tools/manual

# how many arguments of the command stand before the cursor, without options and their values
function __aom_arguments
    set -l words (commandline -opc)
    set -l count 0
    set -e words[1 2]
    while set -q words[1]
        switch $words[1]
            case --expect --from --limit --text --to --tries
                set -e words[1]
            case '-*'
            case '*'
                set count (math $count + 1)
        end
        set -e words[1]
    end
    echo $count
end

function __aom_at
    __fish_seen_subcommand_from $argv[1]; and test (__aom_arguments) -eq $argv[2]
end

function __aom_from
    __fish_seen_subcommand_from $argv[1]; and test (__aom_arguments) -ge $argv[2]
end

complete -c aom -f
complete -c aom -n __fish_use_subcommand -s h -l help -d 'Print help'
complete -c aom -n __fish_use_subcommand -s V -l version -d 'Print version'
complete -c aom -n __fish_use_subcommand -a check -d 'Says whether an image is accepted, or what is wrong with it first'
complete -c aom -n '__fish_seen_subcommand_from check' -l prices -d 'Also tells the most steps, frames and cleanup entries that each method comes to'
complete -c aom -n '__fish_seen_subcommand_from check' -l explain -d 'Explains a fault: what it means, where it is, and what usually mends it'
complete -c aom -n '__fish_seen_subcommand_from check' -l lines -d 'Tells a fault in one line with its file and line, as compilers do; needs --asm or --text'
complete -c aom -n '__fish_seen_subcommand_from check' -l all -d 'Tells the first fault of each method that is refused, and not of the first alone'
complete -c aom -n '__fish_seen_subcommand_from check' -l warn -d 'Also tells what nobody may have wanted'
complete -c aom -n '__fish_seen_subcommand_from check' -l text -d 'The text that the image was made of, to tell things by its names and lines' -r -k -a '(__fish_complete_suffix .aom)'
complete -c aom -n '__fish_seen_subcommand_from check' -l asm -d 'Takes an assembly text in place of the image, and assembles it first'
complete -c aom -n '__fish_seen_subcommand_from check' -l source -d 'Takes a source in place of the image, and compiles it first'
complete -c aom -n '__aom_at check 0; and not __fish_contains_opt asm; and not __fish_contains_opt source' -k -a '(__fish_complete_suffix .image)' -d 'The file of an image; with --asm of an assembly text, with --source of a source'
complete -c aom -n '__aom_at check 0; and __fish_contains_opt asm' -k -a '(__fish_complete_suffix .aom)' -d 'The file of an image; with --asm of an assembly text, with --source of a source'
complete -c aom -n '__aom_at check 0; and __fish_contains_opt source' -k -a '(__fish_complete_suffix .ao)' -d 'The file of an image; with --asm of an assembly text, with --source of a source'
complete -c aom -n __fish_use_subcommand -a run -d 'Checks an image, runs it under a script and writes the transcript'
complete -c aom -n '__fish_seen_subcommand_from run' -l limit -d 'Ends a run after N dispatches, main'\''s not counted' -x
complete -c aom -n '__fish_seen_subcommand_from run' -l explain -d 'Explains a fault: what it means, where it is, and what usually mends it'
complete -c aom -n '__fish_seen_subcommand_from run' -l names -d 'Writes the names of classes in place of their numbers; needs --asm, --source or --text'
complete -c aom -n '__fish_seen_subcommand_from run' -l warn -d 'Also tells what nobody may have wanted'
complete -c aom -n '__fish_seen_subcommand_from run' -l text -d 'The text that the image was made of, to tell things by its names and lines' -r -k -a '(__fish_complete_suffix .aom)'
complete -c aom -n '__fish_seen_subcommand_from run' -l asm -d 'Takes an assembly text in place of the image, and assembles it first'
complete -c aom -n '__fish_seen_subcommand_from run' -l source -d 'Takes a source in place of the image, and compiles it first'
complete -c aom -n '__aom_at run 0; and not __fish_contains_opt asm; and not __fish_contains_opt source' -k -a '(__fish_complete_suffix .image)' -d 'The file of an image; with --asm of an assembly text, with --source of a source'
complete -c aom -n '__aom_at run 0; and __fish_contains_opt asm' -k -a '(__fish_complete_suffix .aom)' -d 'The file of an image; with --asm of an assembly text, with --source of a source'
complete -c aom -n '__aom_at run 0; and __fish_contains_opt source' -k -a '(__fish_complete_suffix .ao)' -d 'The file of an image; with --asm of an assembly text, with --source of a source'
complete -c aom -n '__aom_at run 1' -k -a '(__fish_complete_suffix .script)' -d 'The file of a script; /dev/null is an empty one'
complete -c aom -n '__aom_from run 2' -a 'counter line delay' -d native
complete -c aom -n __fish_use_subcommand -a explore -d 'Runs an image again with each fault in turn, such as a refused request for memory'
complete -c aom -n '__fish_seen_subcommand_from explore' -l limit -d 'Ends a run after N dispatches, main'\''s not counted' -x
complete -c aom -n '__fish_seen_subcommand_from explore' -l from -d 'The number of the first request for memory that is refused' -x
complete -c aom -n '__fish_seen_subcommand_from explore' -l to -d 'The number of the last request for memory that is refused' -x
complete -c aom -n '__fish_seen_subcommand_from explore' -l kills -d 'Also kills each native in turn, at each time at which a dispatch begins'
complete -c aom -n '__fish_seen_subcommand_from explore' -l deaths -d 'Also lets each client of the script die in turn, at each of these times'
complete -c aom -n '__fish_seen_subcommand_from explore' -l pairs -d 'Also refuses two requests for memory in one run, each pair in turn'
complete -c aom -n '__fish_seen_subcommand_from explore' -l tries -d 'The most pairs that --pairs tries' -x
complete -c aom -n '__fish_seen_subcommand_from explore' -l base -d 'Also tells how the run as it is ends, before all others'
complete -c aom -n '__fish_seen_subcommand_from explore' -l expect -d 'An end that is expected: stopped, waiting, left, limit, error, or a last line'\''s words; runs that end otherwise are marked and counted' -x
complete -c aom -n '__fish_seen_subcommand_from explore' -l text -d 'The text that the image was made of, to tell things by its names and lines' -r -k -a '(__fish_complete_suffix .aom)'
complete -c aom -n '__fish_seen_subcommand_from explore' -l asm -d 'Takes an assembly text in place of the image, and assembles it first'
complete -c aom -n '__fish_seen_subcommand_from explore' -l source -d 'Takes a source in place of the image, and compiles it first'
complete -c aom -n '__aom_at explore 0; and not __fish_contains_opt asm; and not __fish_contains_opt source' -k -a '(__fish_complete_suffix .image)' -d 'The file of an image; with --asm of an assembly text, with --source of a source'
complete -c aom -n '__aom_at explore 0; and __fish_contains_opt asm' -k -a '(__fish_complete_suffix .aom)' -d 'The file of an image; with --asm of an assembly text, with --source of a source'
complete -c aom -n '__aom_at explore 0; and __fish_contains_opt source' -k -a '(__fish_complete_suffix .ao)' -d 'The file of an image; with --asm of an assembly text, with --source of a source'
complete -c aom -n '__aom_at explore 1' -k -a '(__fish_complete_suffix .script)' -d 'The file of a script; /dev/null is an empty one'
complete -c aom -n '__aom_from explore 2' -a 'counter line delay' -d native
complete -c aom -n __fish_use_subcommand -a debug -d 'Runs an image step by step, by commands from standard input; help tells them'
complete -c aom -n '__fish_seen_subcommand_from debug' -l limit -d 'Ends a run after N dispatches, main'\''s not counted' -x
complete -c aom -n '__fish_seen_subcommand_from debug' -l prompt -d 'Writes a prompt before each line is read; an empty line repeats the last step'
complete -c aom -n '__fish_seen_subcommand_from debug' -l text -d 'The text that the image was made of, to tell things by its names and lines' -r -k -a '(__fish_complete_suffix .aom)'
complete -c aom -n '__fish_seen_subcommand_from debug' -l asm -d 'Takes an assembly text in place of the image, and assembles it first'
complete -c aom -n '__fish_seen_subcommand_from debug' -l source -d 'Takes a source in place of the image, and compiles it first'
complete -c aom -n '__aom_at debug 0; and not __fish_contains_opt asm; and not __fish_contains_opt source' -k -a '(__fish_complete_suffix .image)' -d 'The file of an image; with --asm of an assembly text, with --source of a source'
complete -c aom -n '__aom_at debug 0; and __fish_contains_opt asm' -k -a '(__fish_complete_suffix .aom)' -d 'The file of an image; with --asm of an assembly text, with --source of a source'
complete -c aom -n '__aom_at debug 0; and __fish_contains_opt source' -k -a '(__fish_complete_suffix .ao)' -d 'The file of an image; with --asm of an assembly text, with --source of a source'
complete -c aom -n '__aom_at debug 1' -k -a '(__fish_complete_suffix .script)' -d 'The file of a script; /dev/null is an empty one'
complete -c aom -n '__aom_from debug 2' -a 'counter line delay' -d native
complete -c aom -n __fish_use_subcommand -a asm -d 'Assembles a text: writes the image to standard output'
complete -c aom -n '__fish_seen_subcommand_from asm' -l explain -d 'Explains a fault: what it means, where it is, and what usually mends it'
complete -c aom -n '__aom_at asm 0' -k -a '(__fish_complete_suffix .aom)' -d 'The file of an assembly text'
complete -c aom -n __fish_use_subcommand -a dis -d 'Lists an image: writes it as a text to standard output'
complete -c aom -n '__fish_seen_subcommand_from dis' -l source -d 'Takes a source in place of the image, and compiles it first'
complete -c aom -n '__aom_at dis 0; and not __fish_contains_opt source' -k -a '(__fish_complete_suffix .image)' -d 'The file of an image; with --source of a source'
complete -c aom -n '__aom_at dis 0; and __fish_contains_opt source' -k -a '(__fish_complete_suffix .ao)' -d 'The file of an image; with --source of a source'
complete -c aom -n __fish_use_subcommand -a dot -d 'Draws an image: writes its classes and methods as a graph for Graphviz'
complete -c aom -n '__fish_seen_subcommand_from dot' -l text -d 'The text that the image was made of, to tell things by its names and lines' -r -k -a '(__fish_complete_suffix .aom)'
complete -c aom -n '__fish_seen_subcommand_from dot' -l asm -d 'Takes an assembly text in place of the image, and assembles it first'
complete -c aom -n '__fish_seen_subcommand_from dot' -l source -d 'Takes a source in place of the image, and compiles it first'
complete -c aom -n '__aom_at dot 0; and not __fish_contains_opt asm; and not __fish_contains_opt source' -k -a '(__fish_complete_suffix .image)' -d 'The file of an image; with --asm of an assembly text, with --source of a source'
complete -c aom -n '__aom_at dot 0; and __fish_contains_opt asm' -k -a '(__fish_complete_suffix .aom)' -d 'The file of an image; with --asm of an assembly text, with --source of a source'
complete -c aom -n '__aom_at dot 0; and __fish_contains_opt source' -k -a '(__fish_complete_suffix .ao)' -d 'The file of an image; with --asm of an assembly text, with --source of a source'
complete -c aom -n __fish_use_subcommand -a compile -d 'Compiles a source: writes it as an assembly text to standard output'
complete -c aom -n '__fish_seen_subcommand_from compile' -l map -d 'Writes where each line comes from, and the names of registers, in place of the text'
complete -c aom -n '__aom_at compile 0' -k -a '(__fish_complete_suffix .ao)' -d 'The file of a source'
complete -c aom -n __fish_use_subcommand -a show -d 'Shows a source with what the compiler has added to each line'
complete -c aom -n '__aom_at show 0' -k -a '(__fish_complete_suffix .ao)' -d 'The file of a source'
complete -c aom -n __fish_use_subcommand -a lsp -d 'Answers editors what they ask of sources, over standard input and output'
complete -c aom -n '__aom_at help 0' -a 'check run explore debug asm dis dot compile show lsp'
