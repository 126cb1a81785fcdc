# Completion of gz-hold(8) for fish. It asks the table as the completion of gz-table(8) does.
source (status dirname)/gz-table.fish

# The words after the program, up to a --.
function __gz_hold_words
    set -l words (commandline -opc)[2..]
    switch "$words[1..2]"
        case 'put --remove'
            set words put $words[3..]
        case 'who --json'
            set words who $words[3..]
        case 'wait --live'
            set words live $words[3..]
        case 'upgrade --wait'
            set words upgrade $words[4..]
        case 'upgrade --drain'
            set words upgrade $words[3..]
    end
    set -q words[1]; and printf '%s\n' $words
end

function __gz_hold_commands
    printf '%s\n' create\t'Make the table' renew\t'Take in new modules of the machine' get\t'Load modules and hold them' put\t'Give modules back' run\t'Hold modules while a command runs' \
        keep\t'Hold modules until standard input ends' \
        remove\t'Remove modules that nobody uses' upgrade\t'Remove a module, run a command, load it again' \
        guard\t'Let modprobe -r ask the table' reap\t'Give back what dead processes hold' check\t'Compare the table with the kernel' \
        mend\t'Bring the table to the kernel' list\t'List who holds what' \
        log\t'Show who asked for what' oci\t'Be the hook of a container runtime' who\t'Show who is in the way of a removal' \
        wait\t'Wait until a module is free, or live'
end

# What may follow the words.
function __gz_hold_follow
    set -l words (__gz_hold_words)
    set -l folder /run/modules
    test -z "$GZ_TABLE"; or set folder $GZ_TABLE
    set -l end (contains -i -- -- $words)
    set -q end[1]; and set words -- $words
    switch (math (count $words) - 1)"$words[1]"
        case '*--'
            complete -C (string join ' ' -- $words[(math $end + 2)..] (commandline -ct))
        case -1
            __gz_hold_commands
        case 0get 0put 0run
            __gz_table_ask $folder held
        case '*get' '*run' '*keep' '*oci' 0live
            __gz_table_catalogue $folder
        case '*put'
            __gz_table_ask $folder held $words[2]
        case '*remove' 0upgrade '*guard' 0who 0wait
            __gz_table_ask $folder proc
    end
end

# Whether the command is one of these, with at least as many words, and no -- stands before.
function __gz_hold_at -a least
    set -l words (__gz_hold_words)
    test (count $words) -ge $least; and contains -- "$words[1]" $argv[2..]; and not contains -- -- $words
end

# Whether a -- may stand here, and the word begins like one.
function __gz_hold_ends
    string match -q -- '-*' (commandline -ct); and begin
        __gz_hold_at 3 run; or __gz_hold_at 1 upgrade
    end
end

complete -c gz-hold -f -a '(__gz_hold_follow)'
complete -c gz-hold -n 'test (count (__gz_hold_words)) = 0' -s h -l help -d 'Show a help text'
complete -c gz-hold -n 'test (count (__gz_hold_words)) = 0' -s V -l version -d 'Show the version'
complete -c gz-hold -n '__gz_hold_at 1 put oci' -l remove -d 'Remove what nobody holds then'
complete -c gz-hold -n '__gz_hold_at 1 check list who' -l json -d 'Write JSON, an object a line'
complete -c gz-hold -n '__gz_hold_at 1 wait' -l live -d 'Until it is live'
complete -c gz-hold -n '__gz_hold_at 1 create' -l if-missing -d 'Leave one that is there'
complete -c gz-hold -n '__gz_hold_at 1 create' -l log -d 'Note who asks for what'
complete -c gz-hold -n '__gz_hold_at 1 put' -l all -d 'Give back all of all'
complete -c gz-hold -n '__gz_hold_at 1 guard' -l off -d 'Let it ask no longer'
complete -c gz-hold -n '__gz_hold_at 1 upgrade' -l wait -x -d 'How long it is tried'
complete -c gz-hold -n '__gz_hold_at 1 upgrade' -l drain -d 'Let nobody else get it'
complete -c gz-hold -n '__gz_hold_ends' -a -- -d 'The command follows'
