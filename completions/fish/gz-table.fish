# Completion of gz-table(8) for fish.

# The words after the options: the folder, the command, and what follows it.
function __gz_table_words
    set -l words (commandline -opc)[2..]
    while string match -q -- '-*' "$words[1]"
        test "$words[1]" != --wait; or set words $words[2..]
        set words $words[2..]
    end
    test -z "$GZ_TABLE"; or set -p words $GZ_TABLE
    switch "$words[2..3]"
        case 'modprobe -r'
            set words $words[1] rmmod $words[4..]
        case 'hold --again'
            set words $words[1] hold $words[4..]
    end
    set -q words[1]; and string replace -r '^~/' "$HOME/" -- $words
end

# Whether this many words stand there, and the command is this one, if one is named.
function __gz_table_at -a least most command
    set -l words (__gz_table_words)
    test (count $words) -ge $least -a (count $words) -le $most; and string match -q -- $command "$words[2]"
end

# First words of what the table of a folder answers, if there is one and nobody else is at it.
function __gz_table_ask -a folder
    test -f $folder/setup
    and GZ_TABLE= gz-table --wait 0 $folder $argv[2..] 2>/dev/null | string replace -r ' .*' '' | sort -u
end

# The modules of the catalogue of a folder's table. If the word has a _, each - of a name is shown as a _.
function __gz_table_catalogue -a folder
    set -l shown cat
    string match -q '*_*' -- (commandline -ct); and set shown tr - _
    awk '/^%/ { reads = $1 == "%catalogue" } reads && $1 == "module" { print $2 }' $folder/setup 2>/dev/null | $shown
end

function __gz_table_commands
    printf '%s\n' create\t'Make a table' renew\t'Give the table another setup' adopt\t'Bring the table to the modules of a kernel' \
        check\t'Read all files of the folder' compact\t'Write the journal anew' insmod\t'Load one module' \
        rmmod\t'Remove one module' modprobe\t'Load or remove modules with what they need' \
        plan\t'Show what a load would load' lsmod\t'List the modules' proc\t'List them as /proc/modules does' \
        modinfo\t'Describe a module' drain\t'Let nobody else get a module' get\t'Take a reference' \
        put\t'Give a reference back' query\t'Ask whether anybody holds a module' hold\t'Hold modules, all or none' \
        release\t'Give back what a holder holds' holders\t'Show who holds a module' held\t'Show what is held' \
        begin_load\t'Begin a load' end_load\t'End a load' begin_remove\t'Begin a removal' end_remove\t'End a removal' \
        cancel_remove\t'Call a removal off'
end

# What may follow the words.
function __gz_table_follow
    set -l words (__gz_table_words)
    switch (math (count $words) - 2)"$words[2]"
        case -2
            __fish_complete_directories (commandline -ct)
        case -1
            __gz_table_commands
        case '*create' '*renew'
            printf '%s\n' catalogue=\t'Descriptions of modules' dep=\t'Lines of modules.dep' \
                alias=\t'Lines of modules.alias' conf=\t'Lines of modprobe.d'
        case 0get 0put 0hold 0release 0held
            __gz_table_ask $words[1] held
        case 1put '*release'
            __gz_table_ask $words[1] held $words[3]
        case 0insmod 0modprobe 0plan 0modinfo 0query 0begin_load
            __gz_table_catalogue $words[1]
        case 1get '*hold' 0rmmod 0drain 0holders 0end_load 0begin_remove 0end_remove 0cancel_remove
            __gz_table_ask $words[1] proc
        case 1end_load
            printf '%s\n' ok fail
    end
end

set -l begins '__gz_table_at 0 (count (string match -- "?*" "$GZ_TABLE")) "*"'
set -l makes '__gz_table_at 2 99 create'
set -l creates "begin; $makes; or __gz_table_at 2 99 renew; end"
complete -c gz-table -f -a '(__gz_table_follow)'
complete -c gz-table -n '__gz_table_at 2 2 adopt' -F
complete -c gz-table -n "$creates; and string match -q '*=*' -- (commandline -ct)" -F
complete -c gz-table -n $begins -l wait -x -d 'How long another process is waited for'
complete -c gz-table -n $begins -l no-sync -d 'Changes need not be on the disk'
complete -c gz-table -n $begins -s h -l help -d 'Show a help text'
complete -c gz-table -n $begins -s V -l version -d 'Show the version'
complete -c gz-table -n $creates -l host -d 'Make it of the files of a machine'
complete -c gz-table -n $creates -s S -x -a '(path basename /lib/modules/*/)' -d 'Of a release'
complete -c gz-table -n $creates -l root -x -a '(__fish_complete_directories)' -d 'Below a folder'
complete -c gz-table -n $creates -l as -x -a '30 34' -d 'As a version of kmod'
complete -c gz-table -n $makes -l mode -x -a '700 750 755 770' -d 'Who may use it'
complete -c gz-table -n '__gz_table_at 2 2 check' -l repair -d 'Cut damage off the journal, and keep it'
complete -c gz-table -n '__gz_table_at 2 2 modprobe' -s r -d 'Remove'
complete -c gz-table -n '__gz_table_at 2 2 hold' -l again -d 'Also what it holds'
