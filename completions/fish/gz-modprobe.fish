# Completion of gz-modprobe(8) for fish.

# What the words before say, a line each: the folder of releases, the release, and whether a name may follow.
function __gz_modprobe_said
    set -l words (commandline -opc)
    # (the empty word is the value of a last option, or a name)
    argparse -i a/all r/remove why C/config=+ d/dirname= S/set-version= root= as= -- $words[2..] '' 2>/dev/null
    set -l root (string replace -r '^~/' "$HOME/" -- "$_flag_root")
    set -l dir (string replace -r '^~/' "$HOME/" -- "$_flag_d")
    set -l folder $dir/lib/modules
    test -z "$root"; or set folder $root/$folder
    echo $folder
    set -l there $folder/*/
    if test -n "$_flag_S"
        echo $_flag_S
    else if test -r $root/proc/sys/kernel/osrelease
        cat $root/proc/sys/kernel/osrelease
    else if test (count $there) = 1
        path basename $there
    else
        echo
    end
    set -q _flag_a; or set -q _flag_r; or set -q _flag_why; or test (count (string match -v -- '-*' $argv)) = 1; and echo yes
end

function __gz_modprobe_releases
    path basename (__gz_modprobe_said)[1]/*/
end

# The modules of modules.dep. If the word has a _, each - of a name is shown as a _.
function __gz_modprobe_modules
    set -l said (__gz_modprobe_said)
    test "$said[3]" = yes; or return
    set -l spelled
    string match -q '*_*' -- (commandline -ct); and set spelled -e 's/-/_/g'
    sed -e 's/:.*//; s,.*/,,; s/[.].*//' $spelled $said[1]/$said[2]/modules.dep 2>/dev/null
end

complete -c gz-modprobe -f -a '(__gz_modprobe_modules)'
complete -c gz-modprobe -n 'string match -qr "^[.]?/" -- (commandline -ct)' -F
complete -c gz-modprobe -s D -l show-depends -d 'Show what a load takes, whatever is loaded'
complete -c gz-modprobe -s n -l dry-run -l show -d 'Show what a load does now, with -v'
complete -c gz-modprobe -s R -l resolve-alias -d 'Show the modules that a name stands for'
complete -c gz-modprobe -s r -l remove -d 'With -n -v, show what a removal does now'
complete -c gz-modprobe -s c -l showconfig -l show-config -d 'Show the configuration'
complete -c gz-modprobe -s h -l help -d 'Show a help text'
complete -c gz-modprobe -s V -l version -d 'Show the version'
complete -c gz-modprobe -s a -l all -d 'Take each word as a name'
complete -c gz-modprobe -l as -x -a '30 34' -d 'Answer as a version of kmod'
complete -c gz-modprobe -s b -l use-blacklist -d 'The blacklist counts for names of modules too'
complete -c gz-modprobe -s C -l config -r -F -d 'Read a configuration in place of the usual folders'
complete -c gz-modprobe -s d -l dirname -x -a '(__fish_complete_directories)' -d 'Look for lib/modules below a folder'
complete -c gz-modprobe -l diff -d 'Show what the files named behind it load instead'
complete -c gz-modprobe -l explain -f -a json -d 'Say which lines gave the answer'
complete -c gz-modprobe -l first-time -d 'Fail if a module is loaded, or removed, already'
complete -c gz-modprobe -s i -l ignore-install -l ignore-remove -d 'Pass over install and remove lines'
complete -c gz-modprobe -l ignore -r -F -d 'Leave out the notes of --lint that a file names'
complete -c gz-modprobe -l json -d 'Show the answer, and what gave it, as JSON'
complete -c gz-modprobe -l lint -f -a json -d 'Show lines of the configuration without effect'
complete -c gz-modprobe -s q -l quiet -d 'Show few messages, and no lines of -n'
complete -c gz-modprobe -l root -x -a '(__fish_complete_directories)' -d 'Read all files below a folder'
complete -c gz-modprobe -s S -l set-version -x -a '(__gz_modprobe_releases)' -d 'Answer for a release'
complete -c gz-modprobe -l shell -d 'Show lines quoted for sh, each insmod once'
complete -c gz-modprobe -l strict -d 'With --lint, commands that keep nothing out count too'
complete -c gz-modprobe -s v -l verbose -d 'Show the lines of -n and -r -n'
complete -c gz-modprobe -l whole -d 'Show the removal itself, with -r'
complete -c gz-modprobe -l why -d 'Show what leads to a module'
