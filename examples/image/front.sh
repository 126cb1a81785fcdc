# What scripts rest on: the status, the variable MODPROBE_OPTIONS, words and lines of any length, and which files count. It needs bash, setpriv(1) if root runs it, and gz-modprobe on the path.
mkdir -p machine/lib/modules/6.1.0 machine/lib/modules/6.2.0 machine/etc/modprobe.d/folder.conf machine/lib/modprobe.d conf.d
printf 'kernel/loop.ko:\n' | tee machine/lib/modules/6.1.0/modules.dep >machine/lib/modules/6.2.0/modules.dep
touch machine/lib/modules/6.{1,2}.0/modules.{alias,symbols,builtin,builtin.modinfo}

# Shows the status, if it is not 0.
tell() {
    [ "$1" = 0 ] || echo "status $1"
}
ask() {
    echo "> $*"
    gz-modprobe --root=machine -S 6.1.0 "$@" 2>&1
    tell $?
}

# Of files of one name that of /etc counts, a folder is none, and a bad line is told of its own file.
printf 'options loop max_loop=8\n' >machine/etc/modprobe.d/loop.conf
printf 'options loop max_loop=64\n' >machine/lib/modprobe.d/loop.conf
printf 'options loop max_part=4\nnonsense\n' >machine/lib/modprobe.d/part.conf
printf 'options loop hidden=1\n' >machine/lib/modprobe.d/.hidden.conf
ask -D loop
# A line may have any length: here the first has 70,000 digits, and the second is told by its number.
printf 'options loop max_loop=%070000d\nblacklist none\n' 8 >machine/etc/long.conf
ask --lint -C /etc/long.conf
# A file that is there and cannot be read is told, and the others count.
ln -s /proc/self/mem conf.d/mem.conf
ln -s "$PWD/machine/etc/modprobe.d/loop.conf" conf.d/link.conf
ask() {
    echo "> $*"
    gz-modprobe -d "$PWD/machine" -S 6.1.0 -C conf.d "$@" 2>&1 | sed "s|$PWD/||"
    tell "${PIPESTATUS[0]}"
}
ask -D loop
# A link to a folder is that folder, and -d need not begin at the root.
ln -s "$PWD/machine/lib/modprobe.d" linked
echo '> -d machine -C linked -D loop'
gz-modprobe -d machine -S 6.1.0 -C linked -D loop 2>&1 | sed "s|$PWD/||"

# A link to nothing, or to itself, hides the files of its name for kmod 30. kmod 34 tells it, and leaves it out.
printf 'options loop off=1\n' >linked/off.conf
printf 'options loop round=1\n' >linked/round.conf
mkdir links.d
ln -s none links.d/off.conf
ln -s round.conf links.d/round.conf
for kmod in 30 34; do
    echo "> --as=$kmod -C links.d -C linked -D loop"
    gz-modprobe --as=$kmod -d machine -S 6.1.0 -C links.d -C linked -D loop 2>&1 | sed "s|$PWD/||" | sort
done
rm linked/off.conf linked/round.conf

# A folder that cannot be listed is told, and counts as empty. Root can list each, unless it gives up what lets it.
mkdir -m 0 closed.d
bound=()
[ "$(id -u)" != 0 ] || bound=(setpriv --bounding-set=-dac_override,-dac_read_search)
echo '> -C closed.d -C conf.d/link.conf -D loop'
"${bound[@]}" gz-modprobe -d machine -S 6.1.0 -C closed.d -C conf.d/link.conf -D loop 2>&1 | sed "s|$PWD/||"

# The words of the variable stand before those of the command line: the last release counts.
export MODPROBE_OPTIONS='-S 6.2.0 -v'
ask -D loop
echo '> -D loop, with -S in the variable alone'
gz-modprobe -d "$PWD/machine" -C conf.d/link.conf -D loop | sed "s|$PWD/||"
echo '> -D loop, with a -d of 5,000 letters before -S in the variable'
export MODPROBE_OPTIONS="-d $(printf '%05000d' 7) -S 6.2.0"
gz-modprobe -d "$PWD/machine" -C conf.d/link.conf -D loop | sed "s|$PWD/||"
export MODPROBE_OPTIONS='--no-such-option'
ask -D loop
unset MODPROBE_OPTIONS

# A file whose name is no UTF-8 is told of where it is opened, and not as one that is not read.
mkdir odd.d
: >odd.d/$'\xe9.conf'
echo '> --explain -D loop, with such a file: lines on standard error, and how many of them have ": not read"'
gz-modprobe -d "$PWD/machine" -S 6.1.0 -C odd.d --explain -D loop 2>said >/dev/null
wc -l <said
grep -c ': not read' said
rm -r odd.d

# A long word is one word, and many words are all asked for.
echo '> -R of 9,000 letters'
gz-modprobe -d "$PWD/machine" -S 6.1.0 -R "$(printf '%09000d' 7)" 2>&1 | sed "s|0\{100,\}|0..|; s|$PWD/||"
tell "${PIPESTATUS[0]}"
# kmod refuses a name of 4,096 bytes or more that an alias of the configuration matches. Here no length is special.
printf 'alias 0*7 loop\n' >long.conf
for letters in 4095 4096 4097; do
    echo "> -R of $letters letters, without an alias and with one"
    for conf in conf.d/link.conf long.conf; do
        gz-modprobe -d "$PWD/machine" -S 6.1.0 -C $conf -R "$(printf "%0${letters}d" 7)" 2>&1 | sed "s|0\{100,\}|0..|; s|$PWD/||"
        tell "${PIPESTATUS[0]}"
    done
done
rm long.conf
echo '> -a -D of 2,000 words'
gz-modprobe -d "$PWD/machine" -S 6.1.0 -C conf.d/link.conf -a -D $(yes loop | head -2000) | sort | uniq -c | sed "s|$PWD/||; s|^ *||"

# The help and the version are no faults.
for words in --help --version; do
    echo "> $words"
    gz-modprobe $words >said
    tell $?
    head -1 said | cut -d ' ' -f 1
done
# What cannot be written is no success, for an answer, the help and the version.
for words in '-c -C conf.d/link.conf' --help --version; do
    echo "> $words >/dev/full"
    gz-modprobe -d "$PWD/machine" -S 6.1.0 $words 2>&1 >/dev/full
    tell $?
done
echo '> -c -C conf.d/link.conf, with standard output closed'
gz-modprobe -d "$PWD/machine" -S 6.1.0 -c -C conf.d/link.conf 2>&1 >&-
tell $?
# A reader that has what it wants is no error to tell.
yes 'options loop max_loop=8' | head -10000 >conf.d/many.conf
echo '> -c | head -1'
gz-modprobe -d "$PWD/machine" -S 6.1.0 -C conf.d/many.conf -c 2>said | head -1
tell "${PIPESTATUS[0]}"
cat said
rm -r machine conf.d links.d closed.d linked said
