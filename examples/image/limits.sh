# What has no limit here: the length of a word and of a variable, how many words, files and modules there are, and the size of a file. It needs bash, and gz-modprobe on the path.
modules=machine/lib/modules/6.1.0
mkdir -p $modules machine/{many,names,twenty} machine/sys/module/m{001..300}
printf 'kernel/%s.ko:\n' loop wmi m{001..300} >$modules/modules.dep
touch $modules/modules.{alias,symbols,builtin,builtin.modinfo}

# Asks of the machine, and shows the messages too. A status other than 0 is shown.
ask() {
    gz-modprobe --root=machine -S 6.1.0 "$@" 2>&1
    local status=$?
    [ "$status" = 0 ] || echo "status $status"
}
# Shows each line once, behind how often it came.
count() {
    sort | uniq -c | sed 's|^ *||'
}

# The variable counts whatever else it has: without its -a, the second name would be a parameter of the first.
echo '> -d / -D loop wmi, with -a in the variable behind a -d of 20,000 letters'
MODPROBE_OPTIONS="-d $(printf '%020000d' 7) -a" ask -d / -D loop wmi
echo '> -d / -D loop wmi, with -a in the variable behind a -d that is no text'
MODPROBE_OPTIONS=$'-d \xe9 -a' ask -d / -D loop wmi

# A long word is one word, and ends nothing. Of its zeros one is shown.
echo '> -R of 100,000 letters'
ask -R "$(printf '%0100000d' 7)" | tr -s 0
echo '> -a -R of 70,000 words'
mapfile -t words < <(yes loop | head -70000)
ask -a -R "${words[@]}" | count

# Each -C counts, in the order of the names of the files.
sources=()
for n in {01..20}; do
    echo "options loop own$n=1" >"machine/twenty/$n.conf"
    sources+=(-C "twenty/$n.conf")
done
echo '> -D loop, with 20 times -C'
ask "${sources[@]}" -D loop

# Each file of a folder counts, here with one option: they stand behind insmod and the path.
for n in {001..300}; do
    echo "options loop own$n=1" >"machine/many/$n.conf"
done
echo '> -C many -D loop: how many words the line has'
ask -C many -D loop | wc -w
# Of a folder with long names the last counts too.
touch machine/names/a_name_of_a_file_{0001..4000}.conf
echo 'options loop last=1' >machine/names/a_name_of_a_file_4000.conf
echo '> -C names -D loop'
ask -C names -D loop

# A large file is read to its end, where a bad line is told.
{ yes 'options loop max_loop=8' | head -70000 && echo nonsense; } >machine/large.conf
echo '> -C large.conf -c: how many options, and the message'
ask -C /large.conf -c >said
grep -c '^options loop max_loop=8$' said
grep '^gz-modprobe:' said

# Each module has its state: what is live has no line.
for state in machine/sys/module/*; do
    echo live >"$state/initstate"
    echo 0 >"$state/refcnt"
done
echo '> -a -n -v of 300 live modules and one that is not'
ask -a -n -v m{001..300} loop
rm -r machine said
