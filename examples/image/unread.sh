# What cannot be read or written, and what is no file, folder or release where one is looked for. It needs bash, setpriv(1) if root runs it, and gz-modprobe on the path.
modules=machine/lib/modules/6.1.0
mkdir -p $modules machine/etc closed conf.d odd.d quiet.d
echo 'kernel/loop.ko:' >$modules/modules.dep
touch $modules/modules.{alias,symbols,builtin,builtin.modinfo}
# Root can read each file, unless it gives up what lets it.
bound=()
[ "$(id -u)" != 0 ] || bound=(setpriv '--bounding-set=-dac_override,-dac_read_search')

# Shows the status, if it is not 0.
tell() {
    [ "$1" = 0 ] || echo "status $1"
}
# Asks, and shows the messages too. The current folder is cut.
ask() {
    echo "> $*"
    "${bound[@]}" gz-modprobe "$@" 2>&1 | sed "s|$PWD/||"
    tell "${PIPESTATUS[0]}"
}
# Asks with one configuration alone.
ask_with() {
    ask -d machine -S 6.1.0 -C "$1" "${@:2}"
}
# Asks while nothing takes what is written.
ask_in_vain() {
    echo "> $* >/dev/full"
    { gz-modprobe --root=machine -S 6.1.0 "$@" >/dev/full; } 2>&1
    tell $?
}

# What one may not read is told: each text of a release, a file that -C names, and a link to where one may not go.
echo 'options loop closed=1' | tee closed.conf >closed/x.conf
ln -s ../closed/x.conf conf.d/x.conf
chmod 0 closed closed.conf $modules
ask --root=machine -S 6.1.0 -D loop
chmod 755 $modules
ask_with closed.conf -D loop
ask_with conf.d -D loop
chmod 755 closed closed.conf

# A folder is no text.
mv $modules/modules.dep kept
mkdir $modules/modules.dep
ask --root=machine -S 6.1.0 -R loop
rmdir $modules/modules.dep
mv kept $modules/modules.dep

# With -q a file that cannot be read is not told.
ln -s /proc/self/mem quiet.d/mem.conf
ask_with quiet.d -q -D loop

# Why a file is not read whose name is no UTF-8. Its name is not shown here.
: >odd.d/$'\xe9.conf'
ask_with odd.d -D loop | LC_ALL=C sed 's|cannot read .*: |cannot read it: |'

# A lint that could not look at all does not end well, also if -q leaves out why.
mkdir machine/closed.d machine/odd.d
echo 'options loop closed=1' >machine/closed.d/x.conf
: >machine/odd.d/$'\xe9.conf'
chmod 0 machine/closed.d/x.conf
ask --root=machine -S 6.1.0 -C /closed.d --lint
ask --root=machine -S 6.1.0 -C /closed.d/x.conf -q --lint
chmod 0 machine/closed.d
ask --root=machine -S 6.1.0 -C /closed.d --lint
chmod 755 machine/closed.d
ask --root=machine -S 6.1.0 -C /odd.d --lint | LC_ALL=C sed 's|cannot read .*: |cannot read it: |'
mv machine/closed.d machine/etc/modprobe.d
chmod 0 machine/etc
ask --root=machine -S 6.1.0 --lint
chmod 755 machine/etc
rm -r machine/etc/modprobe.d machine/odd.d

# A pipe and a device are never opened, which might wait for ever or never end: each is told, and other files count. A link to
# /dev/null is an empty file.
mkdir waits.d machine/waits.d
mkfifo waits.d/pipe.conf machine/waits.d/pipe.conf
ln -s /dev/zero waits.d/zero.conf
ln -s /dev/null waits.d/none.conf
echo 'options loop own=1' >waits.d/own.conf
ask_with waits.d -D loop
ask_with waits.d -q --lint
ask --root=machine -S 6.1.0 -C /waits.d --lint
mv $modules/modules.alias kept
mkfifo $modules/modules.alias
ask --root=machine -S 6.1.0 -R none
rm $modules/modules.alias
mv kept $modules/modules.alias
rm -r waits.d machine/waits.d

# Where the current folder was removed, or is no UTF-8, nobody can tell where a relative -d and ./NAME are.
top=$PWD
touch loop.ko
for folder in gone $'\xe9'; do
    mkdir "$folder"
    cp loop.ko "$folder"
    cd "$folder" || exit
    [ "$folder" != gone ] || rm -r ../gone
    ask -d ../machine -S 6.1.0 -D loop
    ask -d "$top/machine" -S 6.1.0 -C /dev/null -D ./loop.ko | sed "s|$top/||"
    ask -d "$top/machine" -S 6.1.0 -C /dev/null -D loop | sed "s|$top/||"
    cd "$top" || exit
done
rm -r $'\xe9' loop.ko

# A file in the place of a folder of the configuration counts, and beside the folders of releases a file is none.
echo 'options loop own=1' >machine/etc/modprobe.d
touch machine/lib/modules/README
ask --root=machine -D loop

# The release that runs is read whole, though its file is said to be empty.
release=$(cat /proc/sys/kernel/osrelease)
cp -r $modules "machine/lib/modules/$release"
ask -d machine -C /dev/null -D loop | sed "s|$release|RELEASE|"

# What finds no room on a full device is no success, for a lint and for what leads to a module.
echo 'blacklist none' >machine/none.conf
ask_in_vain --lint -C /none.conf
ask_in_vain --why -C /none.conf loop
rm -r machine closed closed.conf conf.d odd.d quiet.d
