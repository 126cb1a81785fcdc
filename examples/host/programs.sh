# The commands of gz-modprobe(8) for programs that read JSON, over a machine that is made here. It needs bash, jq, and gz-modprobe on the path.
here=$(cd "$(dirname "$0")" && pwd)

# The machine takes the place of this one.
gz-modprobe() { command gz-modprobe --root=machine "$@"; }
ask() {
    echo "$ $1"
    eval "$1"
}

mkdir -p machine/etc machine/modprobe.d
cp -r "$here/lib" machine
cp -r "$here/modprobe.d" machine/etc

# The first fact, and what the disk's driver needs itself.
ask "gz-modprobe --explain=json -D nvme 2>&1 >/dev/null | head -n 1"
ask "gz-modprobe --explain=json -D nvme 2>&1 >/dev/null |
    grep '^{' | jq -r 'select(.what == \"needed_by\" and .by == \"nvme\" and .direct).module'"
# The answer, each line of it as an object, and then the facts. For a shell each file is inserted once.
ask "gz-modprobe --json -D nvme | jq -r 'select(.what == \"insmod\" and .options != \"\").path'"
ask "gz-modprobe --shell -D e1000e 'eee=\"x y\"' | tail -n 1"
# A configuration that names a module of another kernel.
printf '# The speaker makes no sound.\nblacklist snd-pcsp\n' >machine/modprobe.d/own.conf
ask "gz-modprobe --lint=json -C ./modprobe.d | head -n 1"
rm -r machine
