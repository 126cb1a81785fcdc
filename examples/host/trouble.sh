# The questions of gz-modprobe(8), TROUBLESHOOTING, over a machine that is made here. It needs bash, and gz-modprobe on the path.
here=$(cd "$(dirname "$0")" && pwd)
release=6.1.0-50-amd64

# Writes a line into a file of the machine, or of an image.
put() {
    mkdir -p "$(dirname "$1")"
    echo "$2" >"$1"
}
# The machine takes the place of this one, but for a query that names a root.
gz-modprobe() {
    case "$*" in
    *--root*) command gz-modprobe "$@" ;;
    *) command gz-modprobe --root=machine "$@" ;;
    esac
}
cat() { command cat "machine$1"; }
ask() {
    echo "$ $1"
    eval "$1" 2>&1
}

# Two network cards and a disk. The disk's driver is at work, for a mounted file system, and so is the PHY's, but not the
# card's.
put machine/proc/sys/kernel/osrelease $release
put machine/sys/class/net/eth0/device/modalias pci:v000010ECd00008168sv00001458sd0000E000bc02sc00i00
for module in 'nvme 1' 'nvme_core 2' 'realtek 0' 'libphy 1'; do
    put "machine/sys/module/${module% *}/initstate" live
    put "machine/sys/module/${module% *}/refcnt" "${module#* }"
done
mkdir -p machine/sys/module/nvme_core/holders/nvme machine/sys/module/libphy/holders/realtek
cp -r "$here/lib" machine
mkdir -p machine/etc machine/lib/modprobe.d
cp -r "$here/modprobe.d" machine/etc

ask 'gz-modprobe --explain -D e1000e 2>&1 | grep blacklist'
ask 'gz-modprobe -R "$(cat /sys/class/net/eth0/device/modalias)"'
ask 'gz-modprobe --explain -r -n -v nvme-core'
ask 'gz-modprobe --explain -D e1000e 2>&1 | grep options'
# The module of the second card is e1000e.
put machine/etc/modprobe.d/local.conf 'options e1000 debug=16'
ask 'gz-modprobe --explain -c >/dev/null'
rm machine/etc/modprobe.d/local.conf
ask 'gz-modprobe --whole --explain -r -n -v realtek'
# The kernel was replaced by a later one, and still runs.
put machine/proc/sys/kernel/osrelease 6.1.0-49-amd64
ask 'gz-modprobe -D nvme'
put machine/proc/sys/kernel/osrelease $release
# A package has a file of the same name.
put machine/lib/modprobe.d/card.conf 'options e1000e debug=1'
ask 'gz-modprobe --explain -c >/dev/null'
# What unmkinitramfs(8) unpacks.
mkdir -p image/main/lib/modules/$release
cp "$here/lib/modules/$release/modules.dep" image/main/lib/modules/$release
put image/main/etc/modprobe.d/disk.conf 'options nvme-core io_timeout=30'
ask 'gz-modprobe --root=image/main -c | grep options'
# kmod 34 reads no files of aliases.
put machine/etc/modprobe.d/old.alias 'alias eth1 e1000e'
ask 'diff <(gz-modprobe --as=30 -c) <(gz-modprobe -c)'
rm -r machine image
