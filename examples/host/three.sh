# Three questions that modprobe(8) does not answer, over a machine that is made here. It needs bash, and gz-modprobe on the path.
here=$(cd "$(dirname "$0")" && pwd)
release=6.1.0-50-amd64

# Writes a line at the end of a file of the machine.
put() {
    mkdir -p "$(dirname "machine/$1")"
    echo "$2" >>"machine/$1"
}
# The machine takes the place of this one.
gz-modprobe() { command gz-modprobe --root=machine "$@"; }
ask() {
    echo "$ $1"
    eval "$1" 2>&1
}

# A network card is at work, and no cable is in it. There is a watchdog too, whose module is not to be loaded.
mkdir machine
cp -r "$here/lib" machine
put lib/modules/$release/modules.dep kernel/drivers/watchdog/iTCO_wdt.ko:
put proc/sys/kernel/osrelease $release
put proc/cmdline 'BOOT_IMAGE=/vmlinuz root=/dev/nvme0n1p2 quiet modprobe.blacklist=iTCO-wdt'
for module in 'r8169 0' 'mdio_devres 1' 'libphy 2'; do
    put "sys/module/${module% *}/initstate" live
    put "sys/module/${module% *}/refcnt" "${module#* }"
done
mkdir -p machine/sys/module/mdio_devres/holders/r8169 machine/sys/module/libphy/holders/{r8169,mdio_devres}

# The blacklist does not work: its word has a - where the module's name has a _. modprobe says nothing.
ask 'cat machine/proc/cmdline'
ask 'gz-modprobe --lint'
ask 'gz-modprobe -D -b iTCO_wdt'
# What a removal takes, of which `modprobe -r -n -v` shows the first line alone.
ask 'gz-modprobe -r -n -v r8169'
ask 'gz-modprobe --whole -r -n -v r8169'
# What can load a module.
ask 'gz-modprobe --why realtek'
rm -r machine
