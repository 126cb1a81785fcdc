# What a machine with a Realtek network card, an Intel one and an NVMe disk would load. It needs bash, and gz-modprobe on the path.
here=$(cd "$(dirname "$0")" && pwd)

# Asks over the files of this folder, and shows paths from here. A status other than 0 is shown too.
ask() {
    echo "> $*"
    gz-modprobe -S 6.1.0-50-amd64 -d "$here" -C "$here/modprobe.d" "$@" | sed "s|$here/||"
    local status=${PIPESTATUS[0]}
    [ "$status" = 0 ] || echo "status $status"
}

# A device says what it is: the card's modalias, as the kernel gives it to a device manager.
ask -R pci:v000010ECd00008168sv00001458sd0000E000bc02sc00i00
# Its modules in the order of loading. realtek is a soft dependency of r8169 (modules.softdep), and has an install line.
ask -D pci:v000010ECd00008168sv00001458sd0000E000bc02sc00i00
# The configuration's name for it, with a parameter for this once. With -i its install line and its soft dependencies are left out.
ask -D -i eth0 use_dac=1
# The disk's driver needs six modules. crct10dif is an alias of two modules, and a soft dependency of crc_t10dif.
ask -D nvme
# A device doesn't load what is on the blacklist, and that is no error. A name does, but not with -b.
ask -D pci:v00008086d000015BCsv000017AAsd0000225Dbc02sc00i00
ask -D e1000e
ask -D -b e1000e
# Built-ins by name, and by the aliases of modules.builtin.modinfo.
ask -a -D rtc-cmos net-pf-10 crypto-md5
# Which module exports a symbol?
ask -R symbol:phy_start
# A name that nothing stands for: status 1, and no message with -q.
ask -q -a -D nothing e1000e
