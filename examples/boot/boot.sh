# A boot of three scripts that share a table. It needs bash, and gz-table, gz-hold and gz-modprobe on the path.
here=$(cd "$(dirname "$0")" && pwd)
# A file plays the kernel's list of modules, and the texts of another example play this machine's.
machine=$(cd "$here/../host" && pwd)
export PATH=$here:$here/../stand_ins:$PATH
export GZ_TABLE=$PWD/table GZ_HOLD_MODULES=$PWD/modules MODPROBE_OPTIONS="--root=$machine -S 6.1.0-50-amd64"
echo 'crc64 16384 0 - Live 0x0000000000000000' >modules

# Shows a call with what it writes, and a status other than 0.
call() {
    echo "> $*" | sed "s|$machine|MACHINE|"
    "$@"
    local status=$?
    [ "$status" = 0 ] || echo "status $status"
}

call early --root="$machine" -S 6.1.0-50-amd64
# Two network cards of one kind: the driver is loaded with what it needs, once.
card=pci:v000010ECd00008168sv00001458sd0000E000bc02sc00i00
call device add /devices/pci0/card0 $card
call device add /devices/pci0/card1 $card
call service start
call gz-hold list
# An administrator's script cannot take away what is in use.
call gz-hold remove r8169
call gz-hold remove nvme
# The driver stays until the second card is gone.
call device remove /devices/pci0/card0
call device remove /devices/pci0/card1
call gz-hold remove r8169
# A script is begun anew, as after a fault.
call service start
call service stop
call service stop
call gz-hold remove nvme
call early
call gz-hold check
awk '{ print $1 }' modules
rm -r table modules modules.lock
