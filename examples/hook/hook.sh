# The hooks of a container, with the states that its runtime writes. It needs bash, and gz-table, gz-hold and gz-modprobe on the path.
here=$(cd "$(dirname "$0")" && pwd)
# A file plays the kernel's list of modules, and texts of another example play those of the machine.
export PATH=$here/../stand_ins:$PATH
export GZ_TABLE=$PWD/table GZ_HOLD_MODULES=$PWD/modules GZ_HOLD_ROOT=$PWD MODPROBE_OPTIONS="--root=$here/../containers -S 6.1.0-56-amd64"
: >modules
gz-table create --host --root="$here/../containers" -S 6.1.0-56-amd64

# Shows a call as people type it, what it writes, and a status other than 0.
ask() {
    echo "> $1"
    (cd "$here" && eval "$1") 2>&1
    local status=$?
    [ "$status" = 0 ] || echo "status $status"
}

ask 'gz-hold oci --remove <creating.json'
ask 'gz-hold list'
ask 'gz-hold remove overlay'
ask 'gz-hold oci --remove <stopped.json'
ask 'gz-hold list'
# What is no state is refused, and a container whose modules are not to be had does not begin.
ask 'head -c 60 creating.json | gz-hold oci'
ask 'sed s/overlay/nosuch/ creating.json | gz-hold oci'
awk '{ print $1 }' modules
rm -r table modules modules.lock
