# How gz-hold ends, status after status, as gz-hold(8) shows. It needs bash, and gz-table, gz-hold and gz-modprobe on the path.
here=$(cd "$(dirname "$0")" && pwd)
# A file plays the kernel's list of modules, and texts of this folder play those of the machine.
export PATH=$here/../stand_ins:$PATH
export GZ_TABLE=$PWD/table GZ_HOLD_MODULES=$PWD/modules GZ_HOLD_ROOT=$PWD MODPROBE_OPTIONS="--root=$here -S 6.1.0-56-amd64"
: >modules
gz-table create --host --root="$here" -S 6.1.0-56-amd64

# Shows a call as people type it, and what it writes.
ask() {
    echo "$ $1"
    eval "$1" 2>&1
}

ask 'gz-hold get web17 overlay br_netfilter; echo $?'
ask 'gz-hold list'
ask 'gz-hold remove overlay; echo $?'
# The kernel refuses a module.
echo veth >modules.refused
ask 'gz-hold get web18 veth; echo $?'
rm modules.refused
ask 'gz-hold hold web18 veth; echo $?'
ask 'GZ_HOLD_MODULES=/nowhere gz-hold check; echo $?'
ask 'gz-hold run backup overlay -- nosuch; echo $?'
# While an upgrade's command runs, nobody else loads or removes the module.
gz-hold put web17 >put
ask 'gz-hold upgrade overlay -- sleep 5 &'
until gz-table proc | grep -q '^overlay .* Unloading'; do sleep 0.1; done
ask 'GZ_HOLD_WAIT=0 gz-hold remove overlay; echo $?'
wait
# Somebody removes a module, and asks no table.
ask 'rmmod overlay'
ask 'gz-hold check; echo $?'
rm -r table modules modules.lock run put
