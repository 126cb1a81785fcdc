# What gz-hold says of a host's modules, and how others wait for them. It needs bash, and gz-table, gz-hold and gz-modprobe on
# the path.
here=$(cd "$(dirname "$0")" && pwd)
# A file plays the kernel's list of modules, and texts of this folder play those of the machine.
export PATH=$here/../stand_ins:$PATH
export GZ_TABLE=$PWD/table GZ_HOLD_MODULES=$PWD/modules GZ_HOLD_ROOT=$PWD MODPROBE_OPTIONS="--root=$here -S 6.1.0-56-amd64"
: >modules
gz-hold create --log --root="$here" -S 6.1.0-56-amd64

# Shows a call as people type it, and what it writes.
ask() {
    echo "$ $1"
    eval "$1" 2>&1
}

ask 'gz-hold get web17 br_netfilter'
# Who is in the way of a removal?
ask 'gz-hold remove bridge; gz-hold who bridge'
ask 'gz-hold list --json'
ask 'gz-hold wait br_netfilter 0; echo $?'
ask 'gz-hold put web17'
ask 'gz-hold wait br_netfilter'
# What is held until a pipe ends, is held no longer once it has.
ask 'gz-hold keep overlay </dev/null'
# Nobody else gets a module that drains, and its last holder goes on holding it.
ask 'gz-hold get web18 overlay'
(sleep 1; gz-hold put web18 >put) &
ask 'gz-hold upgrade --drain overlay -- echo the new overlay is put in its place'
ask 'gz-hold run backup veth -- echo it is backed up'
ask 'gz-hold get web19 overlay'
# From now on modprobe -r of anybody asks the table.
ask 'gz-hold guard; tail -n 1 etc/modprobe.d/gz-hold.conf'
ask 'gz-hold put --all'
ask 'gz-hold log | cut -d " " -f 4-'
wait
rm -r table modules modules.lock etc run put
