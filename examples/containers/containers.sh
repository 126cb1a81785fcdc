# A day of a container host. It needs bash, and gz-table, gz-hold and gz-modprobe on the path.
here=$(cd "$(dirname "$0")" && pwd)
# A file plays the kernel's list of modules, and texts of this folder play those of the machine.
export PATH=$here:$here/../stand_ins:$PATH
export GZ_TABLE=$PWD/table GZ_HOLD_MODULES=$PWD/modules GZ_HOLD_ROOT=$PWD CONTAINERS=$PWD/containers MODPROBE_OPTIONS="--root=$here -S 6.1.0-56-amd64"
: >modules
gz-table create --host --root="$here" -S 6.1.0-56-amd64

# Shows a call with what it writes, and a status other than 0. The numbers of processes differ from day to day.
call() {
    echo "> $*"
    "$@" 2>&1 | sed 's/pid:[0-9]*:[0-9]*/pid:PID:START/'
    local status=${PIPESTATUS[0]}
    [ "$status" = 0 ] || echo "status $status"
}

call host start web17 sleep 60
call host start web18 sleep 60
call gz-hold list
# What cannot be started holds nothing.
call host start web18 sleep 60
call host start web19 nosuch
# A module that containers use is neither removed nor replaced.
call gz-hold remove overlay
call gz-hold upgrade overlay --wait 1 -- echo 'the new overlay is put in its place'
call host stop web17
# One that does not end when it is told to is killed a second later.
call host start web19 sh -c 'trap "" TERM; while :; do sleep 1; done'
GRACE=1 call host stop web19
# The last one dies, and nobody is told.
holder=$(cat containers/web18)
holder=${holder#pid:}
kill -KILL "${holder%:*}"
sleep 0.2
call gz-hold remove overlay
call host sweep
call gz-hold list
ls containers
call gz-hold upgrade overlay -- echo 'the new overlay is put in its place'
call gz-hold remove br_netfilter bridge
call gz-hold check
awk '{ print $1 }' modules
rm -r table modules modules.lock run containers
