# What a new configuration and a later kernel would change, over a machine that is made here. It needs bash, and gz-modprobe on the path.
here=$(cd "$(dirname "$0")" && pwd)
modules=machine/lib/modules

# The machine takes the place of this one.
gz-modprobe() { command gz-modprobe --root=machine "$@"; }
ask() {
    echo "$ $1"
    eval "$1" 2>&1
}

mkdir -p machine/etc machine/new.d machine/proc/sys/kernel
cp -r "$here/lib" machine
cp -r "$here/modprobe.d" machine/etc
echo 6.1.0-50-amd64 >machine/proc/sys/kernel/osrelease

# Beside the configuration of the machine: an option of a module.
echo 'options e1000e eee=1' >machine/new.d/eee.conf
ask 'gz-modprobe --diff -C ./new.d'
# A kernel in which a module has another name, and what it has for all names.
cp -r $modules/6.1.0-50-amd64 $modules/6.1.0-51-amd64
sed -i 's/crc64-rocksoft/crc64-nvme/' $modules/6.1.0-51-amd64/modules.dep
ask 'gz-modprobe --diff -S 6.1.0-51-amd64 nvme'
ask 'gz-modprobe --json --diff -S 6.1.0-51-amd64 | head -n 2'
# The same machine, and a kernel that is not there.
ask 'gz-modprobe --diff; echo $?'
ask 'gz-modprobe --diff -S 6.1.0-52-amd64 e1000e; echo $?'
rm -r machine
