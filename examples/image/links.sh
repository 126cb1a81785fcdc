# What modprobe would do in an image whose links lead out of it, were they followed here. It needs bash, and gz-modprobe on the path.
image=image
mkdir -p $image/etc/alternatives $image/etc/modprobe.d $image/usr/lib/modules/6.1.0 $image/usr/lib/modprobe.d $image/run
mkdir -p $image/opt/confs $image/proc outside

# Asks within the image, and shows the messages too. A status other than 0 is shown.
ask() {
    echo "> $*"
    gz-modprobe --root=$image "$@" 2>&1
    local status=$?
    [ "$status" = 0 ] || echo "status $status"
}

# /lib is a link to a folder of the image, as in all images of today.
ln -s /usr/lib $image/lib
printf 'kernel/nouveau.ko: kernel/wmi.ko\nkernel/wmi.ko:\nkernel/loop.ko:\n' >$image/usr/lib/modules/6.1.0/modules.dep
printf 'alias pci:v000010DEd* nouveau\n' >$image/usr/lib/modules/6.1.0/modules.alias
touch $image/usr/lib/modules/6.1.0/modules.{symbols,builtin}
printf 'options loop max_loop=8\n' >$image/usr/lib/modprobe.d/loop.conf

# The alternative of a driver blacklists another one, over two absolute links. Outside there is nothing at their ends.
ln -s /etc/alternatives/blacklist.conf $image/etc/modprobe.d/blacklist.conf
ln -s /opt/confs/nvidia.conf $image/etc/alternatives/blacklist.conf
printf 'blacklist nouveau\n' >$image/opt/confs/nvidia.conf
# Without -S and without a /proc of a kernel's, the one release counts that is there.
ask -D pci:v000010DEd00001180
ask -D nouveau
ask -D loop
# The folder below /lib is the one below /usr/lib: no file there is said to be hidden.
ask --explain -D loop

# Above the root is the root, for a link and for -C, and a path that does not begin at the root begins there too.
ln -s ../../../../../opt/confs/deep.conf $image/etc/modprobe.d/deep.conf
printf 'options wmi deep=1\n' >$image/opt/confs/deep.conf
ask -D wmi
ask -C /../../../opt/confs -D wmi
ask -C opt/./confs//nvidia.conf -D nouveau

# What lies outside is never read, through the host's root or through the folder above: what -C and -d name, and a path.
printf 'options wmi outside=1\n' >outside/host.conf
mkdir -p outside/machine/lib/modules/6.1.0
printf 'kernel/wmi.ko:\n' >outside/machine/lib/modules/6.1.0/modules.dep
touch outside/wmi.ko
for name in host.conf machine wmi.ko; do
    ln -s "$PWD/outside/$name" $image/opt/$name
    ln -s ../../outside/$name $image/opt/up-$name
done
ask -C /opt/host.conf -D wmi
ask -C /opt/up-host.conf -D wmi
ask -d /opt/machine -S 6.1.0 -D wmi
ask -d /opt/up-machine -S 6.1.0 -D wmi
ask -D /opt/wmi.ko
ask -D /opt/up-wmi.ko

# A file of modprobe.d is such a link. It is said to lead to nothing, also in an explanation and by a lint.
ln -s "$PWD/outside/host.conf" $image/etc/modprobe.d/host.conf
ln -s ../../../outside/host.conf $image/etc/modprobe.d/up.conf
ask -D wmi | sort
ask --explain -D loop | sort
ask --explain=json -D loop | sort
ask --lint | (read -r words && echo "$words" && sort)
ask -C ../outside/host.conf -D wmi

# A loop is an error, and so is a chain of more than 40 links; 40 are followed.
ln -s round.conf $image/etc/modprobe.d/round.conf
ln -s /opt/confs/wmi.real $image/opt/chain.0
for n in $(seq 40); do ln -s chain.$((n - 1)) $image/opt/chain.$n; done
printf 'options wmi chain=1\n' >$image/opt/confs/wmi.real
ask -C /opt/chain.39 -D wmi
ask -C /opt/chain.40 -D wmi
ask -c | grep '^options wmi'

# Behind a file is nothing.
ask -C /opt/confs/wmi.real/more -D wmi

rm $image/etc/modprobe.d/host.conf $image/etc/modprobe.d/up.conf
# Of several releases one has to be named, and a wrong one is told those that are there.
mkdir -p $image/usr/lib/modules/6.12.0
ask -D wmi
ask -S 6.0.0 -D wmi
rm -r $image outside
