# A table is brought to a kernel's modules, and a damaged journal is repaired. It needs bash, and gz-table on the path.
here=$(cd "$(dirname "$0")" && pwd)
export GZ_TABLE=table

# Shows a call with what it writes, and a status other than 0.
call() {
    echo "> $*" | sed "s|$here/||"
    "$@" 2>&1
    local status=$?
    [ "$status" = 0 ] || echo "status $status"
}

call gz-table create catalogue="$here/modules.catalogue"
call gz-table modprobe snd_pcm
call gz-table hold web17 snd_pcm
call gz-table modprobe loop
# A process is killed between the halves of a load.
call gz-table begin_load overlay
# A file plays the kernel's list: overlay was loaded, somebody has taken loop and snd_pcm away, and floppy and veth came.
cat >modules <<'TEXT'
veth 36864 0 - Live 0x0000000000000000
floppy 90112 0 - Live 0x0000000000000000
overlay 151552 0 - Live 0x0000000000000000
snd 90112 0 - Live 0x0000000000000000
TEXT
# web17 holds snd_pcm, so the table keeps it.
call gz-table adopt modules
call gz-table proc
call gz-table held
# The kernel's list again: what is done is not done twice.
call gz-table adopt - <modules
call gz-table check

# Seventy containers take snd, and then the first byte of the first of their lines is changed.
seq -f 'get c%g snd' 70 | gz-table >replies
sed -i 's/^+\(.* get c1 snd\)$/?\1/' table/journal
call gz-table lsmod
call gz-table check --repair
call gz-table held
# Nothing is lost: the byte is put back in what was kept.
head -n 1 table/journal.cut | cut -c 19-
rm -r table modules replies
