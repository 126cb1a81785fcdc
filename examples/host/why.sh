# Why the queries of card.sh are answered as they are. It needs bash, and gz-modprobe on the path.
here=$(cd "$(dirname "$0")" && pwd)

# Shows which lines of the files of this folder gave an answer, in place of the answer.
ask() {
    echo "> $*"
    gz-modprobe -S 6.1.0-50-amd64 -d "$here" -C "$here/modprobe.d" --explain "$@" 2>&1 >/dev/null | sed "s|$here/||"
}

# The card's driver, its soft dependency, and what both need.
ask -D pci:v000010ECd00008168sv00001458sd0000E000bc02sc00i00
# A device whose driver is on the blacklist.
ask -D pci:v00008086d000015BCsv000017AAsd0000225Dbc02sc00i00
# That driver by its name, which the blacklist does not stop.
ask -D e1000e
# A name with a slip.
ask -D mvme
