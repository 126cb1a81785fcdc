# What drivers of card.sh take, as trees: the disk's, and the first card's. It needs bash, python3, and gz-modprobe on the path.
here=$(cd "$(dirname "$0")" && pwd)

draw() {
    gz-modprobe -S 6.1.0-50-amd64 -d "$here" -C "$here/modprobe.d" --explain=json -D "$1" 2>&1 >/dev/null | python3 "$here/tree.py"
}

draw nvme
draw r8169
