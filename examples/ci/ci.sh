# A repository's modprobe.d is checked by a hook of pre-commit, and by a job of CI. It needs bash, and gz-modprobe on the path.
here=$(cd "$(dirname "$0")" && pwd)
cp -r "$here/modprobe.d" "$here/ignores" .
# The files of ../host play those of an image.
ln -s "$here/../host" image

# pre-commit runs the hook's command with the arguments of the configuration, and the files that have changed.
command=$(sed -n 's/^  entry: //p' "$here/../../.pre-commit-hooks.yaml")
arguments=$(sed -n 's/^ *args: \[\(.*\)\]$/\1/p' "$here/pre-commit-config.yaml" | tr -d ,)
echo "$ pre-commit run gz-modprobe-lint"
# shellcheck disable=SC2086
$command $arguments modprobe.d/card.conf modprobe.d/hardening.conf 2>&1
echo "status $?"

# The line that is left is mended. Commands that keep nothing out are shown, and are no fault.
sed -i 's/^blacklist e1000$/blacklist e1000e/' modprobe.d/card.conf
echo "$ check image 6.1.0-50-amd64 modprobe.d"
"$here/check" image 6.1.0-50-amd64 modprobe.d 2>&1
echo "status $?"
# Without the modules of the kernel nobody can judge.
echo "$ gz-modprobe --root=. -S 6.1.0-50-amd64 --lint modprobe.d"
gz-modprobe --root=. -S 6.1.0-50-amd64 --lint modprobe.d 2>&1
echo "status $?"
