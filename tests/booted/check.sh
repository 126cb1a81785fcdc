# What the units do, once the machine is up. check.stdout has what it writes.
say() { echo "$ $*"; "$@"; }
# Whether units are up, after what they still do has ended.
wait_for() {
  tries=0
  while [ "$(systemctl is-active "$1")" != "$2" ] && [ $tries -lt 30 ]; do sleep 1; tries=$((tries + 1)); done
  echo "$1 is $(systemctl is-active "$1")"
}

wait_for gz-table active
say stat -c %a /run/modules
say gz-hold check
for unit in web17 short unknown; do systemctl add-requires $unit.service gz-held@$unit.service; done
# The modules are held while the unit is up, and given back once it is stopped.
say systemctl start web17
say gz-hold list
say gz-hold remove nvme
say systemctl restart web17
say gz-hold list
say systemctl stop web17
wait_for gz-held@web17 inactive
say gz-hold list
# And once it has ended by itself.
say systemctl start short
say gz-hold list
wait_for gz-held@short inactive
say gz-hold list
# A process that is killed holds nothing after the next round of the timer.
sleep 600 &
gz-hold get pid:$! nvme
say systemctl start gz-reap.timer
systemctl start gz-reap
gz-hold list | sed 's/pid:[0-9]*:[0-9]*/pid:PID:START/'
kill -KILL $!
wait $! 2>/dev/null
say systemctl start gz-reap
say gz-hold list
# A unit whose modules are not there does not start.
say systemctl start unknown
say systemctl is-active unknown
say systemctl reload gz-table
