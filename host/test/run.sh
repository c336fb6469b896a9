#!/usr/bin/env bash
# All host tests; what they need is proved first where .ci/run has not just done so. Two groups go on at a time: the
# peer's own tests, then desk and sheet beside the peer, and the sheet's stack and code; and the C boundary, then the
# stack, code and data of the calls, then a reset at any instant. What they print stays in this order. Then speed, by
# itself. Ends with 1 if one of them fails, and prints a group that failed last. What is missing is installed before the
# groups, since only one can install at a time.
. "$(dirname "$0")/../tools.sh"
compiler
needs cargo -- cargo
mkdir -p target/test target/measure

beside_the_peer() {
  peer_cargo test > target/peer.log 2>&1 || { cat target/peer.log; return 1; }
  grep '^test result' target/peer.log | tail -n 1
  bash host/test/desk.sh
  bash host/test/sheet.sh
  bash host/measure/sheet.sh
}

for_the_device() {
  bash host/viewer/test.sh
  bash host/measure/size.sh
  cat target/measure/calls.txt
  bash host/reset/test.sh
}

(set -e; for_the_device) > target/test/device.log 2>&1 &
device=$!
failed=''
(set -e; beside_the_peer) > target/test/peer.log 2>&1 &
wait $! || failed="$failed peer"
wait "$device" || failed="$failed device"
for group in peer device; do
  case " $failed " in *" $group "*) ;; *) cat "target/test/$group.log" ;; esac
done
for group in $failed; do
  cat "target/test/$group.log"
  echo "host tests: the $group group failed"
done
[ -z "$failed" ]
bash host/measure/speed.sh 4 # by hand the limit is 2; here the machine may be any, and busy
