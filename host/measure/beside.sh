#!/usr/bin/env bash
# beside.sh COMMIT [TIMES]: speed of check, count, free and run beside what they took at an earlier commit, in one
# program and by turns, on the same records: balanced, caterpillar and random trees, and straight links from 1 to n, of
# 64 and of 512 leaves. Prints nanoseconds per call before and now, and the second divided by the first. Ends with 1 if
# an answer differs, or if a call takes more than TIMES of what it took, 1.05 if it is not given. The first comparison
# with a commit proves its calls, in a clone under TMPDIR, outside the checkout, since `rt ci` wants every text in it to
# belong to a crate. A commit is one that this kit proves.
. "$(dirname "$0")/../archive.sh"
[ $# -ge 1 ] || { echo "usage: beside.sh COMMIT [TIMES]" >&2; exit 2; }
commit=$(git rev-parse --verify --quiet "$1^{commit}") || { echo "beside.sh: there is no commit $1" >&2; exit 2; }
times=${2:-1.05}
clone=${TMPDIR:-/tmp}/tangle-beside/$commit work=target/measure/beside.d
mkdir -p "$work"

compiler
peer_cargo build
if [ ! -e "$clone/target/staticlib/libtangle.a" ]; then
  [ -e "$clone/.git" ] || git clone --quiet --no-checkout . "$clone"
  git -C "$clone" checkout --quiet --force "$commit"
  (cd "$clone" && unset PROVED && . host/archive.sh && archive tangle)
fi
archive tangle

# The functions of both; those of the earlier commit have `before_` in front.
archive_object target/staticlib/libtangle.a "$work/now.o"
archive_object "$clone/target/staticlib/libtangle.a" "$work/before.o"
nm --defined-only --extern-only "$work/before.o" | awk '{ print $3, "before_" $3 }' > "$work/names"
objcopy --redefine-syms="$work/names" "$work/before.o"
# Where a function comes to stand makes a difference of some hundredths: each of both begins a page.
for object in now before; do objcopy --set-section-alignment '.text*=4096' "$work/$object.o"; done
gcc "${strict[@]}" -o "$work/beside" host/measure/beside.c "$work/now.o" "$work/before.o"

for shape in balanced caterpillar random straight; do
  for leaves in 64 512; do "$peer" record "$shape" "$leaves" 1 > "$work/$shape.$leaves"; done
done
cd "$work"
printf '%-6s %-12s %6s %12s %12s %7s\n' call trees leaves 'ns before' 'ns now' ratio
./beside {balanced,caterpillar,random,straight}.{64,512} | awk -v times="$times" '
  NF != 4 { print; bad++; next }
  {
    split($2, of, ".")
    printf "%-6s %-12s %6d %12d %12d %7.2f\n", $1, of[1], of[2], $3, $4, $4 / $3
    above += $4 > times * $3
  }
  END {
    if (above) print above " above " times " times"
    exit (bad != 0 || above != 0 || NR != 32)
  }'
