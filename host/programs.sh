# For the scripts that run a program which rt built: sheet or desk.
. "$(dirname "${BASH_SOURCE[0]}")/built.sh"

out=target/test
mkdir -p "$out"

# program NAME: runs it on standard input.
program() {
  "target/bin/$1"
}

# told NAME: runs it on standard input. What it says on standard error is that reading or writing failed, so that
# is passed on and the status is then 1, whatever the program's own is.
told() {
  local said status=0
  said=$(mktemp)
  program "$1" 2> "$said" || status=$?
  if [ -s "$said" ]; then
    cat "$said" >&2
    status=1
  fi
  rm -f "$said"
  return "$status"
}

# Builds the peer, and the programs that it is compared with.
build() {
  peer_cargo build
  built sheet
  built desk
}
