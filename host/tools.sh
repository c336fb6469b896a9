# For the other scripts, and sourced by each of them first: the repository's root as the working directory, the kit and
# the compilers. What is missing is installed. The kit, and so all of this, is for x86-64.
set -euo pipefail
cd "$(dirname "${BASH_SOURCE[0]}")/.."

kit=$(dirname "$(rt doc < /dev/null)") # standard input is the caller's, and may be closed
toolchain=$kit/toolchain

# needs COMMAND.. -- PACKAGE..: installs the packages where a command is missing.
needs() {
  local missing=''
  while [ "$1" != -- ]; do
    command -v "$1" > /dev/null || missing=$1
    shift
  done
  shift
  [ -z "$missing" ] || { apt-get update && apt-get install -y --no-install-recommends "$@"; } > /dev/null
}

# A C compiler and binutils.
compiler() {
  needs gcc objcopy objdump -- gcc libc6-dev binutils
}

# peer_cargo COMMAND: cargo's build or test of host/peer, the independent program, which `peer` then names.
peer=target/peer/release/peer
peer_cargo() {
  needs cargo -- cargo
  CARGO_TARGET_DIR=target/peer cargo "$1" --quiet --release --offline --manifest-path host/peer/Cargo.toml
}
