# For the scripts that use what rt proves: the programs sheet and desk, and crates compiled so that what the compiler is
# handed stays. Nothing is built that is not proved. By hand rt proves what has changed, first of all everything; under
# .ci/run, which sets PROVED once `rt ci` has passed, what that left in the crates' out/ is taken as it is.
. "$(dirname "${BASH_SOURCE[0]}")/tools.sh"
mkdir -p target/bin target/staticlib target/measure

# uses CRATE: the libraries that it names in crates.txt.
uses() {
  sed -n "s/^$1\( [^:]*\)\{0,1\}: *//p" crates.txt
}

# below CRATE..: these crates and all that they stand on, lowest first, as far as they are the repository's own.
below() {
  awk -v crates="$*" '
    function walk(name, words, n, i) {
      if (!(name in uses) || seen[name]++) return
      n = split(uses[name], words, " ")
      for (i = 1; i <= n; i++) walk(words[i])
      print name
    }
    { sub(/#.*/, "") }
    split($0, part, ":") == 2 { split(part[1], head, " "); uses[head[1]] = part[2] }
    END { n = split(crates, named, " "); for (i = 1; i <= n; i++) walk(named[i]) }' crates.txt
}

# texts CRATE: a sum of the kit's name and of all files that the crate is made from.
texts() {
  local folders
  mapfile -t folders < <(below "$1" | sed 's,^,crates/,')
  { rt version < /dev/null && cat crates.txt && find "${folders[@]}" -name out -prune -o -type f -print0 |
    LC_ALL=C sort -z | xargs -0 sha256sum; } | sha256sum
}

# made_of SUM FILE: whether FILE is there and was made from the texts of that sum.
made_of() {
  [ -e "$2" ] && [ "$(cat "$2.texts" 2> /dev/null)" = "$1" ]
}

# left CRATE: whether the libraries that it stands on are as `rt ci` left them. What `rt check` keeps has a stamp, which
# says of what texts it is; it is not taken for what `rt ci` made, which puts it back when it ends.
left() {
  local it libraries
  [ -n "${PROVED:-}" ] || return 1
  libraries=$(below $(uses "$1"))
  for it in $libraries; do
    [ -e "crates/$it/out/rlib/$it.rlib/format" ] && [ ! -e "crates/$it/out/rlib/stamp" ] || return 1
  done
}

# asked CRATE COMMAND: has rt do that in the crate's folder; which crates are being proved is told on standard error.
asked() {
  echo "proving $1 and what it stands on, where that has changed: minutes, and the first time much longer" >&2
  if ! (cd "crates/$1" && rt "$2" < /dev/null) 2>&1 | tee "target/$1.log" | sed -un '/^rt:/p' >&2; then
    cat "target/$1.log" >&2
    exit 1
  fi
}

# built PROGRAM: has rt prove and build it, as target/bin/PROGRAM.
built() {
  local sum program=crates/$1/out/$1
  sum=$(texts "$1")
  if made_of "$sum" "target/bin/$1"; then return; fi
  if ! left "$1" || [ ! -x "$program" ]; then asked "$1" run; fi
  cp "$program" "target/bin/$1"
  echo "$sum" > "target/bin/$1.texts"
}

# keeping FILE: a toolchain of links to the kit's, FILE.tools, whose compiler keeps the LLVM module that it is handed,
# as FILE.bc, and the words that it is called with, as FILE.words.
keeping() {
  local it tools=$1.tools
  rm -rf "$tools"
  mkdir -p "$tools/bin"
  for it in "$toolchain"/*; do [ "$it" = "$toolchain/bin" ] || ln -s "$it" "$tools"; done
  for it in "$toolchain"/bin/*; do [ "$it" = "$toolchain/bin/clang" ] || ln -s "$it" "$tools/bin"; done
  cat > "$tools/bin/clang" << END
#!/bin/sh
cp module.bc "$1.bc" && printf '%s\n' "\$@" > "$1.words" || exit 1
exec "$toolchain/bin/clang" "\$@"
END
  chmod +x "$tools/bin/clang"
}

# compiled FOLDER CRATE FILE LIBRARY..: proves the crate in FOLDER over these libraries, which are built, and compiles
# it by LLVM as FILE: a program's object, as rt does, or a static library's archive, for any x86-64 processor.
compiled() {
  local folder=$1 crate=$2 file=$PWD/$3 it words
  shift 3
  words=(src/main.rt)
  [ -e "$folder/src/main.rt" ] || words=(src/lib.rt --crate-type staticlib --cpu x86-64)
  for it in std "$@"; do
    if [ -d "crates/$it" ]; then
      words+=(--extern "$it=$PWD/crates/$it/out/rlib/$it.rlib")
    else
      words+=(--extern "$it=$kit/rlibs/$it.rlib")
    fi
  done
  for it in $(below "$@"); do words+=(-L "dependency=$PWD/crates/$it/out/rlib"); done
  keeping "$file"
  (cd "$folder" && "$kit/bin/rattle" build --crate-name "$crate" "${words[@]}" -L "dependency=$kit/rlibs" --jobs 2 \
    --links "$crate=" --antt-project "$kit/rattle/logic/antt-project.json" --logic-built "$kit/logic_built" \
    --toolchain "$file.tools" --backend llvm -o "$file") > "$file.log" 2>&1 < /dev/null ||
    { cat "$file.log" >&2; exit 1; }
}

# made CRATE FILE: compiles a crate as it stands, unless FILE is that already.
made() {
  local sum
  sum=$(texts "$1")
  if made_of "$sum" "$2"; then return; fi
  left "$1" || asked "$1" check
  compiled "crates/$1" "$1" "$2" $(uses "$1")
  echo "$sum" > "$2.texts"
}
