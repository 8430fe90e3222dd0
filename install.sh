#!/bin/sh
# Tries the proved executable, and puts it and its manual page in place.
#
#   install.sh PREFIX     PREFIX/bin/circt and PREFIX/share/man/man1/circt.1
set -eu

if [ $# -ne 1 ] || [ -z "$1" ]; then
  echo "usage: install.sh PREFIX" >&2
  exit 2
fi
prefix=$1
top=$(cd "$(dirname "$0")" && pwd)
made=$top/crates/circt/out/circt

if [ ! -x "$made" ]; then
  echo "install.sh: $made is not there." >&2
  echo "Make it with the kit, from $top: .ci/run. It proves every crate, which takes an hour or more;" >&2
  echo "its last line is \`N passed, 0 failed\`." >&2
  exit 1
fi

# The first line of an expected text is its label.
expected=$(tail -n +2 "$top/examples/adder.v")
printed=$("$made" translate --export-verilog "$top/examples/adder.mlir") || printed=
if [ "$printed" != "$expected" ]; then
  echo "install.sh: of examples/adder.mlir $made does not print examples/adder.v, but" >&2
  echo "$printed" >&2
  exit 1
fi

# A new file takes the place of the old one, so that a program that runs is left alone.
place() {
  cp "$2" "$3.new"
  chmod "$1" "$3.new"
  mv -f "$3.new" "$3"
}
mkdir -p "$prefix/bin" "$prefix/share/man/man1"
place 755 "$made" "$prefix/bin/circt"
place 644 "$top/docs/circt.1" "$prefix/share/man/man1/circt.1"

echo "$prefix/bin/circt: $(wc -c < "$prefix/bin/circt" | tr -d ' ') bytes; of examples/adder.mlir it prints examples/adder.v"
if command -v ldd > /dev/null; then
  ldd "$prefix/bin/circt" || true
fi
echo "$prefix/share/man/man1/circt.1"
case ":$PATH:" in
*":$prefix/bin:"*) ;;
*) echo "$prefix/bin is not on the path." ;;
esac
