# Finds, or installs, what the outside tests build and run with, on x86-64.
have() { command -v "$1" >/dev/null 2>&1; }

install() {
  echo "installing: $*"
  apt-get update -qq && DEBIAN_FRONTEND=noninteractive apt-get install -y -qq --no-install-recommends "$@" >/dev/null
}

tools() {
  have gcc || install gcc libc6-dev
  have rustc || install rustc
}

# What the tests of pictures need: a renderer, a checker of XML, and both awks that Debian has.
drawing_tools() {
  have rsvg-convert || install librsvg2-bin
  have xmllint || install libxml2-utils
  have mawk || install mawk
  have gawk || install gawk
}
