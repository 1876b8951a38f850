# What the checks share that need tools beside the kit. A tool that isn't there is named, and what needs it left out.
# Under CI it is installed by its Debian package first, and where that fails so does the check.
check=$(basename "$0")
missing=0

# fail WORDS
fail() {
  echo "checks/$check: $1" >&2
  exit 1
}

# left_out TOOL PACKAGE: says so, and answers false
left_out() {
  echo "checks/$check: left out, $1 isn't there (Debian: $2)" >&2
  missing=1
  return 1
}

# install PACKAGE: under CI alone, where this user may
install() {
  [ -n "${CI:-}" ] && command -v apt-get >/dev/null 2>&1 || return 1
  [ -n "${updated:-}" ] || apt-get -qq update >/dev/null 2>&1
  updated=1
  DEBIAN_FRONTEND=noninteractive apt-get -qq install -y "$1" >/dev/null 2>&1
}

# has TOOL PACKAGE: whether it is there, or could be installed
has() {
  command -v "$1" >/dev/null 2>&1 && return 0
  install "$2" && command -v "$1" >/dev/null 2>&1 && return 0
  left_out "$1" "$2"
}

# python_with MODULE PACKAGE: sets `python` to one that has it, which may be installed
python_with() {
  find_python "$1" || { install "$2" && find_python "$1"; } || left_out "$1" "$2"
}

find_python() {
  for python in python3 /usr/bin/python3; do
    "$python" -c "import $1" 2>/dev/null && return 0
  done
  return 1
}

# all_there: fails under CI where a tool was missing
all_there() {
  [ "$missing" = 0 ] || [ -z "${CI:-}" ] || fail "tools are missing"
}
