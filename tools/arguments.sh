# shellcheck shell=bash
# What scripts share about how they are called. A script goes to the project's folder (or stays where it was called), names itself and sources
# this:
#
#   cd "$(dirname "$0")/.."
#   script=fuzz/run
#   . tools/arguments.sh
#   arguments 2 --alone --valgrind -- "$@"
#
# The comment at its top is its help. Called otherwise than that says, it ends with status 2 and one sentence on standard error.

script=${script:?}
project=$(dirname -- "${BASH_SOURCE[0]}")/..

# wrong SENTENCE
wrong() {
    echo "$script: $1; see $script --help" >&2
    exit 2
}

# arguments MOST FLAG.. -- ARGUMENT..: takes the arguments apart, into the flags that are `given` and at most so many `words`. With --help
# among them the help is printed, and the script ends.
arguments() {
    local most=$1 flags=() argument
    declare -gA given=()
    words=()
    shift
    while [ "$1" != -- ]; do
        flags+=("$1")
        shift
    done
    shift
    for argument in "$@"; do
        if [ "$argument" = --help ]; then
            sed -n '2,/^[^#]/ s/^#$\|^# //p' "$project/$script"
            exit 0
        fi
    done
    for argument in "$@"; do
        if [[ " ${flags[*]} " == *" $argument "* && $argument == --* ]]; then
            given[$argument]=yes
        elif [[ $argument == -* ]] || [ ${#words[@]} -ge "$most" ]; then
            wrong "unknown argument '$argument'"
        else
            words+=("$argument")
        fi
    done
}

# is_given FLAG
is_given() { [ -n "${given[$1]-}" ]; }

# number NAME VALUE LEAST: a whole number that is handed over.
number() {
    [[ $2 =~ ^(0|[1-9][0-9]{0,14})$ && $2 -ge $3 ]] || wrong "$1 is '$2' and must be a whole number from $3 on, of at most 15 digits"
}

# packages NAME..: programs or Debian packages that must be there. They are installed only with --install.
packages() {
    local name missing=()
    for name in "$@"; do
        command -v "$name" >/dev/null || dpkg -s "$name" >/dev/null 2>&1 || missing+=("$name")
    done
    if [ ${#missing[@]} -ne 0 ]; then
        is_given --install || wrong "missing Debian packages: ${missing[*]}, which --install installs"
        # a new machine has no lists of packages; where they are there, an update that fails does no harm
        apt-get update >/dev/null 2>&1 || true
        apt-get install -y --no-install-recommends "${missing[@]}" >/dev/null
    fi
}
