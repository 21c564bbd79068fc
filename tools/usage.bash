# Sourced by the scripts. A script's first comment says how it is used.
usage() { sed -n '2,/^[^#]/s/^# \{0,1\}//p' "$0"; }

wrong() {
    echo "${0##*/}: $1" >&2
    usage >&2
    exit 2
}

# The most words that the script takes, and its words: tells how it is used where that is asked, or where they are wrong.
take_words() {
    local most=$1
    shift
    case ${1:-} in
    --help | -h) usage; exit 0 ;;
    -?*) wrong "no such option: $1" ;;
    esac
    [ $# -le "$most" ] || wrong "a word too many: ${*:most+1:1}"
}
