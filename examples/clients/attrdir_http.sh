#!/bin/sh
# Reads a node of attrdir over HTTP, by curl alone:
#
#     attrdir_http.sh ADDRESS rows [PREFIX]     prints all rows, or those under a prefix
#     attrdir_http.sh ADDRESS row OWNER KEY     prints one row
#     attrdir_http.sh ADDRESS watch [PREFIX]    prints "+ ROW" for each row that comes and "- ROW" for each that goes, until Ctrl-C
#
# ADDRESS is that of the node's --http: 127.0.0.1:PORT, [::1]:PORT, or the path of a socket. A row is a line of JSON.
# If a word cannot be an address, a name or a key, the status is 2. If the node refuses, it is 3, and its answer is on standard error. If no node
# answers, it is that of curl.
# A watch goes on then: it prints a line on standard error once the node does not answer, and one once it answers again.
set -u
LC_ALL=C
export LC_ALL
line='
'

# Asks for a path, and puts the status of the answer into $code and its body into $body.
ask() {
    code='' body=''
    case $address in
        127.0.0.1:* | "[::1]:"*) set -- "http://$address$1" ;;
        *) set -- "http://localhost$1" --unix-socket "$address" ;;
    esac
    answer=$(curl -sS -g -m 90 --noproxy '*' -w '\n%{http_code}' "$@") || { explain $? || return; }
    code=${answer##*"$line"} body=${answer%"$line"*}
    body=${body%"$line"}
    [ "$code" = 200 ] || { printf '%s\n' "status $code: $body" >&2 && return 3; }
}

# Prints on standard error what this status of curl means here, and ends with that status.
explain() {
    advice='give what the --http of the node has, not its --sock or --control'
    case $1 in
        1) printf '%s\n' "what answers at $address does not speak HTTP: $advice" >&2 ;;
        7) printf '%s\n' "no node answers at $address" >&2 ;;
        52 | 55 | 56)
            ended="the node at $address ended, or does not speak HTTP there: $advice"
            [ -z "${mark-}" ] || ended='the node ended before it answered; the watch goes on'
            printf '%s\n' "$ended" >&2
            ;;
    esac
    return "$1"
}

# Writes the control byte 7f as an escape of JSON. The node has written the others so.
escape() { sed 's/\x7f/\\u007f/g'; }

# Prints a word of $body, which the last member of this name has. A quote within a text has a backslash before it, so no text has such members.
last() { printf '%s\n' "$body" | sed -n 's/.*[{,]"'"$1"'":"\{0,1\}\([^",}]*\).*/\1/p'; }

# Prints the rows of the page in $body, a line each, and those of all pages after it.
pages() {
    while :; do
        printf '%s\n' "$body" | sed -n 's/.*[{,]"rows":\[\(.*\)\].*/\1/p' | sed -e 's/},\({"[a-z_]*":\)/}\n\1/g' -e '/^$/d' | escape || return
        [ "$(last more)" = true ] || return 0
        ask "/v1/rows?prefix=$1&after=$(last owner)/$(last key)" || return
    done
}

# Prints a line about the node on standard error, unless it is the one before. At first the node is taken to answer.
tell() {
    [ "$1" = "$told" ] || printf '%s: %s %s: %s\n' "${0##*/}" "$2" "$address" "$1${3:+: $3}" >&2
    told=$1
}

# Waits until the mark of the rows is another, and compares all of them with those of before.
watch() {
    now=$(mktemp) old=$(mktemp) said=$(mktemp) mark='' told=answers
    trap 'rm -f "$now" "$old" "$said"' EXIT
    trap 'exit 130' INT
    trap 'exit 143' TERM
    while :; do
        if ask "/v1/rows?prefix=$1&wait=30s${mark:+&seen=$mark}" 2> "$said" && seen=$(last seen) && pages "$1" > "$now" 2> "$said"; then
            tell answers info
            sort -o "$now" "$now"
            comm -3 "$old" "$now" | sed -e 's/^\t/+ /' -e t -e 's/^/- /' || return # nobody reads it any more
            cp "$now" "$old" && mark=$seen
        elif [ "${code:-503}" = 503 ]; then
            tell 'does not answer' warning "$(sed -e :a -e '$!N;s/\n/; /;ta' "$said")"
            sleep 1 # the node does not run, or others wait in all its places
        else
            cat "$said" >&2
            return 3
        fi
    done
}

refuse() {
    printf '%s\n' "$1" >&2
    exit 2
}

# Ends with status 2 if a word has another byte than names or keys. It would be a part of the URL with a meaning of its own.
check_name() {
    case $1 in
        *[!a-z0-9-]*) refuse "'$1' is no name: a name has only the bytes a-z, 0-9 and -" ;;
    esac
}
check_key() {
    case $1 in
        *[!a-z0-9._/-]*) refuse "'$1' is no key: a key and a prefix have only the bytes a-z, 0-9, '.', '_', '/' and -" ;;
    esac
}

# Prints the lines at the top of this file.
help() { sed -n '2,/^[^#]/s/^# \{0,1\}//p' "$0"; }

# Ends with status 2 if a word is no address. A file of such a name is ./NAME.
check_address() {
    places='give 127.0.0.1:PORT, [::1]:PORT, or the path of a socket'
    case $address in
        '') refuse "the address is empty: $places" ;;
        *://*) refuse "$address is no address of a node: $places, without http://" ;;
        127.0.0.1:*) check_port "${address#127.0.0.1:}" ;;
        "[::1]:"*) check_port "${address#"[::1]:"}" ;;
        */*) ;;
        *) printf '%s\n' "$address" | grep -Eqx 'localhost|[0-9]+(\.[0-9]+){3}|[0-9]+|.*:.*' && refuse "$address is no address of a node: $places" ;;
    esac
}
check_port() {
    printf '%s\n' "$1" | grep -Eqx '0*[1-9][0-9]{0,4}' && [ "$1" -le 65535 ] || refuse "$address is no address of a node: a port is 1 to 65535"
}

address=${1-} command=${2-}
case $#,$address in
    1,--help | 1,-h) help && exit ;;
    0,*) ;;
    *) check_address ;;
esac
case $#,$command in
    4,row) check_name "$3" && check_key "$4" ;;
    3,*) check_key "$3" ;;
esac
case $#,$command in
    2,rows | 3,rows) ask "/v1/rows?prefix=${3-}" && pages "${3-}" ;;
    4,row) ask "/v1/rows?owner=$3&key=$4" && printf '%s\n' "$body" | escape ;;
    2,watch | 3,watch) watch "${3-}" ;;
    *) help >&2 && exit 2 ;;
esac
