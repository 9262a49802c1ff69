# What ./account and the installed program share. Set before it: `program`, the binary, and `build`, for
# where there is none.

fail() {
    printf 'account: %s\n' "$*" >&2
    exit 2
}

[ -x "$program" ] || build

# std opens a path only where it is UTF-8, so a journal of another name is opened here.
is_utf8() { printf '%s' "$1" | iconv -f UTF-8 -t UTF-16 >/dev/null 2>&1; }
if [ $# -eq 1 ] && [ -r "$1" ] && [ ! -d "$1" ] && ! is_utf8 "$1"; then
    exec "$program" <"$1"
fi
exec "$program" "$@"
