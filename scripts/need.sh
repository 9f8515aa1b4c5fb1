# For the scripts that call a command which a computer may not have.

# need COMMAND..: says which of these commands aren't on the path, what they are and where to read on, and ends then.
need() {
    local missing=
    for command in "$@"; do
        command -v "$command" >/dev/null 2>&1 && continue
        missing=1
        case $command in
            rt) echo "rt is not on the path: the command of the Rattle kit, which proves and builds this." ;;
            cc) echo "cc is not on the path: a C compiler." ;;
            cargo) echo "cargo is not on the path: it builds what is written in Rust." ;;
            *) echo "$command is not on the path." ;;
        esac >&2
    done
    [ -z "$missing" ] && return
    echo 'README.md, "Run it", says what has to be there.' >&2
    exit 2
}
