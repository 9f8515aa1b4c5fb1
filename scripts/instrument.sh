# For scripts that set `kit` to the folder of the kit, and `made` to one of their own.

# instrument SANITIZER TEXT OUT: compiles the library's text for LLVM, with code for this sanitizer.
instrument() {
    sed "s/^\(define .*[ )]\)\(#[0-9]\)/\1sanitize_$1 \2/; s/ memory([^)]*)//; s/ nosync//" "$2" >"$made/instrumented.ll" &&
        [ "$(grep -c "^define .*sanitize_$1" "$made/instrumented.ll")" -eq "$(grep -c '^define ' "$2")" ] &&
        "$kit/toolchain/bin/clang" -O1 "-fsanitize=$1" -c "$made/instrumented.ll" -o "$3" || return 1
    # An older run-time of the thread sanitizer has these by their plain names alone, and sees each call of those.
    objcopy --redefine-sym __tsan_memcpy=memcpy --redefine-sym __tsan_memmove=memmove \
        --redefine-sym __tsan_memset=memset "$3"
}
