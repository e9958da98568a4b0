# Sourced, at the top of the checkout, by what builds from the crates: tests/library and tests/program.

# prove CRATE COMMAND: runs rt's command (lib, run, ..) in a crate's folder, with nothing to read, and names each crate as it is begun; the errors and what rt said last, if it fails.
prove() {
    local log status was='' line
    log=$(mktemp) || return 1
    env -C "crates/$1" rt "$2" </dev/null 2>&1 | tee "$log" | while IFS= read -r line; do
        if [[ $line =~ ^(fn|struct|enum)\ ([a-z_]+):: ]] && [ "${BASH_REMATCH[2]}" != "$was" ]; then
            was=${BASH_REMATCH[2]}
            echo "    $was"
        fi
    done
    status=${PIPESTATUS[0]}
    [ "$status" = 0 ] || { grep -m 10 -A 1 -E 'error[:[]|: (no proof|not proved)' -- "$log"; tail -n 5 -- "$log"; }
    rm -f -- "$log"
    return "$status"
}
