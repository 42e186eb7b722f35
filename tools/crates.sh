# What crates.txt says, for the scripts that read this file at the top of the repository (`. tools/crates.sh`).
# deps_of NAME: the crates that it names. reach NAME: the crate and all that it stands on in this repository, into `reached`.
deps_of() { sed 's/#.*//' crates.txt | sed -n -E "s/^ *$1( +staticlib)? *://p"; }
reached=''
reach() {
    for each; do
        case " $reached " in *" $each "*) continue ;; esac
        [ -d "crates/$each" ] || continue
        reached="$reached $each"
        # shellcheck disable=SC2046
        reach $(deps_of "$each")
    done
}
