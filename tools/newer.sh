# Whether what was made of the crates is still that: read by the scripts that prove and build, from the top of the repository.

# Whether a file is there and newer than all that the crates are made from, and than whatever else is named.
up_to_date() { # FILE [OTHER ...]
    made=$1
    shift
    [ -e "$made" ] && [ -z "$(find crates.txt crates/*/src crates/*/specs crates/*/proofs "$@" -path rust/target -prune -o -newer "$made" -print -quit)" ]
}
