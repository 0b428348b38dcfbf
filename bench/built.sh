# Read by the scripts beside it, at the top of the checkout.

# The built program of a crate becomes `program`, and `folder` is a new folder that is gone at the end.
built() {
    program=crates/$1/out/$1
    test -x "$program" || { echo "no $program: run rt run in crates/$1 first" >&2; exit 1; }
    folder=$(mktemp -d)
    trap 'rm -rf "$folder"' EXIT
}
