# Sourced by the scripts here, with $root set. CLVM_RS becomes the folder with the Rust's source: the one that it names, a checkout of
# clvm_rs at 59d7e870dd, or ../shared/docs/src. Where there is no source or no cargo, this says so and ends the script.
if [ -n "${CLVM_RS:-}" ]; then
    if [ ! -f "$CLVM_RS/src/serde/incremental.rs" ]; then
        echo "oracle: CLVM_RS names $CLVM_RS, which has no src/serde/incremental.rs"
        exit 1
    fi
    CLVM_RS=$(cd "$CLVM_RS" && pwd)
elif [ -d "$root/../shared/docs/src" ]; then
    CLVM_RS=$(cd "$root/../shared/docs/src" && pwd)
else
    echo "oracle: CLVM_RS names no checkout of clvm_rs, and ../shared/docs/src is absent: skipped"
    exit 0
fi
if ! command -v cargo >/dev/null 2>&1; then
    echo "oracle: cargo is missing, skipped"
    exit 0
fi
export CLVM_RS
