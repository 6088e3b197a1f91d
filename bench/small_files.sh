# Functions of the scripts that measure digests: a bag of 100,000 files of 1 KiB, and the programs of coreutils beside it. They need
# a folder `work`.
folders=200
files_in_each=500

both_programs() {
    sha256sum "$@"
    sha512sum "$@"
}

both_through_xargs() {
    xargs -0 -a "$work/names" sha256sum
    xargs -0 -a "$work/names" sha512sum
}

# Makes the bag `bag`, with manifests of SHA-256 and SHA-512, goes into it, and lists its payload files in `names`.
make_small_files() {
    local folder
    mkdir -p "$work/bag/data"
    printf 'BagIt-Version: 1.0\nTag-File-Character-Encoding: UTF-8\n' >"$work/bag/bagit.txt"
    for ((folder = 0; folder < folders; folder++)); do
        mkdir "$work/bag/data/folder-$folder"
        head -c $((1024 * files_in_each)) /dev/urandom | split -b 1024 -a 3 - "$work/bag/data/folder-$folder/file-"
    done
    cd "$work/bag"
    find data -type f -print0 | LC_ALL=C sort -z >"$work/names"
    xargs -0 -a "$work/names" sha256sum >manifest-sha256.txt
    xargs -0 -a "$work/names" sha512sum >manifest-sha512.txt
}
