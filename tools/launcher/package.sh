# Writes packages of the built programs, which run without the Rattle kit: an archive that unpacks anywhere, and one for dpkg. The
# script romain sources this file; it has set root and unproved.

# What a package has besides the programs, and what of it is for work on Romain alone, or made again.
PACKED='romain README.md CHANGELOG.md docs guests tools'
LEFT_OUT='__pycache__ guests/build clauses.py edits.py fuzz.py loading.py manpage.py reasons.py'

# The version is the first heading of what changed.
version_number() {
    awk '/^## / { print $2; exit }' "$root/CHANGELOG.md"
}

package() {
    ! is_package || fail "this is a package itself"
    name=romain-$(version_number)${unproved:+-unproved}
    for command in run audit; do
        choose "$command"
        ensure_built
    done
    stage=$(mktemp -d)
    trap 'rm -rf "$stage"' EXIT
    gather "$stage/$name"
    tar -C "$stage" --sort=name --owner=0 --group=0 --numeric-owner -czf "$name.tar.gz" "$name"
    echo "$name.tar.gz"
    if command -v dpkg-deb >/dev/null; then
        arrange "$stage/$name" "$stage/deb"
        dpkg-deb --root-owner-group --build "$stage/deb" "$name.deb" >/dev/null
        echo "$name.deb"
    else
        say "no $name.deb: dpkg-deb isn't here"
    fi
}

# gather FOLDER: all that a package has. Its folder programs/ says that it is one.
gather() {
    mkdir -p "$1/programs"
    tar -C "$root" $(printf ' --exclude=%s' $LEFT_OUT) -cf - $PACKED | tar -C "$1" -xf -
    completion >"$1/docs/romain.bash"
    for command in run audit; do
        choose "$command"
        cp -p "$program" "$1/programs/$crate"
        chmod 755 "$1/programs/$crate"
        build_of_program >"$1/programs/$crate.built"
    done
}

# arrange FROM TO: the same as dpkg puts it into a system
arrange() {
    lib=$2/usr/lib/romain share=$2/usr/share
    mkdir -p "$2/DEBIAN" "$2/usr/bin" "$lib" "$share/man/man1" "$share/bash-completion/completions" "$share/doc"
    cp -Rp "$1/." "$lib"
    ln -s ../lib/romain/romain "$2/usr/bin/romain"
    gzip -9n <"$lib/docs/romain.1" >"$share/man/man1/romain.1.gz"
    mv "$lib/docs/romain.bash" "$share/bash-completion/completions/romain"
    ln -s ../../lib/romain/docs "$share/doc/romain"
    control "$(du -sk "$2/usr" | cut -f 1)" "$(libc_needed "$lib/programs/romain" "$lib/programs/romain_audit")" >"$2/DEBIAN/control"
}

# The newest symbols of the C library that the programs have name the version that they need.
libc_needed() {
    cat "$@" | grep -aoE 'GLIBC_[0-9]+[.][0-9.]+' | sed 's/GLIBC_//' | sort -uV | tail -n 1
}

# control KILOBYTES LIBC
control() {
    cat <<END
Package: romain
Version: $(version_number)
Architecture: amd64
Maintainer: Romain
Installed-Size: $1
Depends: libc6 (>= $2), libgcc-s1
Recommends: python3 (>= 3.11)
Suggests: gdb-multiarch, gcc-riscv64-unknown-elf, python3-matplotlib
Section: utils
Priority: optional
Description: runs a program as replicas that are compared, and hides the faults of one
 Redundant multithreading in software: RISC-V programs run as two, three or five
 replicas, which are compared by a vote wherever the program touches the outside.
 A replica that the majority contradicts is overwritten.
END
}
