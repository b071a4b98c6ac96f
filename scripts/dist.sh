#!/usr/bin/env bash
# Packs what the gate or `make` left into out/neddwyrol-VERSION-x86_64-linux.tar.gz, a release that needs no kit. BUILT in it says of which commit
# and by which kit. Then it unpacks that into an empty folder and runs what README says there. The last line is 'N passed, M failed'.
set -u
cd "$(dirname "$0")/.." || exit 1
work=$(mktemp -d)
trap 'rm -rf "$work"' EXIT
passed=0 failed=0

pack() {
    local it
    for it in grubrun grubtrace; do
        install -D -m 755 "crates/$it/out/$it" "$tree/bin/$it" &&
            install -D -m 644 "docs/$it.1" "$tree/share/man/man1/$it.1" &&
            install -D -m 644 "completions/$it.bash" "$tree/share/bash-completion/completions/$it" &&
            install -D -m 644 "completions/_$it" "$tree/share/zsh/site-functions/_$it" &&
            install -D -m 644 "completions/$it.fish" "$tree/share/fish/vendor_completions.d/$it.fish" || return 1
    done
    # (where README and the scripts look for the library and the program)
    bash bindings/install.sh out/library '${pcfiledir}/../..' "$tree" &&
        install -D -m 644 -t "$tree/lib/aarch64-linux-gnu" out/library/aarch64/*.a &&
        wheel=$(python3 bindings/wheel.py out/library/libneddwyrol.so.[0-9] "$tree/share/neddwyrol") && cp "$wheel" out/ && mkdir "$tree/scripts" "$tree/out" && ln -s ../lib "$tree/out/library" &&
        cp scripts/{record.sh,check-kernel.sh} "$tree/scripts/" && cp -r kernel "$tree/" &&
        sed -i 's|/crates/grubtrace/out/grubtrace|/bin/grubtrace|' "$tree"/{scripts/check-kernel.sh,kernel/record-check.sh,kernel/check-sizing.sh} &&
        git archive HEAD bindings VERSION | tar -xC "$tree" && cp -r examples docs README.md LICENSE CHANGELOG.md "$tree/" || return 1
    printf 'commit %s\nkit %s\n' "$(git describe --always --dirty --abbrev=40)" "$(rt version)" > "$tree/BUILT"
    mkdir -p out && tar -C "$work" --sort=name --owner=0 --group=0 --numeric-owner -czf "out/$name.tar.gz" "$name"
}

# says TEXT COMMAND: in the release, with its programs and none of the kit's, a command ends with 0 and prints this.
says() {
    local said
    if said=$(cd "$work/empty/$name" && env -i PATH="$work/empty/$name/bin:/usr/bin:/bin" bash -c "$2" 2>&1) && [[ $said == *"$1"* ]]; then
        passed=$((passed + 1))
    else
        failed=$((failed + 1))
        echo "dist: $2: no '$1' in: $said"
    fi
}

version=$(crates/grubrun/out/grubrun --version) || { echo "dist: there is no grubrun; the gate and 'make build' make it"; echo '0 passed, 1 failed'; exit 1; }
name=neddwyrol-${version#* }-x86_64-linux
tree=$work/$name
mkdir "$tree" "$work/empty"
pack || { echo "dist: out/$name.tar.gz cannot be made"; echo '0 passed, 1 failed'; exit 1; }
tar -C "$work/empty" -xzf "out/$name.tar.gz"
says 'agrees, bit for bit' 'xz -dc examples/records/probes/6.12-back.txt.xz > back.txt && grubtrace check back.txt'
says 'chrt -d -T 12269000 -D 30000000' 'grubtrace size --task ld_req=30000 examples/sizing/requests.txt'
says 'at 3 wake A: woken q=4 d=11' 'grubrun examples/first.grub'
says 'waiting ticket=1 z=4' 'cc -I bindings/include bindings/c/documentation.c out/library/libneddwyrol.a -o documentation && ./documentation'
says 'waiting ticket=1 z=4' 'PYTHONPATH=bindings/python NEDDWYROL_SO=lib/libneddwyrol.so.1 python3 bindings/python/documentation.py'
[[ ! -x /usr/bin/pkg-config ]] || says 'waiting ticket=1 z=4' 'cc share/neddwyrol/c/documentation.c $(PKG_CONFIG_PATH=lib/pkgconfig pkg-config --cflags --libs neddwyrol) -o documentation && ./documentation'
wheel='python3 -m pip install -q --no-index --target site share/neddwyrol/neddwyrol-*.whl'
says 'waiting ticket=1 z=4' "{ $wheel 2> /dev/null || python3 -m zipfile -e share/neddwyrol/neddwyrol-*.whl site; } "'&& cp share/neddwyrol/python/documentation.py . && PYTHONPATH=site python3 documentation.py'
says 'waiting ticket=1 z=4' 'PYTHONPATH=share/neddwyrol/python python3 share/neddwyrol/python/documentation.py'
says 'check-kernel.sh' 'scripts/check-kernel.sh 2>&1 || [ $? = 2 ]'
says 'the seed x is no number' 'scripts/check-kernel.sh --random x KERNEL 2>&1 || [ $? = 2 ]'
echo "dist: out/$name.tar.gz, $(($(stat -c %s "out/$name.tar.gz") / 1024)) KiB"
echo "$passed passed, $failed failed"
[[ $failed == 0 ]]
