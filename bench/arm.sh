# shellcheck shell=sh disable=SC2154
# The toolchain makes code for x86-64 alone, and is itself for x86-64: another machine runs it through an emulator that its system starts. There
# its own clang compiles the same module once more, for that machine and at the same level. The module is kept by a clang that stands before the
# toolchain's own, in a kit that is else made of links to the toolchain's parts; rt finds its kit by where it stands, so rt is copied.
# Sourced by bench/run, at the repository's top, with `kit` and `tools` set: the toolchain and the folder of its compiler.
arm=$PWD/target/bench/arm

# links FROM TO BUT: all that FROM holds as links in the new folder TO, without BUT
links() {
    mkdir -p "$2" || return 1
    for part in "$1"/*; do
        [ "$part" = "$1/$3" ] || ln -s "$part" "$2" || return 1
    done
}

# arm_kit: the kit of links, made again
arm_kit() {
    rm -rf "$arm" && links "$kit" "$arm/kit" toolchain && links "$tools" "$arm/kit/toolchain" bin &&
        links "$tools/bin" "$arm/kit/toolchain/bin" clang && rm "$arm/kit/bin" && links "$kit/bin" "$arm/kit/bin" rt &&
        rm "$arm/kit/bin/rtlib.py" && cp "$kit/bin/rt" "$kit/bin/rtlib.py" "$arm/kit/bin" || return 1
    cat >"$arm/kit/toolchain/bin/clang" <<END || return 1
#!/bin/sh
for word; do
    case \$word in
    *.bc) cp "\$word" "$arm/module.bc" ;;
    esac
done
exec "$tools/bin/clang" "\$@"
END
    chmod +x "$arm/kit/toolchain/bin/clang"
}

# as_text: a module as LLVM's text, with nothing done to it
as_text() { "$tools/bin/clang" --no-default-config --target=x86_64-unknown-linux-gnu -S -emit-llvm -Xclang -disable-llvm-passes -x ir -o - -; }

# for_arm: the module on standard input with the target of this machine in place of x86-64
for_arm() {
    : | "$tools/bin/clang" --no-default-config --target="$target" -S -emit-llvm -x c -o - - | grep '^target ' &&
        sed -e '/^target /d' -e 's/ "target-cpu"="x86-64[^"]*"//'
}

# arm_library NAME: proves the crate, and makes its library for this machine
arm_library() {
    target=$(uname -m)-unknown-linux-gnu
    rm -f "$arm/module.bc" "crates/$1/out/lib$1.a"
    (cd "crates/$1" && "$arm/kit/bin/rt" lib) || return 1
    as_text <"$arm/module.bc" >"$arm/module.ll" && for_arm <"$arm/module.ll" >"$arm/$1.ll" &&
        "$tools/bin/clang" --no-default-config --target="$target" -O3 -fPIC -ffunction-sections -fdata-sections -c -x ir "$arm/$1.ll" -o "$arm/$1.o" &&
        "$tools/bin/llvm-ar" rcs "$libraries/lib$1.a" "$arm/$1.o"
}
