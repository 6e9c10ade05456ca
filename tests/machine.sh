# Sourced by scripts that run what the toolchain builds, which is x86-64 code: on x86-64 it runs as it is, on Arm in an
# emulator and with a cross compiler. Sets native, compiler and emulator, and needs: the commands wanted, each with its
# Debian package.
case "$(uname -m)" in
    x86_64)
        native=1 compiler=gcc emulator=()
        needs=(python3:python3 gcc:gcc valgrind:valgrind)
        ;;
    aarch64)
        native=0 compiler=x86_64-linux-gnu-gcc emulator=(qemu-x86_64 -L /usr/x86_64-linux-gnu)
        needs=(python3:python3 x86_64-linux-gnu-gcc:gcc-x86-64-linux-gnu qemu-x86_64:qemu-user)
        ;;
    *)
        echo "the Rattle toolchain runs on x86_64 and aarch64, and this is $(uname -m)" >&2
        exit 1
        ;;
esac
