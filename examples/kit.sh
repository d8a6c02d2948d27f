# The scripts at the top begin with this: the Rattle kit is there, and of the version that the proofs are for.
logic=dac8208d650f15bf
if ! command -v rt >/dev/null 2>&1; then
    echo "the Rattle kit is missing: put the folder bin of rattle-kit-13f on the PATH" >&2
    exit 2
fi
case $(rt version) in
    *"logic $logic") ;;
    *)
        echo "this is $(rt version); take a kit whose line ends in logic $logic, as rattle-kit-13f does" >&2
        exit 2
        ;;
esac
