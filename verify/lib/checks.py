"""The checks of a script: each failure is printed immediately, and all are counted at the end."""
failed = []


def check(what, is_true, *why):
    """Prints a check that fails, with what was found instead."""
    if not is_true:
        what = " ".join([what, *map(str, why)])
        failed.append(what)
        print(f"failed: {what}", flush=True)


def verdict(what):
    """Prints the result, or how many checks failed, and returns the status of the script."""
    print(f"{len(failed)} checks failed" if failed else what)
    return 1 if failed else 0
