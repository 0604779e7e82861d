"""Sourced by gdb behind libww-gdb.py: which rows of the library's tables may be wrong, and the same is shown."""
right_table, right_memory = table, memory


def memory(at, size):
    """What a wrong number asks for may be more than there is, of which gdb would end."""
    if size > 1 << 26:
        raise ValueError("too much")
    return right_memory(at, size)


def shown():
    forget()
    try:
        shown = gdb.execute("ww waits", to_string=True) + gdb.execute("output fork_[1]", to_string=True)
        return shown + "".join(about_class(None, it) for it in look().classes)
    except (gdb.error, gdb.MemoryError, OverflowError, LookupError, ValueError, struct.error) as error:
        return f"fails: {error}"


right = shown()
names = [it for begin, end in layouts() for it in right_table(begin, end)]
print("every row:", " ".join(it.replace(" ", "_") for it in names))
for name in names:
    for off in (8, -8, 4, -4, 64, 1):
        table = lambda begin, end: {it: value + off * (it == name) for it, value in right_table(begin, end).items()}
        if shown() != right:
            break
    else:
        print("not seen:", name.replace(" ", "_"))
print("each was tried")
