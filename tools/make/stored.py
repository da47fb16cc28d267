"""What the makers of stored files share: lines, the page of a folder of cases, the files of a case, and writing them all."""


def printed(lines):
    return ''.join(line + '\n' for line in lines).encode()


def page(head, guards):
    """The README of a folder of cases: its head, and a row for each name with what it guards."""
    return (head + '\n| Case | What it guards |\n|---|---|\n' + ''.join(f'| {name} | {what} |\n' for name, what in guards)).encode()


def case_files(folder, files):
    """The files of a case by their paths; None is one that is left out, and the file `missing` names it."""
    missing = [name for name, content in files.items() if content is None]
    result = {folder / name: content for name, content in files.items() if content is not None}
    return result | ({folder / 'missing': printed(missing)} if missing else {})


def write_files(files):
    """Writes a dict from paths to bytes."""
    for path, content in files.items():
        path.parent.mkdir(parents=True, exist_ok=True)
        path.write_bytes(content)
