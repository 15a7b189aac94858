"""What crates.txt says, and crates for a bench in a folder of its own."""
import pathlib
import shutil

TOP = pathlib.Path(__file__).resolve().parent.parent


def listed():
    """The line of each crate in crates.txt, and the crates that it names."""
    lines = {}
    for line in (TOP / 'crates.txt').read_text().splitlines():
        head, _, uses = line.partition(':')
        if head.split():
            lines[head.split()[0]] = (line, uses.split())
    return lines


def laid(scratch, kept, uses):
    """Puts a program that is kept with .txt behind each file's name into a scratch folder, with the crates that it uses."""
    lines, wanted, text = listed(), uses.split(), ''
    for crate in wanted:
        if crate not in lines:
            continue
        text += lines[crate][0] + '\n'
        wanted += [use for use in lines[crate][1] if use not in wanted]
        if not (scratch / 'crates' / crate).exists():
            shutil.copytree(TOP / 'crates' / crate, scratch / 'crates' / crate)
    program = scratch / 'crates' / kept.name
    for file in kept.rglob('*.txt'):
        to = program / file.relative_to(kept).with_suffix('')
        to.parent.mkdir(parents=True, exist_ok=True)
        shutil.copy(file, to)
    shutil.copy(TOP / 'HANDLES', scratch)
    (scratch / 'crates.txt').write_text(f'{text}{kept.name}: {uses}\n')
    return program
