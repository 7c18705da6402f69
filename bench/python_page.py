"""What the README for Python shows, run block after block."""
from blocks import read_blocks
from measuring import TOP

PAGE = "bindings/python/README.md"
DATABASE = "A case in PostgreSQL"


def run_page(but=()):
    """Runs the blocks of Python but those below these headings, by names that they share: how many ran, and what failed."""
    names, failed = {}, []
    blocks, _ = read_blocks(PAGE, (TOP / PAGE).read_text())
    shown = [block for block in blocks if block.word == "python" and block.section not in but]
    for block in shown:
        try:
            exec(block.text, names)  # pylint: disable=exec-used
        except Exception as error:  # pylint: disable=broad-except
            failed.append(f"{block.place}: {type(error).__name__} {error}")
    return len(shown), failed
