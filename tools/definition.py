"""Numbers and names that are stated elsewhere, read from there: the header's places, the definition's refusals and names."""
import os
import re

ROOT = os.path.dirname(os.path.dirname(os.path.abspath(__file__)))
# what `rt lib` writes in crates/interface
ARCHIVE = os.path.join(ROOT, 'crates', 'interface', 'out', 'libinterface.a')


def read_text(*path):
    with open(os.path.join(ROOT, *path), encoding='utf-8') as file:
        return file.read()


def uses():
    """What each crate of crates.txt uses."""
    lines = (line.partition('#')[0].partition(':') for line in read_text('crates.txt').splitlines())
    return {name.split()[0]: rest.split() for name, colon, rest in lines if colon}


def places():
    """Where each number of an answer stands, by its name in interface/space_check.h, and FIGURES, how many there are."""
    found = re.findall(r'^ *SPACE_CHECK_(\w+) = (\d+)', read_text('interface', 'space_check.h'), re.MULTILINE)
    return {name: int(place) for name, place in found}


def place_name(place):
    """What stands at a place: a name of the header, and which of its row."""
    name, begins = max(((name, at) for name, at in places().items() if at <= place), key=lambda found: found[1])
    return name if place == begins else f'{name} + {place - begins}'


def unfoldable(*path):
    """The names of a file of definitions that a computation has to unfold."""
    return re.findall(r'^ *unfoldable pub (\w+)', read_text(*path), re.MULTILINE)


def refusals():
    """The numbers of all refusals, by their names."""
    found = re.findall(r'^number_of (\w+) = (\d+)$', read_text('crates', 'blocks', 'specs', 'Refusals.antt'), re.MULTILINE)
    return {name: int(number) for name, number in found}


def listed(name):
    """A list of texts of the listing's lines, by number from 1 on."""
    lines = read_text('crates', 'listing_text', 'specs', 'Lines.antt')
    block = re.search(rf'^{name} =\n(.*?)\n\n', lines, re.MULTILINE | re.DOTALL)
    return dict(enumerate(re.findall(r'ascii "(.*?)"', block[1]), 1))


def kinds():
    """The names of claimants, by their numbers."""
    return listed('kind_names')


def problems():
    """What the listing says of each problem, by its number, with {} for the block."""
    lines = read_text('crates', 'listing_text', 'specs', 'Lines.antt')
    later = re.search(r'ascii "( *problem # at 0x@)\\n"', lines)[1]
    # the only numbers that the file names are problems'
    numbers = re.findall(r'^abbrev pub \w+ : ℕ\n\w+ = (\d+)$', read_text('crates', 'audit', 'specs', 'Audit.antt'), re.MULTILINE)
    formats = {int(number): later.replace('#', number) for number in numbers} | listed('problem_formats')
    return {number: text.strip().replace('0x@', '{}') for number, text in formats.items()}
