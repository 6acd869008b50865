"""Equations about a definition, computed by the checker in a crate of their own, in a temporary folder.

That is no part of the checkout, since `rt ci` refuses files of proofs outside its crates. What checks of the same crates kept
elsewhere on this machine rt takes there as it is, and proves the rest first."""
import os
import shutil
import subprocess
import tempfile

from definition import ROOT, uses
from images import Fault

WORK = tempfile.TemporaryDirectory(prefix='computed-')
LIMITS = 'step limit', 'deep recursion'  # where the checker stopped, and judged nothing

# Bytes before a list, in runs.
FLAT = '''use mathlib.Core.List.{List, [], ◌∷◌}
use Prim.Native.Nat.{ℕ, zero, suc}

abbrev pub zeros : ℕ → List ℕ → List ℕ
zeros zero l = l
zeros (suc n) l = 0 ∷ zeros n l

abbrev pub bytes : List ℕ → List ℕ → List ℕ
bytes [] l = l
bytes (x ∷ xs) l = x ∷ bytes xs l
'''


def runs_of(data):
    """A list of bytes as runs of zeros and of bytes."""
    runs, i = [], 0
    while i < len(data):
        j = i
        if data[i] == 0:
            while j < len(data) and data[j] == 0:
                j += 1
            runs.append(f'zeros {j - i}')
        else:
            while j < len(data) and any(data[j:j + 4]):
                j += 1
            runs.append('bytes (' + ' ∷ '.join(map(str, data[i:j])) + ' ∷ [])')
        i = j
    body = '[]'
    for r in reversed(runs):
        body = f'{r} ({body})'
    return body


def write(text, *path):
    with open(os.path.join(WORK.name, *path), 'w', encoding='utf-8') as file:
        file.write(text)


def compute(shared, modules):
    """What the checker says of a crate with these modules, and its exit status."""
    crate = os.path.join(WORK.name, 'crates', 'computed')
    shutil.rmtree(os.path.join(crate, 'proofs'), ignore_errors=True)
    for folder in ('src', 'proofs'):
        os.makedirs(os.path.join(crate, folder), exist_ok=True)
    write('// The definition computed.\n#![tactic(auto)]\n', crate, 'src', 'lib.rt')
    files = {'Flat': FLAT} | shared | {f'V{k}': text for k, text in enumerate(modules)}
    for name, text in files.items():
        write(text, crate, 'proofs', f'{name}.antt')
    write(''.join(f'pub mod {name}\n' for name in files), crate, 'proofs', 'Lib.antt')
    out = subprocess.run(['rt', 'check'], cwd=crate, capture_output=True, text=True)
    return out.stdout + out.stderr, out.returncode


def verdicts(shared, modules):
    """For each module, beside those that they share, 'agrees', 'differs' or 'steps'. What agrees was in a crate that was proved whole."""
    found, left = {}, list(range(len(modules)))
    while left:
        said, status = compute(shared, [modules[k] for k in left])
        if status == 0:
            found.update((k, 'agrees') for k in left)
            break
        failed = {}
        for place, k in enumerate(left):
            errors = [line for line in said.split('\n') if f'proofs/V{place}.antt' in line and 'error' in line]
            if errors:
                failed[k] = 'steps' if all(any(limit in line for limit in LIMITS) for line in errors) else 'differs'
        if not failed:
            raise Fault(said)
        found.update(failed)
        left = [k for k in left if k not in failed]
    return [found[k] for k in range(len(modules))]


def needed(tops):
    """Crates, and all that they depend on."""
    below = uses()
    return sorted({name for top in tops for name in (top, *below[top])})


def prepare(*tops):
    """A repository of some crates and what they need, with one more that computes with them, each a library."""
    below, names = uses(), needed(tops)
    for name in names:
        shutil.copytree(os.path.join(ROOT, 'crates', name), os.path.join(WORK.name, 'crates', name),
                        ignore=shutil.ignore_patterns('out', 'must-fail'))
    lines = [f"{name}: {' '.join(below[name])}\n" for name in names] + [f"computed: {' '.join(names)}\n"]
    write(''.join(lines), 'crates.txt')
