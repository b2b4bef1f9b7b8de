#!/usr/bin/env python3
"""Measures what a policy costs `scan`: PYTHONPATH=python bench/policy_speed.py

Seconds of a processor, the least of five runs with and without a policy of 200 rules, in turns, over 5,000 files. The bar: 1.1 times.
"""

from __future__ import annotations

import os
import subprocess
import sys
import tempfile
from pathlib import Path
from typing import List

from inputs import make_mixed

FILES = 5_000


def processor_seconds(words: List[str]) -> float:
    """What a run of scan took of the processors."""
    before = os.times()
    subprocess.run([sys.executable, '-m', 'picklestep', 'scan', '--brief', *words], stdout=subprocess.DEVNULL, check=False)
    after = os.times()
    return after.children_user + after.children_system - before.children_user - before.children_system


def main() -> None:
    with tempfile.TemporaryDirectory() as name:
        policy, folder = Path(name, 'picklestep.toml'), Path(name, 'many')
        make_mixed(folder, FILES)
        # (the last rule that is about a file decides)
        rules = ''.join(f'[[rules]]\npaths = ["*/{number}*.pkl", "kept/{number}/**"]\nallow = ["sklearn", "torch"]\n' for number in range(200))
        policy.write_text('allow = ["sklearn", "torch"]\n' + rules)
        ways = (['--no-policy', '--allow', 'sklearn', '--allow', 'torch'], ['--policy', str(policy)])
        without, following = (min(times) for times in zip(*([processor_seconds([*words, str(folder)]) for words in ways] for _ in range(5))))
    print(f'{FILES:,} files: {without:.2f} s of a processor without a policy, {following:.2f} s with 200 rules: {following / without:.2f} times')


if __name__ == '__main__':
    main()
