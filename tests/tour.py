#!/usr/bin/env python3
"""What the README's command under 'Run it' is to print, worked out by other means (tests/pages.py).

  python3 tests/tour.py

It takes the script that the README names, or another, and finds the script's files from crates/pizqarod, as there.
"""
import os
import sys

from pages import Image

os.chdir(f"{os.path.dirname(os.path.abspath(__file__))}/../crates/pizqarod")
image = Image()
for line in open(sys.argv[1] if sys.argv[1:] else "../../examples/tour/script"):
    if line.strip() and not line.startswith("#"):
        image.act(line)
print(f"{image.refused} refused")
