"""Represents build/unproved.py: notes that it was called, and copies the program, or fails."""
import os
import pathlib
import shutil
import sys
import time

crate, file = sys.argv[1:]
with open(os.environ["CALLS"], "a") as calls:
    print(crate, file=calls)
if os.environ["WANTED"] == "slow":
    pathlib.Path("slow").write_text(str(os.getpid()))
    time.sleep(300)
if os.environ["WANTED"] == crate:
    sys.exit("error: refused")
shutil.copy(os.environ["PROGRAM"], file)
