"""The built program that a script of this folder tries, as its words say: SCRIPT [PROGRAM [CASES]] [--forms]."""
import os, subprocess, sys

TOP = os.path.dirname(os.path.dirname(os.path.abspath(__file__)))
WORDS = [word for word in sys.argv[1:] if word != '--forms']
PROGRAM = os.path.abspath(WORDS[0] if WORDS else f'{TOP}/crates/ccsl/out/ccsl')


def cases(otherwise):
    """How many cases are wanted."""
    return int(WORDS[1]) if len(WORDS) > 1 else otherwise


def answer(*words, given=None, folder=None):
    """The status, and what is written, in a folder where one is named."""
    done = subprocess.run([PROGRAM, *words], input=given, capture_output=True, timeout=120, cwd=folder)
    return done.returncode, done.stdout.decode()


def show_forms(counts):
    """With --forms, how many of the systems have each form of the language."""
    if '--forms' in sys.argv:
        print('systems with each form: ' + ', '.join(f'{form} {count}' for form, count in sorted(counts.items())))
