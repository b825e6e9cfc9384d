"""Which programs are proved: asked of `bin/proving.sh`, which knows."""
import os
import subprocess

TOP = os.path.dirname(os.path.dirname(os.path.dirname(os.path.abspath(__file__))))
ASK = '. "$top/bin/proving.sh"; is_proved && echo "$program"'


def proved(main):
    """The path of a program that was proved of the present sources, or none."""
    env = {**os.environ, "top": TOP, "main": main, "launcher": "provider"}
    done = subprocess.run(["sh", "-c", ASK], env=env, stdout=subprocess.PIPE, stdin=subprocess.DEVNULL, text=True)
    return done.stdout.strip() if done.returncode == 0 else None


def is_package():
    """True where this is a package, which has programs and no sources."""
    return os.path.exists(os.path.join(TOP, "PACKAGE"))
