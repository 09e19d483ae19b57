"""What the makers of vectors and cases are asked on their command line: nothing but -h."""
import os
import sys


def asked(text):
    """Prints what a maker does where -h asks for it; refuses any other word, and a folder that is not the repository's root."""
    if sys.argv[1:] in (["-h"], ["--help"]):
        print(text.strip())
        sys.exit(0)
    if sys.argv[1:]:
        refuse("it takes no words, and %s is one" % sys.argv[1])
    if not os.path.isdir("crates"):
        refuse("run it from the repository's root")


def refuse(why):
    print("%s: %s" % (os.path.basename(sys.argv[0]), why), file=sys.stderr)
    sys.exit(2)
