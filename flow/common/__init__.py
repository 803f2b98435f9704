"""What the scripts of flow/ share."""
import sys

if sys.version_info < (3, 11):
    sys.exit("The scripts of flow/ need Python 3.11 or later.")
