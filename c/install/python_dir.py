"""Where python3 looks for modules below a prefix: python_dir.py PREFIX"""
import os
import site
import sys
import sysconfig

prefix = os.path.normpath(sys.argv[1])
below = [it for it in site.getsitepackages() if os.path.commonpath([prefix, it]) == prefix]
# Debian's own modules lie in /usr/lib/python3/dist-packages, and those of the machine's owner in /usr/local.
below = [it for it in below if prefix != "/usr" or not it.startswith("/usr/local/")]
print(below[0] if below else sysconfig.get_path("purelib", "posix_prefix", {"base": prefix}))
