"""apt_fields.py FILE: reads each field of each paragraph with apt_pkg."""
import sys

import apt_pkg

for paragraph in apt_pkg.TagFile(sys.argv[1]):
    for name in paragraph.keys():
        paragraph[name]
