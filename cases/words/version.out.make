# The version, and with which digits the checksum of the sources begins.
../tools/releasing/sources --title
