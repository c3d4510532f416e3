/* dpkg FILE..: parses each file with libdpkg as `dpkg --merge-avail` parses an index of packages:
 * into its database in memory, with its lax parser. Nothing is written. */
#define LIBDPKG_VOLATILE_API
#include <dpkg/dpkg-db.h>
#include <dpkg/dpkg.h>
#include <dpkg/program.h>

int main(int count, char **words) {
    dpkg_program_init("dpkg");
    for (int at = 1; at < count; at++)
        parsedb(words[at], pdb_parse_available, NULL);
    dpkg_program_done();
    return 0;
}
